/* Tests of the library through its header. The last line is 'N passed, 0 failed'. */
#include <stdio.h>
#include <stdlib.h>
#include <string.h>

#include "sheet.h"

#define LONGER (SHEET_AREA_WORDS + 100)
#define ROOM 64
#define WORD 0xdeadbeef
#define BYTE 0x5a

/* The bar's session of document 01, and its answers. */
static const uint8_t bar[] = {0x03, 0x00, 0x07, 0x00, 0x03, 0x00, 0x08, 0x00, 0x0c, 0x04, 0x09, 0x09, 0x01, 0x00, 0x09, 0x05, 0x02, 0x01,
                              0x01, 0x04, 0x02, 0x07, 0x04, 0x09, 0x01, 0x01, 0x09, 0x01, 0x00, 0x03, 0x05, 0x01, 0x00, 0x01, 0x08};
static const uint8_t answers[] = {0x03, 0x00, 0x01, 0x00, 0x03, 0x00, 0x01, 0x01, 0x02, 0x00, 0x01, 0x02, 0x00,
                                  0x00, 0x07, 0x00, 0x05, 0x02, 0x01, 0x01, 0x04, 0x02, 0x02, 0x00, 0x01};

static uint32_t areas[4][LONGER];
static uint8_t out[ROOM];
static uint64_t orders, bytes;
static int passed, failed;

static void check(const char *name, int holds) {
    if (holds) {
        passed++;
    } else {
        failed++;
        printf("failed: %s\n", name);
    }
}

/* Runs a sheet with areas of the given lengths; output, areas and counts hold rubbish before. */
static uint32_t run_with(const uint8_t *sheet, size_t sheet_len, uint8_t *to, size_t room, const size_t *words) {
    memset(out, BYTE, sizeof out);
    for (size_t i = 0; i < 4; i++)
        for (size_t j = 0; j < LONGER; j++) areas[i][j] = WORD;
    orders = bytes = 77;
    return sheet_run(sheet, sheet_len, to, room, areas[0], words[0], areas[1], words[1], areas[2], words[2], areas[3], words[3],
                     &orders, &bytes);
}

static uint32_t run(const uint8_t *sheet, size_t sheet_len, size_t room) {
    static const size_t words[4] = {SHEET_AREA_WORDS, SHEET_AREA_WORDS, SHEET_AREA_WORDS, SHEET_AREA_WORDS};
    return run_with(sheet, sheet_len, out, room, words);
}

/* Whether the first `lent` words of every area are 0 and the others are as they were. */
static int zeroed(size_t lent) {
    for (size_t i = 0; i < 4; i++)
        for (size_t j = 0; j < LONGER; j++)
            if (areas[i][j] != (j < lent ? 0 : WORD)) return 0;
    return 1;
}

/* Whether the output from a byte on is as it was. */
static int untouched(size_t from) {
    for (size_t i = from; i < ROOM; i++)
        if (out[i] != BYTE) return 0;
    return 1;
}

static int ended(uint64_t o, uint64_t n) { return orders == o && bytes == n; }

static void the_bar(void) {
    check("bar: reason", run(bar, sizeof bar, ROOM) == SHEET_USED_UP);
    check("bar: counts", ended(6, sizeof answers));
    check("bar: answers", memcmp(out, answers, sizeof answers) == 0);
    check("bar: output past the answers", untouched(sizeof answers));
    check("bar: areas", zeroed(SHEET_AREA_WORDS));
}

static void longer_areas(void) {
    static const size_t all[4] = {LONGER, LONGER, LONGER, LONGER};
    check("longer areas: reason", run_with(bar, sizeof bar, out, ROOM, all) == SHEET_USED_UP);
    check("longer areas: answers", ended(6, sizeof answers) && memcmp(out, answers, sizeof answers) == 0);
    check("longer areas: all words 0", zeroed(LONGER));
}

static void the_output(void) {
    check("exact fit: reason", run(bar, sizeof bar, sizeof answers) == SHEET_USED_UP);
    check("exact fit: answers", ended(6, sizeof answers) && memcmp(out, answers, sizeof answers) == 0);
    check("exact fit: bytes behind", untouched(sizeof answers));
    /* The last answer has 3 bytes. */
    check("one byte short: reason", run(bar, sizeof bar, sizeof answers - 1) == SHEET_OUTPUT_FULL);
    check("one byte short: answers", ended(5, sizeof answers - 3) && memcmp(out, answers, sizeof answers - 3) == 0);
    check("one byte short: output past the answers", untouched(sizeof answers - 3));
    check("one byte short: areas", zeroed(SHEET_AREA_WORDS));
    check("no output: reason", run(bar, sizeof bar, 0) == SHEET_OUTPUT_FULL);
    check("no output: nothing written", ended(0, 0) && untouched(0));
    check("no output: areas", zeroed(SHEET_AREA_WORDS));
}

static void the_lengths(void) {
    static const uint8_t beyond[] = {0x03, 0x00, 0x07, 0x00, 0x02, 0x08};
    static const uint8_t faulty[] = {0x01, 0x08, 0x80, 0x00};
    check("length beyond the sheet: reason", run(beyond, sizeof beyond, ROOM) == SHEET_BAD_LENGTH);
    check("length beyond the sheet: answers", ended(1, 4) && memcmp(out, answers, 4) == 0 && untouched(4));
    check("length beyond the sheet: areas", zeroed(SHEET_AREA_WORDS));
    check("length not shortest: reason", run(faulty, sizeof faulty, ROOM) == SHEET_BAD_LENGTH);
    check("length not shortest: answers", ended(1, 3) && memcmp(out, "\x02\x00\x00", 3) == 0 && untouched(3));
    check("empty sheet", run(bar, 0, ROOM) == SHEET_USED_UP && ended(0, 0) && untouched(0) && zeroed(SHEET_AREA_WORDS));
}

static void the_sizes(void) {
    uint8_t *large = (uint8_t *)calloc(SHEET_MAX_BYTES + 1, 1);
    if (large == NULL) {
        check("memory for the largest sheet", 0);
        return;
    }
    for (size_t i = 0; i < 4; i++) {
        size_t words[4] = {LONGER, LONGER, LONGER, LONGER};
        words[i] = SHEET_AREA_WORDS - 1;
        check("short area: reason", run_with(bar, sizeof bar, out, ROOM, words) == SHEET_BAD_SIZES);
        check("short area: nothing written", ended(0, 0) && untouched(0) && zeroed(0));
    }
    check("sheet too long: reason", run(large, SHEET_MAX_BYTES + 1, ROOM) == SHEET_BAD_SIZES);
    check("sheet too long: nothing written", ended(0, 0) && untouched(0) && zeroed(0));
    {
        static const size_t words[4] = {SHEET_AREA_WORDS, SHEET_AREA_WORDS, SHEET_AREA_WORDS, SHEET_AREA_WORDS};
        check("output too long: reason", run_with(bar, sizeof bar, large, SHEET_MAX_BYTES + 1, words) == SHEET_BAD_SIZES);
        check("output too long: nothing written", ended(0, 0) && large[0] == 0 && zeroed(0));
        check("longest output: reason", run_with(bar, sizeof bar, large, SHEET_MAX_BYTES, words) == SHEET_USED_UP);
        check("longest output: answers", ended(6, sizeof answers) && memcmp(large, answers, sizeof answers) == 0);
    }
    /* Empty orders: the answer of each is a refusal, of two bytes, so 32 of them fit. */
    memset(large, 0, SHEET_MAX_BYTES);
    check("longest sheet: reason", run(large, SHEET_MAX_BYTES, ROOM) == SHEET_OUTPUT_FULL);
    check("longest sheet: answers", ended(ROOM / 2, ROOM) && out[0] == 1 && out[1] == SHEET_REFUSED_LENGTH);
    free(large);
}

/* An order for each refusal that one order can get. */
static void the_refusals(void) {
    static const struct {
        uint8_t refusal, len, sheet[10];
    } cases[] = {
        {SHEET_REFUSED_LENGTH, 1, {0x00}},
        {SHEET_REFUSED_LENGTH, 3, {0x02, 0x08, 0x00}},
        {SHEET_REFUSED_UNLISTED, 2, {0x01, 0xff}},
        {SHEET_REFUSED_NUMBER, 4, {0x03, 0x02, 0x80, 0x00}},
        {SHEET_REFUSED_MEMBERS, 10, {0x09, 0x0f, 0x0d, 0x00, 0x00, 0x02, 0x01, 0x02, 0x01, 0x02}},
        {SHEET_REFUSED_NOT_ISSUED, 4, {0x03, 0x05, 0x01, 0x00}},
        {SHEET_REFUSED_BOUNDS, 10, {0x09, 0x15, 0x00, 0x02, 0x02, 0x00, 0x00, 0x00, 0x00, 0x01}},
    };
    for (size_t i = 0; i < sizeof cases / sizeof cases[0]; i++) {
        check("refusal: reason", run(cases[i].sheet, cases[i].len, ROOM) == SHEET_USED_UP);
        check("refusal: answer", ended(1, 2) && out[0] == 1 && out[1] == cases[i].refusal && untouched(2));
    }
}

int main(void) {
    the_bar();
    longer_areas();
    the_output();
    the_lengths();
    the_sizes();
    the_refusals();
    printf("%d passed, %d failed\n", passed, failed);
    return failed == 0 ? 0 : 1;
}
