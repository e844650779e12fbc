/* Runs the bar's session and prints the answers, one to a line: the outcome, then the bytes of the value. */
#include <stdio.h>

#include "sheet.h"

static const uint8_t bar[] = {
    0x03, 0x00, 0x07, 0x00,                                                       /* a variable at site 7: ?0 */
    0x03, 0x00, 0x08, 0x00,                                                       /* a variable at site 8: ?1 */
    0x0c, 0x04, 0x09, 0x09, 0x01, 0x00, 0x09, 0x05, 0x02, 0x01, 0x01, 0x04, 0x02, /* Array(?0) meets Array(Tuple(?1, I32)) */
    0x07, 0x04, 0x09, 0x01, 0x01, 0x09, 0x01, 0x00,                               /* ?1 meets Array(?0), which contains it */
    0x03, 0x05, 0x01, 0x00,                                                       /* ?0 resolved */
    0x01, 0x08                                                                    /* the revision */
};

static uint32_t a[SHEET_AREA_WORDS], b[SHEET_AREA_WORDS], c[SHEET_AREA_WORDS], d[SHEET_AREA_WORDS];
static uint8_t out[32768];

/* Reads a number at a place and moves the place behind it. The output of a run has only whole numbers. */
static size_t read_number(const uint8_t *bytes, size_t *at) {
    size_t value = 0;
    int shift = 0;
    while (bytes[*at] >= 128) {
        value |= (size_t)(bytes[(*at)++] & 127) << shift;
        shift += 7;
    }
    return value | (size_t)bytes[(*at)++] << shift;
}

int main(void) {
    uint64_t orders, bytes;
    size_t at = 0;
    uint32_t reason = sheet_run(bar, sizeof bar, out, sizeof out, a, SHEET_AREA_WORDS, b, SHEET_AREA_WORDS, c, SHEET_AREA_WORDS, d,
                                SHEET_AREA_WORDS, &orders, &bytes);
    printf("reason %u, %llu orders, %llu bytes\n", (unsigned)reason, (unsigned long long)orders, (unsigned long long)bytes);
    while (at < bytes) {
        size_t len = read_number(out, &at);
        printf("%u:", (unsigned)out[at]);
        for (size_t i = 1; i < len; i++) printf(" %02x", (unsigned)out[at + i]);
        printf("\n");
        at += len;
    }
    return reason == SHEET_USED_UP ? 0 : 1;
}
