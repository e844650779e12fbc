/*
 * Measures the stack that a run takes: each sheet below is run in a thread whose stack was filled with a mark, and what no longer
 * has the mark was used. The sheets have terms of 200 levels in every shape that a term can nest in, in orders of each way of
 * reading, and normalising to its full depth. It is a failure if half as much again would be more than SHEET_STACK_BYTES.
 */
#define _POSIX_C_SOURCE 200809L
#include <pthread.h>
#include <stdio.h>
#include <stdlib.h>
#include <string.h>

#include "sheet.h"

#define STACK_SIZE (4 * SHEET_STACK_BYTES)
#define MARK 0xa5
#define ROOM 65536
#define LEVELS 200
#define DEEPEST_WALK 66

static uint32_t a[SHEET_AREA_WORDS], b[SHEET_AREA_WORDS], c[SHEET_AREA_WORDS], d[SHEET_AREA_WORDS];
static uint8_t sheet[ROOM], order[ROOM], out[ROOM];
static size_t sheet_len, order_len;
static uint8_t *stack;
static uint64_t answered, written;
static uint32_t reason;
static size_t used;

/* A way to nest: the bytes before the inner term, and those behind it. */
struct shape {
    const char *name;
    size_t before_len, behind_len;
    uint8_t before[8], behind[8];
};

static const struct shape shapes[] = {
    {"Reference", 2, 0, {0, 0}, {0}},
    {"Tuple", 2, 0, {5, 1}, {0}},
    {"Function result", 2, 0, {6, 0}, {0}},
    {"Function parameter", 2, 1, {6, 1}, {2}},
    {"Array", 1, 0, {9}, {0}},
    {"Map key", 2, 1, {10, 0}, {2}},
    {"Map value", 3, 0, {10, 0, 2}, {0}},
    {"Struct argument", 3, 1, {13, 0, 1}, {0}},
    {"Struct member", 5, 0, {13, 0, 0, 1, 0}, {0}},
    {"Projection receiver", 1, 5, {18}, {0, 0, 0, 0, 0}},
    {"Interface argument", 4, 3, {18, 2, 0, 1}, {0, 0, 0}},
    {"Interface member", 6, 2, {18, 2, 0, 0, 1, 0}, {0, 0}},
    {"Projection argument", 7, 0, {18, 2, 0, 0, 0, 0, 1}, {0}},
};

static void put(const uint8_t *bytes, size_t len) {
    memcpy(order + order_len, bytes, len);
    order_len += len;
}

static void put_byte(uint8_t byte) { put(&byte, 1); }

static void put_deep(const struct shape *s, int levels) {
    for (int i = 1; i < levels; i++) put(s->before, s->before_len);
    put_byte(2);
    for (int i = 1; i < levels; i++) put(s->behind, s->behind_len);
}

/* Frames the order, which becomes the whole sheet. */
static void frame(void) {
    size_t n = order_len;
    sheet_len = 0;
    for (; n >= 128; n >>= 7) sheet[sheet_len++] = (uint8_t)(n & 127) | 128;
    sheet[sheet_len++] = (uint8_t)n;
    memcpy(sheet + sheet_len, order, order_len);
    sheet_len += order_len;
    order_len = 0;
}

static void *run(void *unused) {
    uint8_t here = 0;
    uint8_t *low = stack;
    (void)unused;
    reason = sheet_run(sheet, sheet_len, out, ROOM, a, SHEET_AREA_WORDS, b, SHEET_AREA_WORDS, c, SHEET_AREA_WORDS, d,
                       SHEET_AREA_WORDS, &answered, &written);
    while (*low == MARK) low++;
    used = (size_t)(&here - low);
    return NULL;
}

/* Runs the order put together so far, which must be answered with the outcome, in a marked stack. */
static size_t measure(const char *name, uint8_t outcome) {
    pthread_attr_t attributes;
    pthread_t thread;
    size_t at = 0;
    frame();
    memset(stack, MARK, STACK_SIZE);
    if (pthread_attr_init(&attributes) || pthread_attr_setstack(&attributes, stack, STACK_SIZE) ||
        pthread_create(&thread, &attributes, run, NULL) || pthread_join(thread, NULL) || pthread_attr_destroy(&attributes)) {
        fprintf(stderr, "no thread with a stack of our own\n");
        exit(1);
    }
    while (out[at] >= 128) at++;
    if (reason != SHEET_USED_UP || answered != 1 || out[at + 1] != outcome) {
        fprintf(stderr, "%s: reason %u, outcome %u\n", name, (unsigned)reason, (unsigned)out[at + 1]);
        exit(1);
    }
    return used;
}

static size_t larger(size_t x, size_t y) { return x < y ? y : x; }

int main(void) {
    size_t reading = 0, listed = 0, recovering = 0, normalising = 0, walking, all;
    size_t n = sizeof shapes / sizeof shapes[0];
    void *memory;
    if (posix_memalign(&memory, 65536, STACK_SIZE)) return 1;
    stack = (uint8_t *)memory;
    for (size_t i = 0; i < n; i++) {
        const struct shape *s = &shapes[i];
        /* 15: the seven questions, of a term of 200 levels and of one that is refused at level 201. */
        put_byte(15);
        put_deep(s, LEVELS);
        reading = larger(reading, measure(s->name, 0));
        put_byte(15);
        put_deep(s, LEVELS + 1);
        reading = larger(reading, measure(s->name, SHEET_REFUSED_LEVEL));
        /* 12: a substitution whose one entry holds the term. */
        put((const uint8_t *)"\x0c\x01\x00\x00", 4);
        put_deep(s, LEVELS);
        put((const uint8_t *)"\x00\x02", 2);
        listed = larger(listed, measure(s->name, 0));
        put((const uint8_t *)"\x0c\x01\x00\x00", 4);
        put_deep(s, LEVELS + 1);
        listed = larger(listed, measure(s->name, SHEET_REFUSED_LEVEL));
        /* 11: the term is recovered from itself. */
        put_byte(11);
        put_deep(s, LEVELS);
        put_deep(s, LEVELS);
        recovering = larger(recovering, measure(s->name, 0));
        /* 20: a rule whose value stands for a projection, and is walked as deep as the walk goes, 64 levels. */
        put((const uint8_t *)"\x14\x01\x00\x00\x00\x02\x07\x00", 8);
        put_deep(s, DEEPEST_WALK);
        put((const uint8_t *)"\x12\x02\x00\x00\x00\x07\x00", 7);
        normalising = larger(normalising, measure(s->name, 0));
        /* 20: a rule whose receiver is compared with what was walked. */
        put((const uint8_t *)"\x14\x01\x00\x00\x00", 5);
        put_deep(s, DEEPEST_WALK);
        put((const uint8_t *)"\x07\x00\x02\x12", 4);
        put_deep(s, DEEPEST_WALK);
        put((const uint8_t *)"\x00\x00\x00\x07\x00", 5);
        normalising = larger(normalising, measure(s->name, 0));
    }
    /* 20: each rule puts an array of the next projection for a projection: little is read, and 64 levels are walked. */
    put((const uint8_t *)"\x14\x28", 2);
    for (uint8_t i = 0; i < 40; i++) {
        const uint8_t rule[] = {0, 0, 0, 2, i, 0, 9, 18, 2, 0, 0, 0, (uint8_t)(i + 1), 0};
        put(rule, sizeof rule);
    }
    put((const uint8_t *)"\x12\x02\x00\x00\x00\x00\x00", 7);
    walking = measure("rules", 0);
    free(stack);
    all = larger(larger(larger(reading, listed), larger(recovering, normalising)), walking);
    printf("stack in bytes: reading %zu, in a list %zu, recovering %zu, normalising %zu, the same with little to read %zu\n", reading,
           listed, recovering, normalising, walking);
    printf("the largest is %zu of %d\n", all, SHEET_STACK_BYTES);
    return all + all / 2 <= SHEET_STACK_BYTES ? 0 : 1;
}
