/*
 * The run of a sheet: the C declaration of the static library libentry.a.
 *
 * A sheet is a run of orders, each a length and that many bytes. The run answers them one after another in a fresh session; an
 * answer is a length, an outcome byte (0, or a refusal: 1 to 9, or 13) and on 0 the value. Lengths are numbers in base 128, the low
 * group first, the top bit of a byte set where more follow, in the shortest form.
 *
 * For C99 and C++, on x86-64 Linux.
 */
#ifndef SHEET_H
#define SHEET_H

#include <stddef.h>
#include <stdint.h>

/* Each of the four work areas has at least so many words of 32 bits. */
#define SHEET_AREA_WORDS 16384

/* A sheet, and an output, has at most so many bytes. */
#define SHEET_MAX_BYTES 16777216

/* The stack that a caller should have left, in bytes: nearly twice what stack.c measures. */
#define SHEET_STACK_BYTES 524288

/* Why a run ended: what sheet_run returns. */
enum sheet_reason {
    SHEET_USED_UP = 0,      /* the sheet is used up: every order has its answer */
    SHEET_BAD_LENGTH = 10,  /* the next length is faulty, or goes beyond the sheet; the answers before it stand */
    SHEET_OUTPUT_FULL = 11, /* the next answer does not fit whole; its order had no effect; the answers before it stand */
    SHEET_BAD_SIZES = 12    /* sheet or output too long, or an area too short: nothing was done */
};

/* Why an order was refused: the outcome byte of its answer. The session is as if the order had not stood there. */
enum sheet_refusal {
    SHEET_REFUSED_LENGTH = 1,     /* the order ends early, or has bytes after its last field */
    SHEET_REFUSED_UNLISTED = 2,   /* a kind, tag, code, access or range kind that is not listed */
    SHEET_REFUSED_NUMBER = 3,     /* a number that is not in the shortest form, or is too large */
    SHEET_REFUSED_LEVEL = 4,      /* a term at level 201 */
    SHEET_REFUSED_MEMBERS = 5,    /* members that do not strictly rise */
    SHEET_REFUSED_NOT_ISSUED = 6, /* orders 3 to 5: a variable that was not issued */
    SHEET_REFUSED_NODES = 7,      /* kept nodes and this order's nodes exceed 2,048 */
    SHEET_REFUSED_VARIABLES = 8,  /* a new variable while 512 exist */
    SHEET_REFUSED_CHILDREN = 9,   /* orders 19 and 20: more than 8,192 children visited */
    SHEET_REFUSED_BOUNDS = 13     /* order 21: a sign over 1, low above high, or no integer type holds both */
};

#ifdef __cplusplus
extern "C" {
#endif

/*
 * Runs a sheet and returns a reason of enum sheet_reason; there is no other value.
 *
 * What is lent, and how it is left:
 *
 *   sheet       read only. At most SHEET_MAX_BYTES.
 *   out         gets the answers, from its start on. At most SHEET_MAX_BYTES. Bytes from *bytes on are untouched.
 *   a, b, c, d  work areas, each of at least SHEET_AREA_WORDS words. What they hold before does not matter. Afterwards all their
 *               words are 0, however long they are; under SHEET_BAD_SIZES they are untouched.
 *   orders      gets the number of orders answered, refused ones among them. What it held does not matter.
 *   bytes       gets the number of bytes written to out. What it held does not matter.
 *
 * Under SHEET_BAD_SIZES nothing is written to out and *orders and *bytes are 0. That test comes first. Nothing else is read or
 * written, nothing is kept between runs, and no memory is allocated. So runs in several threads at once are sound, each with an
 * output and areas of its own.
 *
 * What the caller must ensure, as nothing can test it here:
 *
 *   - Every pointer is valid for its length, in bytes for sheet and out and in words for the areas, and aligned for its type.
 *   - No pointer is null, also where the length is 0.
 *   - out, a, b, c, d, *orders and *bytes overlap neither each other nor the sheet.
 *   - Nobody else writes the sheet, or touches the others, during the run.
 *   - The stack has SHEET_STACK_BYTES left.
 */
uint32_t sheet_run(const uint8_t *sheet, size_t sheet_len, uint8_t *out, size_t out_len, uint32_t *a, size_t a_len, uint32_t *b,
                   size_t b_len, uint32_t *c, size_t c_len, uint32_t *d, size_t d_len, uint64_t *orders, uint64_t *bytes);

#ifdef __cplusplus
}
#endif

#endif
