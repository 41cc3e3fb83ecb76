/*
 * Buffers lent to the library, so that no touch outside them goes unseen, nor a write to one that is const.
 *
 * Between pages: each slot has pages of its own, with a page before and after that may not be touched. A buffer ends
 * where its pages end or, early, begins where they begin; bytes on its other side are looked at when the loan ends.
 * The pages are mapped twice, the second time for reading alone, and const buffers are lent there: mprotect would have
 * to be called twice for each of them.
 *
 * From the heap: each buffer is allocated at its exact length, for valgrind's memcheck.
 */
#ifndef LOANS_H
#define LOANS_H

#include <stdbool.h>
#include <stddef.h>
#include <stdint.h>

enum slot { CHUNK, PICTURE, MAP, OUTPUT, OLD, NEW, SLOTS };

/* The most bytes that a slot can lend. */
#define ROOM ((size_t)256 * 1024)

struct loan {
    uint8_t *lent; /* as the library gets it; where the length is 0, nothing that can be touched */
    size_t length; /* in bytes */
    enum slot slot;
    bool early;
    uint8_t *own; /* the same bytes, where they can be written */
};

/* Where the buffers lent from here on are placed; for the heap, which pointer stands for an empty one. */
extern bool lend_early;

void loans_open(bool from_heap);

/* Lends a copy of these bytes. One loan of a slot at a time. */
struct loan lend(enum slot slot, const void *bytes, size_t length);
struct loan lend_const(enum slot slot, const void *bytes, size_t length);

/* Are the bytes from this one on as they were lent, and those beside the buffer? */
bool loan_kept(const struct loan *loan, size_t from);

/* Ends the loan, and copies what the buffer holds by now to bytes, unless that is NULL. */
void loan_end(const struct loan *loan, void *bytes);

/* For memcheck: the buffer is undefined from here on, until it is cleared; and are these first bytes of it defined?
 * Where memcheck does not run, all are. */
void loan_blur(const struct loan *loan);
void loan_clear(const struct loan *loan);
bool loan_defined(const struct loan *loan, size_t length);

#endif
