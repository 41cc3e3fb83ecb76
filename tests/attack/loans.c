#include "loans.h"

#include <stdio.h>
#include <stdlib.h>
#include <string.h>
#include <sys/mman.h>
#include <unistd.h>

#if __has_include(<valgrind/memcheck.h>)
#include <valgrind/memcheck.h>
#else
#define VALGRIND_MAKE_MEM_UNDEFINED(bytes, length) ((void)(bytes), (void)(length))
#define VALGRIND_MAKE_MEM_DEFINED(bytes, length) ((void)(bytes), (void)(length))
#define VALGRIND_CHECK_MEM_IS_DEFINED(bytes, length) ((void)(bytes), (void)(length), 0)
#endif

#define GUARD ((size_t)4096)
#define MARGIN ((size_t)64) /* as many bytes beside a buffer are looked at */
#define MARGIN_BYTE 0xA5

bool lend_early;

static bool heap;
static uint8_t *writable[SLOTS], *readable[SLOTS]; /* the same pages */
static uint8_t before[SLOTS][ROOM];                /* what was lent */

static void *must(void *mapped)
{
    if (mapped != MAP_FAILED)
        return mapped;
    perror("mmap");
    exit(2);
}

/* Maps a file's ROOM bytes between two pages that may not be touched. */
static uint8_t *map_between(int file, int protection)
{
    uint8_t *whole = must(mmap(NULL, GUARD + ROOM + GUARD, PROT_NONE, MAP_PRIVATE | MAP_ANONYMOUS, -1, 0));
    return must(mmap(whole + GUARD, ROOM, protection, MAP_SHARED | MAP_FIXED, file, 0));
}

void loans_open(bool from_heap)
{
    heap = from_heap;
    if (heap)
        return;
    for (int slot = 0; slot < SLOTS; slot++) {
        int file = memfd_create("loan", 0);
        if (file < 0 || ftruncate(file, ROOM) != 0) {
            perror("memfd_create");
            exit(2);
        }
        writable[slot] = map_between(file, PROT_READ | PROT_WRITE);
        readable[slot] = map_between(file, PROT_READ);
        close(file);
    }
}

/* The bytes beside a buffer where no forbidden page follows at once. */
static uint8_t *margin(const struct loan *loan, size_t *length)
{
    *length = heap ? 0 : ROOM - loan->length < MARGIN ? ROOM - loan->length : MARGIN;
    if (*length == 0)
        return NULL;
    return loan->early ? loan->own + loan->length : loan->own - *length;
}

static struct loan lend_from(uint8_t *const pages[], enum slot slot, const void *bytes, size_t length)
{
    struct loan loan = {NULL, length, slot, lend_early, NULL};
    if (length > ROOM)
        abort();
    if (heap) {
        loan.lent = loan.own = length > 0 ? malloc(length) : lend_early ? NULL : (uint8_t *)1;
    } else {
        size_t start = lend_early ? 0 : ROOM - length;
        loan.own = writable[slot] + start;
        loan.lent = length > 0 || !lend_early ? pages[slot] + start : NULL;
    }
    if (length > 0) {
        memcpy(before[slot], bytes, length);
        memcpy(loan.own, bytes, length);
    }
    size_t beside;
    uint8_t *at = margin(&loan, &beside);
    if (beside > 0)
        memset(at, MARGIN_BYTE, beside);
    return loan;
}

struct loan lend(enum slot slot, const void *bytes, size_t length)
{
    return lend_from(writable, slot, bytes, length);
}

struct loan lend_const(enum slot slot, const void *bytes, size_t length)
{
    return lend_from(readable, slot, bytes, length);
}

bool loan_kept(const struct loan *loan, size_t from)
{
    size_t beside;
    const uint8_t *at = margin(loan, &beside);
    for (size_t k = 0; k < beside; k++)
        if (at[k] != MARGIN_BYTE)
            return false;
    return from >= loan->length || memcmp(loan->own + from, before[loan->slot] + from, loan->length - from) == 0;
}

void loan_end(const struct loan *loan, void *bytes)
{
    if (bytes && loan->length > 0)
        memcpy(bytes, loan->own, loan->length);
    if (heap && loan->length > 0)
        free(loan->own);
}

void loan_blur(const struct loan *loan)
{
    VALGRIND_MAKE_MEM_UNDEFINED(loan->own, loan->length);
}

void loan_clear(const struct loan *loan)
{
    VALGRIND_MAKE_MEM_DEFINED(loan->own, loan->length);
}

bool loan_defined(const struct loan *loan, size_t length)
{
    return VALGRIND_CHECK_MEM_IS_DEFINED(loan->own, length) == 0;
}
