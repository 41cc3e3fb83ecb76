/*
 * Each call of the library, with all that seatboard.h promises of it looked at afterwards. A promise that does not hold
 * is named, and the process aborts.
 */
#ifndef PROMISES_H
#define PROMISES_H

#include <stdbool.h>
#include <stddef.h>
#include <stdint.h>

#include "seatboard.h"

/* The most elements of a picture or map, of lengths not allowed too; and what allowed ones never pass. */
#define MOST ((size_t)128 * 1024)
#define MAX_PIXELS SEATBOARD_PIXELS(SEATBOARD_MAX_WIDTH, SEATBOARD_MAX_HEIGHT)
#define MAX_BLOCKS SEATBOARD_BLOCKS(SEATBOARD_MAX_WIDTH, SEATBOARD_MAX_HEIGHT)

/* What a call is given. Size and lengths need not be allowed, nor fit each other, and the record's count need not be that
 * of the map. */
struct board {
    struct seatboard_size size;
    size_t unsettled;      /* with the size, the record that is lent */
    size_t pixels, blocks; /* the lengths that are lent */
    uint8_t picture[MOST];
    uint16_t map[MOST];
};

void copy_board(struct board *to, const struct board *from);

/* Makes the board's record a true one. */
void make_true(struct board *board);

/* Reads a chunk over the board, and keeps the record that is handed back. The buffers are the board's own: where they are
 * touched is not looked at. */
struct seatboard_answer read_bare(struct board *board, const uint8_t *chunk, size_t length);

bool allowed(struct seatboard_size size);

/* Where a block's first pixel stands in a picture of this width. */
size_t corner_of(size_t block, size_t width);

/* 1, 2 or 0, as a call looks for them first: by the size and the map's length, and by the picture's too. */
unsigned map_refusal(const struct board *board);
unsigned board_refusal(const struct board *board);

/* Puts a chunk's length into its head, where it has one. */
void state_length(uint8_t *chunk, size_t length);

/* A number of a feed or run at *at. Answers 0, and then *at is behind the number, or 12 or 13. */
unsigned number_at(const uint8_t *bytes, size_t length, size_t *at, size_t *value);

/* The size numbers of a feed for the board, which an allowed size has in a byte each. Returns how many bytes. */
size_t put_size(const struct board *board, uint8_t *to);

void try_fresh_map(struct board *board);
void try_count(const struct board *board);
void try_read(struct board *board, const uint8_t *chunk, size_t length);
void try_walk(struct board *board, const uint8_t *feed, size_t length);
void try_run(struct board *board, const uint8_t *run, size_t length);

/* One step of either, at any place. */
void try_step(struct board *board, const uint8_t *bytes, size_t length, size_t at);

/* What is to be written over the board's picture. Where the two overlap, the new picture starts in the board's own
 * array. The room of the output follows from its kind and from the chunk's length: see room_of. */
struct wish {
    const uint8_t *picture;
    size_t pixels;
    bool overlap;
    unsigned room;
};

/* Leaves the new picture on the board. */
void try_write(struct board *board, const struct wish *wish);

/* A frame of a file, and where its upper left pixel falls. */
struct symbol {
    const uint8_t *file;
    size_t length, frame;
    int16_t left, top;
};

/* Paints on copies of the board's picture, and leaves the board as it is. */
void try_paint(const struct board *board, const struct symbol *symbol);

/* How often 21 was given where the count would have fallen below 0, and where above the number of blocks; feeds told
 * their sizes and were refused; and try_step read a chunk and found none. */
extern size_t fallen_below, risen_above, sizes_told, sizes_refused, steps_read, steps_ended;

/* Chunks of 2^24 - 1 bytes and of a few more, read and walked, in a feed and in a run. */
void try_longest_chunks(void);

/* A run of more chunks than 16 bits can count. */
void try_longest_run(void);

#endif
