/*
 * seatboard.h - the proved picture codec of the seat boards: SMC chunks read and written, the map that says which blocks
 * of a picture can be trusted and the record that keeps how many cannot, the walk of the house feed and of a run of
 * chunks, at once or step by step, and seat symbols painted on a shown picture. Link with libseatboard.a. For x86-64
 * Linux, C99 or C++, GCC or Clang.
 *
 * What the library promises
 *   Whatever bytes and lengths it is lent, every call comes back with one of the numbers below. It reads and writes
 *   nothing but what it is lent, keeps no pointer, allocates nothing, and has no state of its own: threads may call it
 *   at once, each with its own buffers. It calls nothing but memcpy and memset, and needs at most 16 KiB of stack.
 *   A refused call leaves all that it was lent as it was, and hands back the record that it was lent; the one exception
 *   stands at seatboard_walk_feed and seatboard_walk_run.
 *
 * What the caller owes (nothing checks it)
 *   - Each pointer is good for as many elements as the length after it says, for reading, and for writing where it is not
 *     const. Lengths count elements: bytes of chunks, pictures, feeds, runs, outputs and files, 16-bit numbers of maps.
 *   - Where a length is 0 its pointer may be anything, NULL too.
 *   - A buffer that is not const overlaps no other buffer of the call. Two const ones may overlap or be the same.
 *   - A map is aligned for uint16_t, as any array of uint16_t is.
 *   - No other thread touches the buffers during the call.
 *   - For the map to stay true, symbols are painted on a copy of the held picture: see seatboard_paint_symbol.
 *   - For the record to stay true, each call is lent the one that the call before handed back, with the same picture and
 *     map: see below.
 *
 * Picture, blocks, map
 *   One byte a pixel, row after row: a picture of width x height bytes. Width and height are multiples of 4, width 4 to
 *   320, height 4 to 200. Blocks are 4 by 4 pixels, numbered from 0, left to right, then down. A map has one entry a
 *   block: SEATBOARD_SETTLED where the block's pixels do not depend on the starting picture, otherwise the number of the
 *   block of the starting picture whose pixels it shows. Any numbers may be lent; they are moved and never refused.
 *
 * Record
 *   What is kept beside a picture and its map: the size, and how many entries of the map are unsettled, so that nobody
 *   has to count them. seatboard_fresh_map gives a fresh map its record. Whatever reads chunks is lent the record by
 *   value, and hands it back with the answer as it is then: keep that one, whatever the answer. Then its count is always
 *   that of seatboard_count. A record with any other count may be lent; every accepted chunk adds the blocks that it
 *   unsettles and takes away those that it settles, and a chunk after which the count would be below 0 or above the
 *   number of blocks is refused with 21. With records that are kept as said 21 is never given.
 */
#ifndef SEATBOARD_H
#define SEATBOARD_H

#include <stdbool.h>
#include <stddef.h>
#include <stdint.h>

#ifdef __cplusplus
extern "C" {
#endif

/* The number of this interface: it is raised where a function or a struct changes, and stays where functions are added.
 * The library's symbols have it in their names, so that a program built by the header of another interface does not
 * link. */
#define SEATBOARD_INTERFACE 2
#define SEATBOARD_QUOTED(number) #number
#define SEATBOARD_NAMED(number, name) __asm__("seatboard_v" SEATBOARD_QUOTED(number) "_" name)
#define SEATBOARD_SYMBOL(name) SEATBOARD_NAMED(SEATBOARD_INTERFACE, name)

/* A map's entry of a settled block. */
#define SEATBOARD_SETTLED 65535

/* The greatest width and height, in pixels. */
#define SEATBOARD_MAX_WIDTH 320
#define SEATBOARD_MAX_HEIGHT 200

/* For a width and height that are allowed: a picture's bytes, a map's entries, and the most bytes that
 * seatboard_write_chunk writes. */
#define SEATBOARD_PIXELS(width, height) ((size_t)(width) * (size_t)(height))
#define SEATBOARD_BLOCKS(width, height) (SEATBOARD_PIXELS(width, height) / 16)
#define SEATBOARD_LONGEST_CHUNK(width, height) (4 + 17 * SEATBOARD_BLOCKS(width, height))

/* The numbers that a call answers with, and the place that comes with each. Places count bytes from 0 at the chunk's
 * first byte, and for a walk's own 0, 12 and 13 at the feed's or the run's. They are looked for in this order: 1, 2, 3,
 * 4, then opcode by opcode, 11, and 21 last. Of a symbol: 1, 2, 15, 16, 17, then row by row 18 and 19, 20 last.
 * Padding, one to three bytes after a chunk's last block that are all zero, is accepted. It counts in the length that the
 * chunk states, in the one that a feed or run has before it, and in the place of 0.
 * The block that comes with each: the number of blocks for 0 and 11; for 5 to 10 the first block still waiting at that
 * place, which is how many had their turn before it; 0 for the others, and for fresh map, count, feed size and symbol.
 * A step of a walk answers as the chunk that it reads, or as the walk itself. */
enum {
    SEATBOARD_OK = 0,              /* accepted; the place is the length of the chunk, feed or run read, padding included,
                                      or of the chunk written, and 0 for fresh map, count, feed size and symbol */
    SEATBOARD_BAD_SIZE = 1,        /* width or height not allowed; 0 */
    SEATBOARD_BAD_LENGTH = 2,      /* a lent picture or map is not of the exact length, or a feed's size is not the
                                      record's; 0 */
    SEATBOARD_CHUNK_SHORT = 3,     /* chunk under 4 bytes; 0 */
    SEATBOARD_LENGTH_DIFFERS = 4,  /* the chunk's stated length differs from the bytes given; 0 */
    SEATBOARD_BLOCKS_REMAIN = 5,   /* bytes end before an opcode, blocks remain; the chunk's length */
    SEATBOARD_OPCODE_CUT = 6,      /* bytes end inside an opcode; that opcode */
    SEATBOARD_OPCODE_UNKNOWN = 7,  /* opcode F; that opcode */
    SEATBOARD_NONE_BEFORE = 8,     /* a copy with no such block before; that opcode */
    SEATBOARD_PAST_LAST_BLOCK = 9, /* an opcode runs past the last block; that opcode */
    SEATBOARD_ENTRY_EMPTY = 10,    /* a table's entry that was not filled in this chunk; that opcode */
    SEATBOARD_BYTES_FOLLOW = 11,   /* bytes follow the last block that are not padding: four or more, or one that is not
                                      zero; the first byte after the last block */
    SEATBOARD_BAD_VARINT = 12,     /* a number of the feed or run is badly formed; that number */
    SEATBOARD_FEED_CUT = 13,       /* the feed or run ends inside a number or a chunk; the number, or the chunk's first
                                      byte */
    SEATBOARD_OUTPUT_SHORT = 14,   /* the output is shorter than the chunk; 0 */
    SEATBOARD_BAD_SPRITE = 15,     /* a symbol file's head or offset table is cut short, or another version; 0 */
    SEATBOARD_NO_SUCH_FRAME = 16,  /* frame number not below the file's count; 0 */
    SEATBOARD_BAD_FRAME = 17,      /* fewer than 10 bytes from the frame's offset, or one of its first two words not
                                      zero; 0 */
    SEATBOARD_BAD_ROW = 18,        /* a row head cut short, of another code, counting under 4, past the height or past
                                      the bytes; 0 */
    SEATBOARD_BAD_SEGMENT = 19,    /* a segment of another code, past its row's count or past the width, or a byte of
                                      the row left over; 0 */
    SEATBOARD_NO_END_MARKER = 20,  /* rows done, the next two bytes are not 05 00; 0 */
    SEATBOARD_BAD_COUNT = 21       /* the record's count would fall below 0 or above the number of blocks; 0 */
};

struct seatboard_size {
    size_t width, height; /* in pixels */
};

struct seatboard_answer {
    uint8_t number; /* one of the above */
    size_t place;
    size_t block;
};

struct seatboard_record {
    struct seatboard_size size;
    size_t unsettled; /* how many entries of the map are not SEATBOARD_SETTLED */
};

struct seatboard_recorded {
    struct seatboard_answer answer;
    struct seatboard_record record; /* as it is after the call */
};

struct seatboard_count {
    struct seatboard_answer answer;
    size_t unsettled; /* 0 where the count was refused */
};

struct seatboard_tally {
    struct seatboard_answer answer;
    size_t accepted; /* how many chunks were accepted; 0 where the answer is 1 or 2 */
    struct seatboard_record record; /* as it is after the call */
};

struct seatboard_feed_size {
    struct seatboard_answer answer;
    struct seatboard_size size; /* 0 by 0 where the answer is not 0 */
    size_t first; /* where the first chunk's length stands, behind the size numbers; 0 where the answer is not 0 */
};

struct seatboard_step {
    struct seatboard_answer answer; /* the chunk's or, where there was none, the walk's own */
    struct seatboard_record record; /* as it is after the call */
    bool chunk;                     /* was a chunk read? */
    size_t next;                    /* the place behind the chunk or, where there was none, the one that was lent */
};

/* Makes a fresh map: entry k is k; and gives its record: the size and the number of blocks. Answers 0, 1 or 2; on 1 and 2
 * the record has the lent size and count 0. */
struct seatboard_recorded seatboard_fresh_map(struct seatboard_size size, uint16_t *map, size_t map_length)
    SEATBOARD_SYMBOL("fresh_map");

/* Counts the entries that are not SEATBOARD_SETTLED. Answers 0, 1 or 2. */
struct seatboard_count seatboard_count(struct seatboard_size size, const uint16_t *map, size_t map_length)
    SEATBOARD_SYMBOL("count");

/* Reads a chunk over a picture and its map. The chunk is checked whole before anything is painted. Answers 0 to 11, or
 * 21. */
struct seatboard_recorded seatboard_read_chunk(struct seatboard_record record, const uint8_t *chunk,
                                               size_t chunk_length, uint8_t *picture, size_t picture_length,
                                               uint16_t *map, size_t map_length) SEATBOARD_SYMBOL("read_chunk");

/* Writes the chunk that makes the new picture out of the old one to the start of the output, without padding, and leaves
 * the rest of the output as it was. SEATBOARD_LONGEST_CHUNK bytes always suffice; with fewer the chunk is measured
 * first, which takes about as long again. Answers 0, 1, 2 or 14. */
struct seatboard_answer seatboard_write_chunk(struct seatboard_size size, const uint8_t *old_picture, size_t old_length,
                                              const uint8_t *new_picture, size_t new_length, uint8_t *output,
                                              size_t output_length) SEATBOARD_SYMBOL("write_chunk");

/* Tells a feed's size, so that picture and map can be made for it, and where its first chunk's length stands. Answers 0,
 * 1, 12 or 13: 12 and 13 at the size number that fails, and 1, once both are read, for a size that is not allowed. */
struct seatboard_feed_size seatboard_feed_size(const uint8_t *feed, size_t feed_length) SEATBOARD_SYMBOL("feed_size");

/* Walks a feed, which begins with its size, over a picture and its map: each chunk in turn, as by seatboard_read_chunk,
 * with the record that the one before it left. A refused chunk, by 21 too, changes nothing and does not end the walk.
 * Answers 0, 1, 2, 12 or 13: 1 is for the feed's own size, and 2 also for one that is not the record's. A walk that ends
 * in 12 or 13 leaves what the chunks accepted before that made, and hands back the record that goes with it. */
struct seatboard_recorded seatboard_walk_feed(struct seatboard_record record, const uint8_t *feed, size_t feed_length,
                                              uint8_t *picture, size_t picture_length, uint16_t *map,
                                              size_t map_length) SEATBOARD_SYMBOL("walk_feed");

/* Walks a run, which is what a feed has behind its size numbers: for each chunk its length and the chunk. Each chunk in
 * turn, as by seatboard_read_chunk, with the record that the one before it left, and the accepted ones are counted. A
 * refused chunk, by 21 too, changes nothing and does not end the walk. Answers 0, 1, 2, 12 or 13; a walk that ends in 12
 * or 13 leaves what the chunks accepted before that made, counts them, and hands back the record that goes with it. */
struct seatboard_tally seatboard_walk_run(struct seatboard_record record, const uint8_t *run, size_t run_length,
                                          uint8_t *picture, size_t picture_length, uint16_t *map, size_t map_length)
    SEATBOARD_SYMBOL("walk_run");

/* One step of a walk: reads the chunk whose length stands at a place of a feed or run, as by seatboard_read_chunk. To walk
 * by steps, begin at the place that seatboard_feed_size gave, or at 0 in a run, and go on at `next`, with the record that
 * came with it, until no chunk is read: each chunk has its answer then, the last one is the walk's own, and picture, map
 * and record are what the walk leaves. A step reads no size numbers: that a feed's size is the record's is for the caller
 * to see to.
 * With a chunk it answers 0, 3 to 11 or 21, and a refused one changes nothing. With none it answers 0, 1, 2, 12 or 13,
 * and changes nothing: 1 and 2 by the lent record and lengths, before the place is looked at; 0, at the feed's or run's
 * length, for any place from there on. */
struct seatboard_step seatboard_walk_step(struct seatboard_record record, const uint8_t *feed, size_t feed_length,
                                          size_t at, uint8_t *picture, size_t picture_length, uint16_t *map,
                                          size_t map_length) SEATBOARD_SYMBOL("walk_step");

/* Paints a frame of an SPR# file, numbered from 0, on a shown picture. The frame's upper left pixel falls on column
 * left, row top, which may lie off the picture; pixels off it are dropped, and background leaves the picture's pixel.
 * The frame is checked whole before the first pixel is painted. Answers 0, 1, 2 or 15 to 20, at place 0 and block 0.
 * The map does not learn of it, and chunks copy from the picture that they are read over. So copy the held picture
 * first and paint on the copy: then the held picture and its map stay true to each other. */
struct seatboard_answer seatboard_paint_symbol(struct seatboard_size size, uint8_t *picture, size_t picture_length,
                                               const uint8_t *file, size_t file_length, size_t frame, int16_t left,
                                               int16_t top) SEATBOARD_SYMBOL("paint_symbol");

#ifdef __cplusplus
}
#endif

#endif
