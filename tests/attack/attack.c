/*
 * What an input means: a board, and up to eight calls on it.
 *
 *   width, height   a byte each, taken for an allowed size
 *   picture         a byte: pixel k starts as k times that
 *   calls           a byte each, CALL and flags below, and what that call takes:
 *     any call that is ODD   a size and lengths that need not be allowed: see odd_board
 *     any that is UNTRUE     a byte for the record's count: see untrue_count. It stays as the call leaves it
 *     READ, WALK, RUN        a length, two bytes, lowest first, and as many bytes
 *     WALK, RUN by STEP      before these a byte for the place: see odd_place
 *     WRITE                  the output's room and the new picture: see write_call
 *     NUMBERS                a length and bytes, which become the map, over and over
 *     PAINT                  left and top, two bytes each, a frame, and a length and bytes: see paint_call
 *
 * Bytes after the input's end are 0.
 */
#include <string.h>

#include "inputs.h"
#include "loans.h"
#include "promises.h"

enum { FRESH_MAP, COUNT, NUMBERS, WALK, WRITE, READ, PAINT, RUN, CALL = 7 };
enum {
    EARLY = 8,    /* the buffers begin where their pages begin */
    ODD = 16,
    REPAIR = 32,  /* the chunk states its length; so do those of a feed or run, and the feed has the board's size */
    OVERLAP = 32, /* the new picture starts in the old one */
    HEAD = 32,    /* the symbol file gets a head */
    CLOSE = 64,   /* the chunk is made one that is accepted */
    HIGHEST = 64, /* that head has its highest bytes first */
    STEP = 64,    /* of the feed or run one step is taken */
    UNTRUE = 128
};

struct input {
    const uint8_t *at, *end;
};

static struct board board, trial;
static uint8_t bytes[ROOM], new_picture[MOST];

static unsigned next(struct input *in)
{
    return in->at < in->end ? *in->at++ : 0;
}

static unsigned next_pair(struct input *in)
{
    unsigned low = next(in);
    return low | next(in) << 8;
}

/* Copies as many bytes as a length says and the input has. */
static size_t next_bytes(struct input *in, uint8_t *to)
{
    size_t length = next_pair(in), left = (size_t)(in->end - in->at);
    if (length > left)
        length = left;
    memcpy(to, in->at, length);
    in->at += length;
    return length;
}

/* ---- sizes and lengths that need not be allowed ---- */

#define BIT(n) ((size_t)1 << (n))

/* One more kind than there are sides leaves the side as it is. */
static size_t odd_side(unsigned kind, size_t side)
{
    static const size_t sides[] = {
        0, 1, 2, 3, 5, 6, 201, 202, 204, 256, 319, 321, 324, BIT(16) + 4, BIT(31), BIT(32), BIT(32) + 4, BIT(32) + 8,
        BIT(60), BIT(61), BIT(62), BIT(62) + 4, BIT(63), BIT(63) + 4, SIZE_MAX - 3, SIZE_MAX - 1, SIZE_MAX,
    };
    size_t count = sizeof sides / sizeof *sides;
    return kind % (count + 1) < count ? sides[kind % (count + 1)] : side;
}

/* A length of its kind, as far as there is room for it, behind a shift too. */
static size_t odd_length(unsigned kind, size_t length, size_t product)
{
    /* the product may have wrapped */
    const size_t lengths[] = {length, 0, length - 1, length + 1, length / 2, 2 * length, length + 65536, product};
    size_t odd = lengths[kind % 8];
    return odd <= MOST - 256 ? odd : length;
}

/* Three bytes: width, height, and three bits for each length. */
static void odd_board(struct input *in)
{
    board.size.width = odd_side(next(in), board.size.width);
    board.size.height = odd_side(next(in), board.size.height);
    size_t product = board.size.width * board.size.height;
    unsigned lengths = next(in);
    board.pixels = odd_length(lengths, board.pixels, product);
    board.blocks = odd_length(lengths >> 3, board.blocks, product / 16);
}

/* A count of its kind: by that of a true record, by the number of blocks, by what it was, or very great. */
static void untrue_count(struct input *in)
{
    size_t before = board.unsettled;
    make_true(&board);
    const size_t count = board.unsettled, blocks = board.blocks;
    const size_t counts[] = {
        0, count - 1, count + 1, blocks, blocks + 1, SIZE_MAX, count, before, 2 * blocks, SIZE_MAX - 1, BIT(16) + count,
        BIT(32) + count, before - 1, before + 1, BIT(63) + count, SIZE_MAX - blocks,
    };
    board.unsettled = counts[next(in) % (sizeof counts / sizeof *counts)];
}

/* ---- chunks, feeds and runs ---- */

/* Makes a chunk that is accepted: what is refused is cut off, and the blocks that remain are skipped. */
static size_t close_chunk(uint8_t *chunk, size_t length)
{
    size_t skip = 256;
    copy_board(&trial, &board); /* a refused chunk changes nothing, and an accepted one is the last */
    make_true(&trial);
    for (int turn = 0; turn < 200; turn++) {
        state_length(chunk, length);
        struct seatboard_answer said = read_bare(&trial, chunk, length);
        if (said.number <= SEATBOARD_LENGTH_DIFFERS)
            break;
        if (said.number == SEATBOARD_BLOCKS_REMAIN) {
            chunk[length++] = 0x10;
            chunk[length++] = (uint8_t)(skip - 1);
            continue;
        }
        if (said.number == SEATBOARD_PAST_LAST_BLOCK && skip > 1)
            skip /= 2;
        if (said.place < 4 || said.place >= length)
            break; /* try_read will say so */
        length = said.place;
    }
    return length;
}

static void read_call(struct input *in, unsigned how)
{
    size_t length = next_bytes(in, bytes);
    if (how & REPAIR)
        state_length(bytes, length);
    if (how & CLOSE)
        length = close_chunk(bytes, length);
    try_read(&board, bytes, length);
}

/* As far as there are whole chunks. */
static void state_lengths(uint8_t *run, size_t length)
{
    size_t chunk;
    for (size_t at = 0; number_at(run, length, &at, &chunk) == 0 && chunk <= length - at; at += chunk)
        state_length(run + at, chunk);
}

/* The last eight are about the end, and far past it. */
static size_t odd_place(unsigned kind, size_t length)
{
    const size_t places[] = {length - 1, length, length + 1, BIT(16), BIT(32), BIT(63) + 2, SIZE_MAX - 1, SIZE_MAX};
    return kind < 248 ? kind : places[kind - 248];
}

/* A feed, which gets its size numbers where it is repaired, or a run. */
static void walk_call(struct input *in, unsigned how)
{
    bool feed = (how & CALL) == WALK;
    unsigned place = how & STEP ? next(in) : 0;
    size_t start = feed && how & REPAIR ? put_size(&board, bytes) : 0, length = start + next_bytes(in, bytes + start);
    if (how & REPAIR)
        state_lengths(bytes + start, length - start);
    if (how & STEP)
        try_step(&board, bytes, length, odd_place(place, length));
    else if (feed)
        try_walk(&board, bytes, length);
    else
        try_run(&board, bytes, length);
}

/* ---- pictures and maps ---- */

/* Paints runs of blocks in the new picture: how many runs, then for each the first block (two bytes), the number of
 * blocks, the length of a pattern, and the pattern, which each block repeats. */
static void paint_runs(struct input *in)
{
    size_t width = board.size.width;
    for (unsigned runs = next(in) % 32; runs > 0; runs--) {
        size_t first = next_pair(in) % board.blocks, count = next(in) + 1, length = next(in) % 16 + 1;
        uint8_t pattern[16];
        for (size_t k = 0; k < length; k++)
            pattern[k] = (uint8_t)next(in);
        for (size_t block = first; block < first + count && block < board.blocks; block++)
            for (size_t k = 0; k < 16; k++)
                new_picture[corner_of(block, width) + k / 4 * width + k % 4] = pattern[k % length];
    }
}

/* A byte for the output's room, and one for the new picture's length where that is odd. The new picture is the old one,
 * overlapping and shifted by a byte's number, or with runs painted. */
static void write_call(struct input *in, unsigned how)
{
    struct wish wish = {new_picture, board.pixels, how & OVERLAP, next(in)};
    if (how & ODD)
        wish.pixels = odd_length(next(in), wish.pixels, 16);
    memcpy(new_picture, board.picture, board.pixels);
    if (how & OVERLAP)
        wish.picture = board.picture + next(in);
    else if (board_refusal(&board) == 0)
        paint_runs(in);
    try_write(&board, &wish);
}

static void numbers_call(struct input *in)
{
    size_t length = next_bytes(in, bytes);
    for (size_t k = 0; length > 0 && k < board.blocks && k < MAX_BLOCKS; k++)
        board.map[k] = (uint16_t)(bytes[2 * k % length] | bytes[(2 * k + 1) % length] << 8);
    make_true(&board);
}

/* ---- symbols ---- */

/* Version, count, palette, offset, and the frame's first two words. */
static size_t put_head(uint8_t *to, bool highest)
{
    static const unsigned numbers[] = {502, 1, 0, 16, 0};
    for (size_t k = 0; k < sizeof numbers; k++)
        to[k] = (uint8_t)(numbers[k / 4] >> 8 * (highest ? 3 - k % 4 : k % 4));
    return sizeof numbers;
}

static size_t odd_frame(unsigned kind)
{
    static const size_t frames[] = {BIT(16), BIT(30), BIT(32), BIT(32) + 1, BIT(62), BIT(62) + 1, BIT(63), SIZE_MAX};
    return kind < 248 ? kind : frames[kind - 248];
}

/* The last eight frames are odd ones. Where a head is put in front, the bytes begin with the frame's height. */
static void paint_call(struct input *in, unsigned how)
{
    struct symbol symbol = {.file = bytes};
    symbol.left = (int16_t)next_pair(in);
    symbol.top = (int16_t)next_pair(in);
    symbol.frame = odd_frame(next(in));
    symbol.length = how & HEAD ? put_head(bytes, how & HIGHEST) : 0;
    symbol.length += next_bytes(in, bytes + symbol.length);
    try_paint(&board, &symbol);
}

/* ---- the whole ---- */

static void one_call(struct input *in)
{
    unsigned how = next(in);
    struct seatboard_size size = board.size;
    size_t pixels = board.pixels, blocks = board.blocks;
    lend_early = how & EARLY;
    if (how & ODD)
        odd_board(in);
    if (how & UNTRUE)
        untrue_count(in);
    switch (how & CALL) {
    case FRESH_MAP: try_fresh_map(&board); break;
    case COUNT: try_count(&board); break;
    case NUMBERS: numbers_call(in); break;
    case WALK:
    case RUN: walk_call(in, how); break;
    case WRITE: write_call(in, how); break;
    case READ: read_call(in, how); break;
    case PAINT: paint_call(in, how); break;
    }
    board.size = size;
    board.pixels = pixels;
    board.blocks = blocks;
    if (how & ODD)
        make_true(&board); /* the call may have counted other blocks */
}

void attack(const uint8_t *input, size_t length)
{
    struct input in = {input, input + length};
    /* what an earlier input can have left: no call was ever accepted on more than this */
    memset(board.picture, 0, MAX_PIXELS);
    memset(board.map, 0, MAX_BLOCKS * sizeof *board.map);
    board.size.width = 4 * (next(&in) % (SEATBOARD_MAX_WIDTH / 4) + 1);
    board.size.height = 4 * (next(&in) % (SEATBOARD_MAX_HEIGHT / 4) + 1);
    board.pixels = SEATBOARD_PIXELS(board.size.width, board.size.height);
    board.blocks = SEATBOARD_BLOCKS(board.size.width, board.size.height);
    unsigned step = next(&in);
    for (size_t k = 0; k < board.pixels; k++)
        board.picture[k] = (uint8_t)(k * step);
    for (size_t k = 0; k < board.blocks; k++)
        board.map[k] = (uint16_t)k;
    board.unsettled = board.blocks;
    for (int calls = 0; in.at < in.end && calls < 8; calls++)
        one_call(&in);
}
