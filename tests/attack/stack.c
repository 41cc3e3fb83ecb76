/*
 * How much stack each function of the library takes. Linked with `--wrap` for each of the nine, every call of theirs
 * is made on a painted stack of its own; at the end it is said how much paint the worst call of each has touched.
 */
#include <stdio.h>
#include <stdlib.h>
#include <string.h>
#include <sys/mman.h>
#include <ucontext.h>

#include "seatboard.h"

#define STACK ((size_t)64 * 1024)
#define GUARD ((size_t)4096) /* below the stack, not to be touched */
#define PAINT 0xB7

typedef struct seatboard_answer Answer;
typedef struct seatboard_record Record;
typedef struct seatboard_recorded Recorded;
typedef struct seatboard_tally Tally;
typedef struct seatboard_size Size;
typedef struct seatboard_feed_size FeedSize;
typedef struct seatboard_step Step;

static uint8_t *stack;
static ucontext_t here, there;

static struct taken {
    const char *name;
    size_t bytes;
} empty = {"an empty call", 0}, fresh_map = {"seatboard_fresh_map", 0}, count = {"seatboard_count", 0},
  read_chunk = {"seatboard_read_chunk", 0}, write_chunk = {"seatboard_write_chunk", 0},
  feed_size = {"seatboard_feed_size", 0}, walk_feed = {"seatboard_walk_feed", 0},
  walk_run = {"seatboard_walk_run", 0}, walk_step = {"seatboard_walk_step", 0},
  paint_symbol = {"seatboard_paint_symbol", 0};

/* What the call under way was lent, and what came back. */
static struct lent {
    Size size;
    Record record;
    const uint8_t *in, *more;
    size_t in_length, more_length;
    uint8_t *out;
    size_t out_length;
    uint16_t *map;
    const uint16_t *counted;
    size_t map_length;
    size_t at, frame;
    int16_t left, top;
    Answer answer;
    Recorded recorded;
    struct seatboard_count count;
    FeedSize feed_size;
    Tally tally;
    Step step;
} lent;

static void on_paint(struct taken *taken, void (*call)(void))
{
    memset(stack, PAINT, STACK);
    getcontext(&there);
    there.uc_stack.ss_sp = stack;
    there.uc_stack.ss_size = STACK;
    there.uc_link = &here;
    makecontext(&there, call, 0);
    swapcontext(&here, &there);
    size_t untouched = 0;
    while (untouched < STACK && stack[untouched] == PAINT)
        untouched++;
    if (STACK - untouched > taken->bytes)
        taken->bytes = STACK - untouched;
}

static void nothing(void)
{
}

static void report(void)
{
    static const struct taken *const all[] = {&fresh_map, &count,    &read_chunk, &write_chunk, &feed_size,
                                              &walk_feed, &walk_run, &walk_step,  &paint_symbol};
    for (size_t k = 0; k < sizeof all / sizeof *all; k++)
        if (all[k]->bytes > 0)
            printf("%s: %zu bytes of stack\n", all[k]->name, all[k]->bytes - empty.bytes);
}

__attribute__((constructor)) static void begin(void)
{
    stack = mmap(NULL, GUARD + STACK, PROT_READ | PROT_WRITE, MAP_PRIVATE | MAP_ANONYMOUS, -1, 0);
    if (stack == MAP_FAILED || mprotect(stack, GUARD, PROT_NONE) != 0)
        abort();
    stack += GUARD;
    on_paint(&empty, nothing);
    atexit(report);
}

/* ---- the nine functions: the real one, its call, and what stands in for it ---- */

Recorded __real_seatboard_v2_fresh_map(Size, uint16_t *, size_t);
struct seatboard_count __real_seatboard_v2_count(Size, const uint16_t *, size_t);
Recorded __real_seatboard_v2_read_chunk(Record, const uint8_t *, size_t, uint8_t *, size_t, uint16_t *, size_t);
Answer __real_seatboard_v2_write_chunk(Size, const uint8_t *, size_t, const uint8_t *, size_t, uint8_t *, size_t);
FeedSize __real_seatboard_v2_feed_size(const uint8_t *, size_t);
Recorded __real_seatboard_v2_walk_feed(Record, const uint8_t *, size_t, uint8_t *, size_t, uint16_t *, size_t);
Tally __real_seatboard_v2_walk_run(Record, const uint8_t *, size_t, uint8_t *, size_t, uint16_t *, size_t);
Step __real_seatboard_v2_walk_step(Record, const uint8_t *, size_t, size_t, uint8_t *, size_t, uint16_t *, size_t);
Answer __real_seatboard_v2_paint_symbol(Size, uint8_t *, size_t, const uint8_t *, size_t, size_t, int16_t, int16_t);

static void call_fresh_map(void)
{
    lent.recorded = __real_seatboard_v2_fresh_map(lent.size, lent.map, lent.map_length);
}

static void call_count(void)
{
    lent.count = __real_seatboard_v2_count(lent.size, lent.counted, lent.map_length);
}

static void call_read_chunk(void)
{
    const struct lent *l = &lent;
    lent.recorded =
        __real_seatboard_v2_read_chunk(l->record, l->in, l->in_length, l->out, l->out_length, l->map, l->map_length);
}

static void call_write_chunk(void)
{
    const struct lent *l = &lent;
    lent.answer = __real_seatboard_v2_write_chunk(l->size, l->in, l->in_length, l->more, l->more_length, l->out,
                                                  l->out_length);
}

static void call_feed_size(void)
{
    lent.feed_size = __real_seatboard_v2_feed_size(lent.in, lent.in_length);
}

static void call_walk_feed(void)
{
    const struct lent *l = &lent;
    lent.recorded =
        __real_seatboard_v2_walk_feed(l->record, l->in, l->in_length, l->out, l->out_length, l->map, l->map_length);
}

static void call_walk_run(void)
{
    const struct lent *l = &lent;
    lent.tally =
        __real_seatboard_v2_walk_run(l->record, l->in, l->in_length, l->out, l->out_length, l->map, l->map_length);
}

static void call_walk_step(void)
{
    const struct lent *l = &lent;
    lent.step = __real_seatboard_v2_walk_step(l->record, l->in, l->in_length, l->at, l->out, l->out_length, l->map,
                                              l->map_length);
}

static void call_paint_symbol(void)
{
    const struct lent *l = &lent;
    lent.answer = __real_seatboard_v2_paint_symbol(l->size, l->out, l->out_length, l->in, l->in_length, l->frame,
                                                   l->left, l->top);
}

/* What reads chunks is lent: a chunk, feed or run, and a picture and its map with their record. */
static struct lent with_board(Record record, const uint8_t *in, size_t length, uint8_t *picture, size_t pixels,
                              uint16_t *map, size_t blocks)
{
    return (struct lent){.record = record, .in = in, .in_length = length, .out = picture, .out_length = pixels,
                         .map = map, .map_length = blocks};
}

Recorded __wrap_seatboard_v2_fresh_map(Size size, uint16_t *map, size_t map_length)
{
    lent = (struct lent){.size = size, .map = map, .map_length = map_length};
    on_paint(&fresh_map, call_fresh_map);
    return lent.recorded;
}

struct seatboard_count __wrap_seatboard_v2_count(Size size, const uint16_t *map, size_t map_length)
{
    lent = (struct lent){.size = size, .counted = map, .map_length = map_length};
    on_paint(&count, call_count);
    return lent.count;
}

Recorded __wrap_seatboard_v2_read_chunk(Record record, const uint8_t *chunk, size_t length, uint8_t *picture,
                                        size_t pixels, uint16_t *map, size_t blocks)
{
    lent = with_board(record, chunk, length, picture, pixels, map, blocks);
    on_paint(&read_chunk, call_read_chunk);
    return lent.recorded;
}

Answer __wrap_seatboard_v2_write_chunk(Size size, const uint8_t *old, size_t old_length, const uint8_t *new,
                                       size_t new_length, uint8_t *output, size_t room)
{
    lent = (struct lent){.size = size, .in = old, .in_length = old_length, .more = new, .more_length = new_length,
                         .out = output, .out_length = room};
    on_paint(&write_chunk, call_write_chunk);
    return lent.answer;
}

FeedSize __wrap_seatboard_v2_feed_size(const uint8_t *feed, size_t length)
{
    lent = (struct lent){.in = feed, .in_length = length};
    on_paint(&feed_size, call_feed_size);
    return lent.feed_size;
}

Recorded __wrap_seatboard_v2_walk_feed(Record record, const uint8_t *feed, size_t length, uint8_t *picture,
                                       size_t pixels, uint16_t *map, size_t blocks)
{
    lent = with_board(record, feed, length, picture, pixels, map, blocks);
    on_paint(&walk_feed, call_walk_feed);
    return lent.recorded;
}

Tally __wrap_seatboard_v2_walk_run(Record record, const uint8_t *run, size_t length, uint8_t *picture, size_t pixels,
                                   uint16_t *map, size_t blocks)
{
    lent = with_board(record, run, length, picture, pixels, map, blocks);
    on_paint(&walk_run, call_walk_run);
    return lent.tally;
}

Step __wrap_seatboard_v2_walk_step(Record record, const uint8_t *feed, size_t length, size_t at, uint8_t *picture,
                                   size_t pixels, uint16_t *map, size_t blocks)
{
    lent = with_board(record, feed, length, picture, pixels, map, blocks);
    lent.at = at;
    on_paint(&walk_step, call_walk_step);
    return lent.step;
}

Answer __wrap_seatboard_v2_paint_symbol(Size size, uint8_t *picture, size_t pixels, const uint8_t *file, size_t length,
                                        size_t frame, int16_t left, int16_t top)
{
    lent = (struct lent){.size = size, .in = file, .in_length = length, .out = picture, .out_length = pixels,
                         .frame = frame, .left = left, .top = top};
    on_paint(&paint_symbol, call_paint_symbol);
    return lent.answer;
}
