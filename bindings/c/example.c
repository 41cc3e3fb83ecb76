/* Gets a picture out of chunks, shows how many blocks cannot be trusted, writes a chunk of its own, walks a feed and a
 * run, makes a board for a feed and goes through that step by step, and paints a symbol. Picture, map and record are kept
 * together: whatever reads chunks is lent all three.
 * cc example.c libseatboard.a -o example && ./example */
#include <stdio.h>
#include <stdlib.h>
#include <string.h>

#include "seatboard.h"

enum { WIDTH = 8, HEIGHT = 8, PIXELS = SEATBOARD_PIXELS(WIDTH, HEIGHT), BLOCKS = SEATBOARD_BLOCKS(WIDTH, HEIGHT) };

static const struct seatboard_size size = {WIDTH, HEIGHT};

static void show(const char *call, struct seatboard_answer answer)
{
    printf("%s: %u at %zu, block %zu\n", call, answer.number, answer.place, answer.block);
}

/* What the call has handed back, to be lent to the next. */
static struct seatboard_record kept(const char *call, struct seatboard_recorded said)
{
    show(call, said.answer);
    printf("unsettled: %zu\n", said.record.unsettled);
    return said.record;
}

static void print_picture(const uint8_t *picture)
{
    for (int y = 0; y < HEIGHT; y++) {
        for (int x = 0; x < WIDTH; x++)
            printf(" %u", picture[y * WIDTH + x]);
        printf("\n");
    }
}

/* Chunks that have waited, handed over at once: each behind its length, and the record beside them. The second one is
 * refused; it changes nothing, does not count, and does not end the run. */
static void walk_run(struct seatboard_record record, uint8_t *picture, uint16_t *map)
{
    const uint8_t run[] = {7, 0xE1, 0, 0, 7, 0x02, 0x60, 6,
                           5, 0xE1, 0, 0, 5, 0x23,
                           7, 0xE1, 0, 0, 7, 0x60, 2, 0x02};
    struct seatboard_tally tally = seatboard_walk_run(record, run, sizeof run, picture, PIXELS, map, BLOCKS);
    show("walk run", tally.answer);
    printf("accepted: %zu, unsettled: %zu\n", tally.accepted, tally.record.unsettled);
}

/* A board for a feed whose size is not known before, and the feed's chunks one by one. The second one is refused; the
 * step behind the last one says how the walk ends. */
static void walk_by_steps(void)
{
    const uint8_t feed[] = {2, 1,
                            6, 0xE1, 0, 0, 6, 0x00, 0x20,
                            4, 0xE1, 0, 0, 4,
                            6, 0xE1, 0, 0, 6, 0x61, 5};
    struct seatboard_feed_size own = seatboard_feed_size(feed, sizeof feed);
    show("feed size", own.answer);
    printf("width: %zu, height: %zu, first chunk: %zu\n", own.size.width, own.size.height, own.first);

    /* refused, the size is 0 by 0, and each step would be refused too */
    size_t pixels = SEATBOARD_PIXELS(own.size.width, own.size.height);
    size_t blocks = SEATBOARD_BLOCKS(own.size.width, own.size.height);
    uint8_t *picture = calloc(pixels, sizeof *picture);
    uint16_t *map = calloc(blocks, sizeof *map);
    if (picture && map) {
        struct seatboard_step step = {.record = seatboard_fresh_map(own.size, map, blocks).record, .next = own.first};
        do {
            step = seatboard_walk_step(step.record, feed, sizeof feed, step.next, picture, pixels, map, blocks);
            show(step.chunk ? "step" : "end", step.answer);
            printf("unsettled: %zu, next: %zu\n", step.record.unsettled, step.next);
        } while (step.chunk);
    }
    free(map);
    free(picture);
}

/* A record that nobody has kept: all blocks are settled, and it says that one more than all of them is not. The chunk
 * would change nothing, and is refused all the same. */
static void lend_untrue_record(uint8_t *picture, uint16_t *map)
{
    const struct seatboard_record untrue = {size, BLOCKS + 1};
    const uint8_t keep[] = {0xE1, 0, 0, 5, 0x03};
    kept("read by an untrue record",
         seatboard_read_chunk(untrue, keep, sizeof keep, picture, PIXELS, map, BLOCKS));
}

/* On a copy, so that the held picture stays as its map says. */
static void paint_symbol(const uint8_t *held)
{
    /* a file with its lowest bytes first: version 502, one frame, palette 0, the frame at 16; there two zero words,
     * height 4, width 4, a word that is passed over, four rows, and the end marker */
    const uint8_t chair[] = {0xF6, 1, 0, 0, 1, 0, 0, 0, 0, 0, 0, 0, 16, 0, 0, 0,
                             0, 0, 0, 0, 4, 0, 4, 0, 0, 0,
                             4, 6, 2, 1, 8, 8,
                             4, 6, 2, 1, 8, 8,
                             4, 6, 2, 4, 8, 8,
                             4, 12, 2, 1, 8, 8, 1, 2, 2, 1, 8, 8,
                             5, 0};
    uint8_t shown[PIXELS];
    memcpy(shown, held, PIXELS);
    show("paint symbol", seatboard_paint_symbol(size, shown, PIXELS, chair, sizeof chair, 0, 5, 2));
    print_picture(shown);
}

int main(void)
{
    uint8_t picture[PIXELS] = {0};
    uint16_t map[BLOCKS];
    struct seatboard_record record = kept("fresh map", seatboard_fresh_map(size, map, BLOCKS));

    /* two blocks skipped, one of colour 5, one of colours 3 and 7 by flags */
    const uint8_t chunk[] = {0xE1, 0, 0, 12, 0x01, 0x60, 5, 0x80, 3, 7, 0x00, 0x0F};
    record = kept("read chunk", seatboard_read_chunk(record, chunk, sizeof chunk, picture, PIXELS, map, BLOCKS));
    print_picture(picture);
    printf("counted afresh: %zu\n", seatboard_count(size, map, BLOCKS).unsettled);

    /* a chunk that keeps block 0, and for block 1 asks for the one two before: refused, and nothing has changed */
    const uint8_t bad[] = {0xE1, 0, 0, 6, 0x00, 0x40};
    record = kept("read a bad chunk", seatboard_read_chunk(record, bad, sizeof bad, picture, PIXELS, map, BLOCKS));

    uint8_t wanted[PIXELS], output[SEATBOARD_LONGEST_CHUNK(WIDTH, HEIGHT)];
    memset(wanted, 9, PIXELS);
    struct seatboard_answer written =
        seatboard_write_chunk(size, picture, PIXELS, wanted, PIXELS, output, sizeof output);
    show("write chunk", written);
    record = kept("read it back",
                  seatboard_read_chunk(record, output, written.place, picture, PIXELS, map, BLOCKS));
    printf("the wanted picture: %s\n", memcmp(picture, wanted, PIXELS) == 0 ? "yes" : "no");

    /* a feed: width / 4, height / 4, which must be the record's size, then each chunk behind its length */
    const uint8_t feed[] = {2, 2, 6, 0xE1, 0, 0, 6, 0x63, 4};
    record = kept("walk feed", seatboard_walk_feed(record, feed, sizeof feed, picture, PIXELS, map, BLOCKS));
    walk_run(record, picture, map);
    walk_by_steps();
    lend_untrue_record(picture, map);
    paint_symbol(picture);
    return 0;
}
