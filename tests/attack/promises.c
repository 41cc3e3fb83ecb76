#include "promises.h"

#include <stdio.h>
#include <stdlib.h>
#include <string.h>
#include <sys/mman.h>

#include "loans.h"

/* The text of what was promised is all that is needed to find the place. */
#define PROMISE(holds) ((holds) ? (void)0 : broken(#holds))

#define OUTPUT_BYTE 0xC3

typedef struct seatboard_answer Answer;
typedef struct seatboard_record Record;
typedef struct seatboard_recorded Recorded;
typedef struct seatboard_tally Tally;
typedef struct seatboard_feed_size FeedSize;
typedef struct seatboard_step Step;

size_t fallen_below, risen_above, sizes_told, sizes_refused, steps_read, steps_ended;

static struct board start, twin; /* the board that a call is given, and another to try the like on */
static struct board bare;        /* what a chunk without padding leaves */
static uint8_t outputs[2][MOST], wanted[MOST], feed_made[MOST];
static int stamps[2][MAX_PIXELS];

static void broken(const char *promise)
{
    fprintf(stderr, "not kept: %s\n", promise);
    abort();
}

/* ---- boards and answers ---- */

bool allowed(struct seatboard_size size)
{
    return size.width % 4 == 0 && 4 <= size.width && size.width <= SEATBOARD_MAX_WIDTH && size.height % 4 == 0 &&
           4 <= size.height && size.height <= SEATBOARD_MAX_HEIGHT;
}

unsigned map_refusal(const struct board *board)
{
    if (!allowed(board->size))
        return SEATBOARD_BAD_SIZE;
    return board->blocks == SEATBOARD_BLOCKS(board->size.width, board->size.height) ? 0 : SEATBOARD_BAD_LENGTH;
}

unsigned board_refusal(const struct board *board)
{
    unsigned refusal = map_refusal(board);
    if (refusal)
        return refusal;
    return board->pixels == SEATBOARD_PIXELS(board->size.width, board->size.height) ? 0 : SEATBOARD_BAD_LENGTH;
}

void copy_board(struct board *to, const struct board *from)
{
    to->size = from->size;
    to->unsettled = from->unsettled;
    to->pixels = from->pixels;
    to->blocks = from->blocks;
    memcpy(to->picture, from->picture, from->pixels);
    memcpy(to->map, from->map, from->blocks * sizeof *from->map);
}

static bool same_size(struct seatboard_size a, struct seatboard_size b)
{
    return a.width == b.width && a.height == b.height;
}

static bool same_record(Record a, Record b)
{
    return same_size(a.size, b.size) && a.unsettled == b.unsettled;
}

/* Whatever their records say. */
static bool same_buffers(const struct board *a, const struct board *b)
{
    return memcmp(a->picture, b->picture, a->pixels) == 0 &&
           memcmp(a->map, b->map, a->blocks * sizeof *a->map) == 0;
}

static Record record_of(const struct board *board)
{
    return (Record){board->size, board->unsettled};
}

static bool same_board(const struct board *a, const struct board *b)
{
    return same_record(record_of(a), record_of(b)) && same_buffers(a, b);
}

/* The record that a call has handed back, whose size is always the lent one. */
static void keep(struct board *board, Record record)
{
    PROMISE(same_size(record.size, board->size));
    board->unsettled = record.unsettled;
}

/* What a true record says. */
static size_t unsettled_of(const struct board *board)
{
    size_t unsettled = 0;
    for (size_t k = 0; k < board->blocks; k++)
        unsettled += board->map[k] != SEATBOARD_SETTLED;
    return unsettled;
}

void make_true(struct board *board)
{
    board->unsettled = unsettled_of(board);
}

size_t corner_of(size_t block, size_t width)
{
    return block / (width / 4) * 4 * width + block % (width / 4) * 4;
}

static bool same_block(const uint8_t *a, size_t block_of_a, const uint8_t *b, size_t block_of_b, size_t width)
{
    a += corner_of(block_of_a, width);
    b += corner_of(block_of_b, width);
    for (size_t row = 0; row < 4; row++)
        if (memcmp(a + row * width, b + row * width, 4) != 0)
            return false;
    return true;
}

static bool same_answer(Answer a, Answer b)
{
    return a.number == b.number && a.place == b.place && a.block == b.block;
}

static Answer answered(unsigned number, size_t place, size_t block)
{
    return (Answer){(uint8_t)number, place, block};
}

static struct loan lend_map(const struct board *board)
{
    return lend(MAP, board->map, board->blocks * sizeof *board->map);
}

static uint16_t *entries(const struct loan *map)
{
    return (uint16_t *)(void *)map->lent;
}

/* ---- fresh map and count ---- */

void try_fresh_map(struct board *board)
{
    struct loan map = lend_map(board);
    loan_blur(&map);
    Recorded said = seatboard_fresh_map(board->size, entries(&map), board->blocks);
    bool made = said.answer.number == 0;
    PROMISE(same_answer(said.answer, answered(map_refusal(board), 0, 0)));
    PROMISE(same_record(said.record, (Record){board->size, made ? board->blocks : 0}));
    PROMISE(!made || loan_defined(&map, map.length));
    loan_clear(&map);
    PROMISE(loan_kept(&map, made ? map.length : 0));
    loan_end(&map, board->map);
    for (size_t k = 0; made && k < board->blocks; k++)
        PROMISE(board->map[k] == k);
    if (made)
        keep(board, said.record);
}

void try_count(const struct board *board)
{
    struct loan map = lend_const(MAP, board->map, board->blocks * sizeof *board->map);
    struct seatboard_count said = seatboard_count(board->size, entries(&map), board->blocks);
    PROMISE(same_answer(said.answer, answered(map_refusal(board), 0, 0)));
    PROMISE(said.unsettled == (said.answer.number == 0 ? unsettled_of(board) : 0));
    PROMISE(loan_kept(&map, 0));
    loan_end(&map, NULL);
}

/* ---- a chunk, feed or run, and the board that it is for ---- */

struct loans {
    struct loan bytes, picture, map;
};

/* To memcheck, the picture is undefined meanwhile: it would report a jump that depends on it. The map is not, since
 * whether there is a 21 depends on it. */
static struct loans lend_all(const struct board *board, const uint8_t *bytes, size_t length)
{
    struct loans loans = {lend_const(CHUNK, bytes, length), lend(PICTURE, board->picture, board->pixels),
                          lend_map(board)};
    loan_blur(&loans.picture);
    return loans;
}

/* Into the board, which the call may have changed or not, with the record that was handed back. */
static void take_back(struct loans *loans, struct board *board, bool may_change, Record record)
{
    loan_clear(&loans->picture);
    PROMISE(loan_kept(&loans->bytes, 0));
    PROMISE(loan_kept(&loans->picture, may_change ? loans->picture.length : 0));
    PROMISE(loan_kept(&loans->map, may_change ? loans->map.length : 0));
    PROMISE(may_change || same_record(record, record_of(board)));
    loan_end(&loans->bytes, NULL);
    loan_end(&loans->picture, board->picture);
    loan_end(&loans->map, board->map);
    keep(board, record);
}

/* ---- reading ---- */

/* The call alone. */
static Answer call_read(struct board *board, const uint8_t *chunk, size_t length)
{
    struct loans l = lend_all(board, chunk, length);
    Recorded said = seatboard_read_chunk(record_of(board), l.bytes.lent, length, l.picture.lent, board->pixels,
                                         entries(&l.map), board->blocks);
    take_back(&l, board, said.answer.number == 0, said.record);
    return said.answer;
}

Answer read_bare(struct board *board, const uint8_t *chunk, size_t length)
{
    Recorded said = seatboard_read_chunk(record_of(board), chunk, length, board->picture, board->pixels, board->map,
                                         board->blocks);
    keep(board, said.record);
    return said.answer;
}

/* 1 to 4, which no opcode has a say in, or 0. */
static unsigned chunk_refusal(const struct board *board, const uint8_t *chunk, size_t length)
{
    if (board_refusal(board))
        return board_refusal(board);
    if (length < 4)
        return SEATBOARD_CHUNK_SHORT;
    size_t stated = (size_t)chunk[1] << 16 | (size_t)chunk[2] << 8 | chunk[3];
    return stated == length ? 0 : SEATBOARD_LENGTH_DIFFERS;
}

/* Bytes after the last block that are accepted. */
static bool padding(const uint8_t *bytes, size_t length)
{
    static const uint8_t zeros[3];
    return length <= sizeof zeros && memcmp(bytes, zeros, length) == 0;
}

/* Can this number be given at this place, with that opcode there? */
static bool place_promised(Answer said, const uint8_t *chunk, size_t length)
{
    if (said.number == SEATBOARD_BAD_COUNT)
        return said.place == 0;
    if (said.number <= SEATBOARD_BLOCKS_REMAIN)
        return said.place == (said.number == SEATBOARD_OK || said.number == SEATBOARD_BLOCKS_REMAIN ? length : 0);
    if (said.number > SEATBOARD_BYTES_FOLLOW || said.place < 4 || said.place >= length)
        return false;
    unsigned upper = chunk[said.place] >> 4;
    switch (said.number) {
    case SEATBOARD_OPCODE_UNKNOWN: return upper == 0xF;
    case SEATBOARD_NONE_BEFORE: return 2 <= upper && upper <= 5;
    case SEATBOARD_ENTRY_EMPTY: return upper == 9 || upper == 0xB || upper == 0xD;
    case SEATBOARD_BYTES_FOLLOW: return said.place > 4 && !padding(chunk + said.place, length - said.place);
    default: return upper != 0xF;
    }
}

void state_length(uint8_t *chunk, size_t length)
{
    if (length < 4)
        return;
    chunk[1] = (uint8_t)(length >> 16);
    chunk[2] = (uint8_t)(length >> 8);
    chunk[3] = (uint8_t)length;
}

/* The number of blocks, 0, or for 5 to 10 the first block still waiting: a chunk cut off there is accepted when just
 * that block and those after it are skipped. */
static void promise_block(const struct board *board, Answer said, const uint8_t *chunk)
{
    bool all = said.number == SEATBOARD_OK || said.number == SEATBOARD_BYTES_FOLLOW;
    if (all || said.number < SEATBOARD_BLOCKS_REMAIN || said.number == SEATBOARD_BAD_COUNT) {
        PROMISE(said.block == (all ? board->blocks : 0));
        return;
    }
    PROMISE(said.block < board->blocks);
    size_t at = said.place;
    memcpy(feed_made, chunk, at);
    for (size_t rest = board->blocks - said.block, skip; rest > 0; rest -= skip) {
        skip = rest < 256 ? rest : 256;
        feed_made[at++] = 0x10;
        feed_made[at++] = (uint8_t)(skip - 1);
    }
    state_length(feed_made, at);
    copy_board(&twin, &start);
    make_true(&twin);
    PROMISE(call_read(&twin, feed_made, at).number == 0);
}

/* The first bytes of a chunk, and a tail behind them, read over the board that a call was given, with a true record. */
static Answer read_with(const uint8_t *chunk, size_t end, const uint8_t *tail, size_t length)
{
    memcpy(feed_made, chunk, end);
    memcpy(feed_made + end, tail, length);
    state_length(feed_made, end + length);
    copy_board(&twin, &start);
    make_true(&twin);
    return read_bare(&twin, feed_made, end + length);
}

/* Where the last block of a chunk that was accepted ends: a byte that is not zero tells, behind it. */
static size_t end_of(const uint8_t *chunk, size_t length)
{
    Answer said = read_with(chunk, length, (const uint8_t[]){0xFF}, 1);
    PROMISE(same_answer(said, answered(SEATBOARD_BYTES_FOLLOW, said.place, start.blocks)));
    PROMISE(4 < said.place && said.place <= length && padding(chunk + said.place, length - said.place));
    return said.place;
}

/* Of a chunk that ends here with its last block: what may follow that, and what may not. */
static void promise_padding(const uint8_t *chunk, size_t end)
{
    const Answer refused = answered(SEATBOARD_BYTES_FOLLOW, end, start.blocks);
    for (size_t zeros = 0; zeros <= 4; zeros++) {
        Answer said = read_with(chunk, end, (const uint8_t[4]){0}, zeros);
        if (zeros == 0)
            copy_board(&bare, &twin);
        PROMISE(same_answer(said, zeros < 4 ? answered(0, end + zeros, start.blocks) : refused));
        PROMISE(same_buffers(&twin, zeros < 4 ? &bare : &start) && twin.unsettled == unsettled_of(&twin));
    }
    for (size_t place = 0; place < 3; place++) {
        uint8_t tail[3] = {0};
        tail[place] = (uint8_t)(1 << (end + place) % 8);
        Answer said = read_with(chunk, end, tail, 3 - end % (3 - place)); /* behind that byte up to two zeros */
        PROMISE(same_answer(said, refused) && same_buffers(&twin, &start));
    }
}

/* What a chunk should answer and leave, by what it does with a true record: there is no 21 then, and the record stays
 * true; any other count moves as far. From three times the blocks on all counts are alike. */
static void promise_count(const struct board *board, Answer said, const uint8_t *chunk, size_t length)
{
    copy_board(&twin, &start);
    make_true(&twin);
    size_t before = twin.unsettled, blocks = start.blocks, lent = start.unsettled;
    Answer by_true = read_bare(&twin, chunk, length);
    PROMISE(by_true.number != SEATBOARD_BAD_COUNT && twin.unsettled == unsettled_of(&twin));
    if (lent > 3 * blocks)
        lent = 3 * blocks;
    bool below = lent + twin.unsettled < before, above = lent + twin.unsettled > before + blocks;
    if (by_true.number == 0 && (below || above)) {
        PROMISE(same_answer(said, answered(SEATBOARD_BAD_COUNT, 0, 0)) && same_board(board, &start));
        fallen_below += below;
        risen_above += above;
        return;
    }
    PROMISE(same_answer(said, by_true) && same_buffers(board, &twin));
    if (said.number == 0)
        PROMISE(board->unsettled == lent + twin.unsettled - before);
}

static Answer call_walk(struct board *board, const uint8_t *feed, size_t length);
static Tally call_run(struct board *board, const uint8_t *run, size_t length);

size_t put_size(const struct board *board, uint8_t *to)
{
    to[0] = (uint8_t)(board->size.width / 4);
    to[1] = (uint8_t)(board->size.height / 4);
    return 2;
}

/* A run of this chunk alone. */
static size_t put_run_of_one(const uint8_t *chunk, size_t length, uint8_t *to)
{
    size_t at = 0, rest = length;
    for (; rest > 127; rest >>= 7)
        to[at++] = (uint8_t)(rest | 128);
    to[at++] = (uint8_t)rest;
    if (length > 0)
        memcpy(to + at, chunk, length);
    return at + length;
}

/* A chunk that was read does the same alone in a feed, and alone in a run. */
static void promise_alone(const struct board *board, Answer said, const uint8_t *chunk, size_t length)
{
    size_t sizes = put_size(board, feed_made), run = put_run_of_one(chunk, length, feed_made + sizes);
    copy_board(&twin, &start);
    Answer walked = call_walk(&twin, feed_made, sizes + run);
    PROMISE(same_answer(walked, answered(0, sizes + run, board->blocks)) && same_board(&twin, board));
    copy_board(&twin, &start);
    Tally ran = call_run(&twin, feed_made + sizes, run);
    PROMISE(same_answer(ran.answer, answered(0, run, board->blocks)) && same_board(&twin, board));
    PROMISE(ran.accepted == (said.number == 0));
}

/* What the map says of a chunk that was accepted: over another picture and from a fresh map, a block is settled and has
 * the same pixels, or it shows the block of the starting picture that the map names. */
static void promise_origins(const struct board *board, const uint8_t *chunk, size_t length)
{
    copy_board(&twin, &start);
    for (size_t k = 0; k < twin.pixels; k++)
        twin.picture[k] = (uint8_t)~start.picture[k];
    for (size_t k = 0; k < twin.blocks; k++)
        twin.map[k] = (uint16_t)k;
    twin.unsettled = twin.blocks;
    PROMISE(same_answer(call_read(&twin, chunk, length), answered(0, length, board->blocks)));
    for (size_t k = 0; k < twin.blocks; k++) {
        uint16_t from = twin.map[k];
        bool settled = from == SEATBOARD_SETTLED;
        PROMISE(settled || from < twin.blocks);
        PROMISE(board->map[k] == (settled ? SEATBOARD_SETTLED : start.map[from]));
        PROMISE(settled ? same_block(board->picture, k, twin.picture, k, board->size.width)
                        : same_block(board->picture, k, start.picture, from, board->size.width));
    }
}

void try_read(struct board *board, const uint8_t *chunk, size_t length)
{
    copy_board(&start, board);
    unsigned refusal = chunk_refusal(board, chunk, length);
    Answer said = call_read(board, chunk, length);
    PROMISE(refusal ? said.number == refusal : said.number == 0 || said.number > SEATBOARD_LENGTH_DIFFERS);
    PROMISE(place_promised(said, chunk, length));
    promise_block(board, said, chunk);

    lend_early = !lend_early; /* the same bytes at other addresses */
    copy_board(&twin, &start);
    PROMISE(same_answer(call_read(&twin, chunk, length), said) && same_board(&twin, board));
    if (board_refusal(board))
        return;
    promise_count(board, said, chunk, length);
    promise_alone(board, said, chunk, length);
    if (said.number == SEATBOARD_BYTES_FOLLOW)
        promise_padding(chunk, said.place);
    if (said.number != 0)
        return;
    promise_origins(board, chunk, length);
    promise_padding(chunk, end_of(chunk, length));
    PROMISE(same_buffers(&bare, board));
}

/* ---- walking ---- */

static Answer call_walk(struct board *board, const uint8_t *feed, size_t length)
{
    struct loans l = lend_all(board, feed, length);
    Recorded said = seatboard_walk_feed(record_of(board), l.bytes.lent, length, l.picture.lent, board->pixels,
                                        entries(&l.map), board->blocks);
    unsigned number = said.answer.number;
    take_back(&l, board, number != SEATBOARD_BAD_SIZE && number != SEATBOARD_BAD_LENGTH, said.record);
    return said.answer;
}

unsigned number_at(const uint8_t *bytes, size_t length, size_t *at, size_t *value)
{
    *value = 0;
    for (size_t group = 0; group < 4; group++) {
        if (*at + group >= length)
            return SEATBOARD_FEED_CUT;
        uint8_t byte = bytes[*at + group];
        *value |= (size_t)(byte & 127) << 7 * group;
        if (byte >= 128)
            continue;
        *at += group + 1;
        return (byte == 0 && group > 0) || *value > 0xFFFFFF ? SEATBOARD_BAD_VARINT : 0;
    }
    return SEATBOARD_BAD_VARINT;
}

/* What stands at a place, in the header's words: a chunk, which is read by seatboard_read_chunk, or the end. */
static Step step_by_hand(struct board *board, const uint8_t *bytes, size_t length, size_t at)
{
    Step end = {answered(0, length, board->blocks), record_of(board), false, at};
    size_t first = at, chunk = 0;
    unsigned fault = board_refusal(board);
    if (fault) {
        end.answer = answered(fault, 0, 0);
        return end;
    }
    if (at >= length)
        return end;
    fault = number_at(bytes, length, &first, &chunk);
    if (fault || chunk > length - first) {
        end.answer = fault ? answered(fault, at, 0) : answered(SEATBOARD_FEED_CUT, first, 0);
        return end;
    }
    Answer said = read_bare(board, bytes + first, chunk);
    return (Step){said, record_of(board), true, first + chunk};
}

/* Lengths and chunks from a place on, each chunk with the record that the one before it left; and how many of them are
 * accepted. */
static Answer chunks_by_hand(struct board *board, const uint8_t *bytes, size_t length, size_t at, size_t *accepted)
{
    Step step = step_by_hand(board, bytes, length, at);
    for (*accepted = 0; step.chunk; step = step_by_hand(board, bytes, length, step.next))
        *accepted += step.answer.number == 0;
    return step.answer;
}

static FeedSize size_by_hand(const uint8_t *feed, size_t length)
{
    size_t at = 0, number_from = 0, sides[2] = {0, 0};
    for (int side = 0; side < 2; side++, number_from = at) {
        unsigned fault = number_at(feed, length, &at, &sides[side]);
        if (fault)
            return (FeedSize){answered(fault, number_from, 0), {0, 0}, 0};
    }
    const struct seatboard_size size = {4 * sides[0], 4 * sides[1]};
    if (!allowed(size))
        return (FeedSize){answered(SEATBOARD_BAD_SIZE, 0, 0), {0, 0}, 0};
    return (FeedSize){answered(0, 0, 0), size, at};
}

/* A feed: its size, which must be the record's, and the rest. */
static Answer walk_by_hand(struct board *board, const uint8_t *feed, size_t length)
{
    const FeedSize own = size_by_hand(feed, length);
    if (own.answer.number != 0)
        return own.answer;
    if (!same_size(own.size, board->size))
        return answered(SEATBOARD_BAD_LENGTH, 0, 0);
    size_t accepted;
    return chunks_by_hand(board, feed, length, own.first, &accepted);
}

static FeedSize call_feed_size(const uint8_t *feed, size_t length)
{
    struct loan bytes = lend_const(CHUNK, feed, length);
    FeedSize said = seatboard_feed_size(bytes.lent, length);
    PROMISE(loan_kept(&bytes, 0));
    loan_end(&bytes, NULL);
    return said;
}

static FeedSize promise_size(const uint8_t *feed, size_t length)
{
    const FeedSize said = call_feed_size(feed, length), by_hand = size_by_hand(feed, length);
    PROMISE(same_answer(said.answer, by_hand.answer));
    PROMISE(same_size(said.size, by_hand.size) && said.first == by_hand.first);
    sizes_told += said.answer.number == 0;
    sizes_refused += said.answer.number != 0;
    return said;
}

static Step call_step(struct board *board, const uint8_t *bytes, size_t length, size_t at)
{
    struct loans l = lend_all(board, bytes, length);
    Step said = seatboard_walk_step(record_of(board), l.bytes.lent, length, at, l.picture.lent, board->pixels,
                                    entries(&l.map), board->blocks);
    take_back(&l, board, said.chunk && said.answer.number == 0, said.record);
    return said;
}

static bool same_step(Step a, Step b)
{
    return same_answer(a.answer, b.answer) && same_record(a.record, b.record) && a.chunk == b.chunk && a.next == b.next;
}

void try_step(struct board *board, const uint8_t *bytes, size_t length, size_t at)
{
    copy_board(&start, board);
    copy_board(&twin, board);
    Step by_hand = step_by_hand(&twin, bytes, length, at), said = call_step(board, bytes, length, at);
    PROMISE(same_step(said, by_hand) && same_board(board, &twin));
    steps_read += said.chunk;
    steps_ended += !said.chunk;

    lend_early = !lend_early; /* the same bytes at other addresses */
    copy_board(&twin, &start);
    PROMISE(same_step(call_step(&twin, bytes, length, at), said) && same_board(&twin, board));
}

/* What was walked from a place on does the same step by step; and how many chunks are accepted so. */
static size_t promise_steps(const struct board *board, Answer said, const uint8_t *bytes, size_t length, size_t at)
{
    copy_board(&twin, &start);
    size_t accepted = 0;
    Step step = call_step(&twin, bytes, length, at);
    for (; step.chunk; step = call_step(&twin, bytes, length, at)) {
        PROMISE(at < step.next && step.next <= length);
        accepted += step.answer.number == 0;
        at = step.next;
    }
    PROMISE(same_answer(step.answer, said) && step.next == at && same_board(&twin, board));
    return accepted;
}

void try_walk(struct board *board, const uint8_t *feed, size_t length)
{
    copy_board(&start, board);
    copy_board(&twin, board);
    Answer by_hand = walk_by_hand(&twin, feed, length), said = call_walk(board, feed, length);
    PROMISE(same_answer(said, by_hand) && same_board(board, &twin));

    lend_early = !lend_early;
    const FeedSize own = promise_size(feed, length);
    if (own.answer.number == 0 && same_size(own.size, board->size))
        promise_steps(board, said, feed, length, own.first);
}

static Tally call_run(struct board *board, const uint8_t *run, size_t length)
{
    struct loans l = lend_all(board, run, length);
    Tally said = seatboard_walk_run(record_of(board), l.bytes.lent, length, l.picture.lent, board->pixels,
                                    entries(&l.map), board->blocks);
    take_back(&l, board, said.accepted > 0, said.record);
    return said;
}

static bool same_tally(Tally a, Tally b)
{
    return same_answer(a.answer, b.answer) && a.accepted == b.accepted && same_record(a.record, b.record);
}

/* A run for an allowed size is what stands in a feed behind the size numbers. */
static void promise_feed(const struct board *board, Answer said, const uint8_t *run, size_t length)
{
    size_t sizes = put_size(board, feed_made);
    if (length > 0)
        memcpy(feed_made + sizes, run, length);
    size_t place = said.number == SEATBOARD_BAD_LENGTH ? 0 : sizes + said.place;
    copy_board(&twin, &start);
    Answer walked = call_walk(&twin, feed_made, sizes + length);
    PROMISE(same_answer(walked, answered(said.number, place, said.block)) && same_board(&twin, board));
}

void try_run(struct board *board, const uint8_t *run, size_t length)
{
    copy_board(&start, board);
    copy_board(&twin, board);
    size_t accepted;
    Answer by_hand = chunks_by_hand(&twin, run, length, 0, &accepted);
    Tally said = call_run(board, run, length);
    PROMISE(same_tally(said, (Tally){by_hand, accepted, record_of(&twin)}) && same_board(board, &twin));

    lend_early = !lend_early; /* the same bytes at other addresses */
    copy_board(&twin, &start);
    PROMISE(same_tally(call_run(&twin, run, length), said) && same_board(&twin, board));
    PROMISE(promise_steps(board, said.answer, run, length, 0) == said.accepted);
    if (allowed(board->size))
        promise_feed(board, said.answer, run, length);
}

/* ---- writing ---- */

static Answer call_write(const struct board *board, const struct wish *wish, uint8_t *output, size_t room)
{
    size_t shift = wish->overlap ? (size_t)(wish->picture - board->picture) : 0, both = shift + wish->pixels;
    struct loan old = lend_const(OLD, board->picture, wish->overlap && both > board->pixels ? both : board->pixels);
    struct loan new = lend_const(NEW, wish->picture, wish->overlap ? 0 : wish->pixels);
    memset(output, OUTPUT_BYTE, room);
    struct loan out = lend(OUTPUT, output, room);
    loan_blur(&out);
    const uint8_t *new_lent = !wish->overlap ? new.lent : shift > 0 ? old.lent + shift : old.lent;
    Answer said =
        seatboard_write_chunk(board->size, old.lent, board->pixels, new_lent, wish->pixels, out.lent, room);
    size_t written = said.number == 0 ? said.place : 0;
    PROMISE(said.number == 0 ? 4 < said.place && said.place <= room : said.place == 0);
    PROMISE(said.block == (said.number == 0 ? SEATBOARD_BLOCKS(board->size.width, board->size.height) : 0));
    PROMISE(loan_defined(&out, written));
    loan_clear(&out);
    PROMISE(loan_kept(&old, 0) && loan_kept(&new, 0) && loan_kept(&out, written));
    loan_end(&old, NULL);
    loan_end(&new, NULL);
    loan_end(&out, output);
    return said;
}

static unsigned write_refusal(const struct board *board, const struct wish *wish)
{
    if (!allowed(board->size))
        return SEATBOARD_BAD_SIZE;
    size_t pixels = SEATBOARD_PIXELS(board->size.width, board->size.height);
    return board->pixels == pixels && wish->pixels == pixels ? 0 : SEATBOARD_BAD_LENGTH;
}

/* Room around the length of the chunk, and around that of the longest chunk. */
static size_t room_of(unsigned kind, size_t chunk, size_t longest)
{
    switch (kind % 8) {
    case 0: return chunk;
    case 1: return chunk - 1;
    case 2: return chunk + 1;
    case 3: return longest;
    case 4: return longest - 1;
    case 5: return longest + kind;
    case 6: return 0;
    default: return kind;
    }
}

/* A written chunk is read with 0 over the old picture, gives the new one, settles what differs and nothing else. It has
 * no padding. */
static void read_back(struct board *board, const struct wish *wish, const uint8_t *chunk, size_t length)
{
    make_true(board);
    copy_board(&start, board);
    memcpy(wanted, wish->picture, wish->pixels); /* an overlapping one changes with the board */
    PROMISE(chunk[0] == 0xE1 && end_of(chunk, length) == length);
    PROMISE(same_answer(call_read(board, chunk, length), answered(0, length, board->blocks)));
    PROMISE(memcmp(board->picture, wanted, wish->pixels) == 0);
    for (size_t k = 0; k < board->blocks; k++) {
        bool kept = same_block(start.picture, k, wanted, k, board->size.width);
        PROMISE(board->map[k] == (kept ? start.map[k] : SEATBOARD_SETTLED));
    }
}

void try_write(struct board *board, const struct wish *wish)
{
    unsigned refusal = write_refusal(board, wish);
    if (refusal) {
        PROMISE(call_write(board, wish, outputs[0], wish->room).number == refusal);
        return;
    }
    size_t longest = SEATBOARD_LONGEST_CHUNK(board->size.width, board->size.height);
    Answer said = call_write(board, wish, outputs[0], longest);
    PROMISE(said.number == 0);

    size_t room = room_of(wish->room, said.place, longest);
    lend_early = !lend_early;
    Answer again = call_write(board, wish, outputs[1], room);
    PROMISE(room < said.place ? again.number == SEATBOARD_OUTPUT_SHORT : same_answer(again, said));
    PROMISE(again.number != 0 || memcmp(outputs[0], outputs[1], said.place) == 0);
    if (board_refusal(board) == 0)
        read_back(board, wish, outputs[0], said.place);
}

/* ---- painting ---- */

static Answer call_paint(struct board *board, const struct symbol *symbol)
{
    struct loan file = lend_const(CHUNK, symbol->file, symbol->length);
    struct loan picture = lend(PICTURE, board->picture, board->pixels);
    loan_blur(&picture);
    Answer said = seatboard_paint_symbol(board->size, picture.lent, board->pixels, file.lent, symbol->length,
                                         symbol->frame, symbol->left, symbol->top);
    loan_clear(&picture);
    PROMISE(said.place == 0 && said.block == 0);
    PROMISE(loan_kept(&file, 0));
    PROMISE(loan_kept(&picture, said.number == 0 ? picture.length : 0));
    loan_end(&file, NULL);
    loan_end(&picture, board->picture);
    return said;
}

/* A number of the file, in the order that its first two bytes tell. */
static size_t file_number(const uint8_t *file, size_t at, size_t bytes)
{
    bool highest_first = file[0] == 0 && file[1] == 0;
    size_t number = 0;
    for (size_t k = 0; k < bytes; k++)
        number = number << 8 | file[at + (highest_first ? k : bytes - 1 - k)];
    return number;
}

/* Of a frame that the table has. */
static size_t offset_of(const struct symbol *symbol)
{
    return file_number(symbol->file, 12 + 4 * symbol->frame, 4);
}

/* 1, 2 and 15 to 17, which no row has a say in, or 0. */
static unsigned symbol_refusal(const struct board *board, const struct symbol *symbol)
{
    const uint8_t *file = symbol->file;
    if (!allowed(board->size))
        return SEATBOARD_BAD_SIZE;
    if (board->pixels != SEATBOARD_PIXELS(board->size.width, board->size.height))
        return SEATBOARD_BAD_LENGTH;
    if (symbol->length < 12)
        return SEATBOARD_BAD_SPRITE;
    size_t version = file_number(file, 0, 4), count = file_number(file, 4, 4);
    if (version < 502 || version > 505 || (symbol->length - 12) / 4 < count)
        return SEATBOARD_BAD_SPRITE;
    if (symbol->frame >= count)
        return SEATBOARD_NO_SUCH_FRAME;
    size_t offset = offset_of(symbol);
    if (offset > symbol->length || symbol->length - offset < 10)
        return SEATBOARD_BAD_FRAME;
    return file_number(file, offset, 4) == 0 ? 0 : SEATBOARD_BAD_FRAME;
}

/* What a symbol that is accepted does to each pixel, whatever the picture: the colour that it gets, or -1 where it is
 * left. Painted on two pictures that differ in every pixel. */
static void stamp(const struct board *board, const struct symbol *symbol, int *colours)
{
    static const uint8_t grounds[] = {0, 255};
    for (int ground = 0; ground < 2; ground++) {
        copy_board(&twin, board);
        memset(twin.picture, grounds[ground], twin.pixels);
        PROMISE(call_paint(&twin, symbol).number == 0);
        memcpy(outputs[ground], twin.picture, twin.pixels);
    }
    for (size_t k = 0; k < board->pixels; k++) {
        bool left = outputs[0][k] == grounds[0] && outputs[1][k] == grounds[1];
        PROMISE(left || outputs[0][k] == outputs[1][k]);
        colours[k] = left ? -1 : outputs[0][k];
    }
}

/* Nothing is coloured outside the frame's own height and width. */
static void promise_extent(const struct board *board, const struct symbol *symbol)
{
    size_t offset = offset_of(symbol);
    long height = (long)file_number(symbol->file, offset + 4, 2), width = (long)file_number(symbol->file, offset + 6, 2);
    for (size_t k = 0; k < board->pixels; k++) {
        long column = (long)(k % board->size.width) - symbol->left, row = (long)(k / board->size.width) - symbol->top;
        bool inside = 0 <= column && column < width && 0 <= row && row < height;
        PROMISE(inside || stamps[0][k] < 0);
    }
}

/* One pixel further each way, or back where there is no further, all that is on the picture both times is the same. */
static void promise_shift(const struct board *board, const struct symbol *symbol)
{
    size_t width = board->size.width, height = board->size.height;
    struct symbol shifted = *symbol;
    int across = symbol->left < INT16_MAX ? 1 : -1, down = symbol->top < INT16_MAX ? 1 : -1;
    shifted.left = (int16_t)(symbol->left + across);
    shifted.top = (int16_t)(symbol->top + down);
    stamp(board, &shifted, stamps[1]);
    const int *from = stamps[0] + (across < 0) + (down < 0) * width;
    const int *to = stamps[1] + (across > 0) + (down > 0) * width;
    for (size_t row = 0; row + 1 < height; row++)
        PROMISE(memcmp(from + row * width, to + row * width, (width - 1) * sizeof *to) == 0);
}

void try_paint(const struct board *board, const struct symbol *symbol)
{
    unsigned refusal = symbol_refusal(board, symbol);
    copy_board(&start, board);
    Answer said = call_paint(&start, symbol);
    PROMISE(refusal ? said.number == refusal
                    : said.number == 0 || (SEATBOARD_BAD_ROW <= said.number && said.number <= SEATBOARD_NO_END_MARKER));

    lend_early = !lend_early; /* the same bytes at other addresses */
    copy_board(&twin, board);
    PROMISE(same_answer(call_paint(&twin, symbol), said) && same_board(&twin, &start));
    struct symbol elsewhere = *symbol;
    elsewhere.left = elsewhere.top = 0;
    PROMISE(same_answer(call_paint(&twin, &elsewhere), said));
    if (said.number != 0)
        return;
    stamp(board, symbol, stamps[0]);
    for (size_t k = 0; k < board->pixels; k++)
        PROMISE(start.picture[k] == (stamps[0][k] < 0 ? board->picture[k] : stamps[0][k]));
    promise_extent(board, symbol);
    promise_shift(board, symbol);
}

/* ---- lengths that three bytes cannot state ---- */

void try_longest_chunks(void)
{
    const size_t bound = (size_t)1 << 24, room = bound + 4096;
    uint8_t *pages = mmap(NULL, room, PROT_READ | PROT_WRITE, MAP_PRIVATE | MAP_ANONYMOUS, -1, 0), pixels[16] = {0};
    uint16_t map[1] = {0};
    const Record record = {{4, 4}, 1};
    PROMISE(pages != MAP_FAILED);
    for (size_t length = bound - 1; length < bound + 8; length++) {
        uint8_t *chunk = pages + room - length, *feed = chunk - 6;
        const uint8_t number[] = {1, 1, 0xFF, 0xFF, 0xFF, 7}; /* 4 by 4 pixels, bound - 1 bytes */
        /* a block is kept; zeros follow, too many for padding */
        const uint8_t head[] = {0xE1, (uint8_t)(length >> 16), (uint8_t)(length >> 8), (uint8_t)length, 0};
        memcpy(feed, number, sizeof number);
        memcpy(chunk, head, sizeof head);
        Recorded said = seatboard_read_chunk(record, chunk, length, pixels, 16, map, 1);
        PROMISE(same_answer(said.answer, length < bound ? answered(SEATBOARD_BYTES_FOLLOW, 5, 1)
                                                        : answered(SEATBOARD_LENGTH_DIFFERS, 0, 0)));
        PROMISE(same_record(said.record, record));
        said = seatboard_walk_feed(record, feed, bound + 5, pixels, 16, map, 1);
        PROMISE(same_answer(said.answer, answered(0, bound + 5, 1)) && same_record(said.record, record));
        Tally ran = seatboard_walk_run(record, feed + 2, bound + 3, pixels, 16, map, 1);
        PROMISE(same_tally(ran, (Tally){answered(0, bound + 3, 1), 0, record}));
        Step step = seatboard_walk_step(record, feed, bound + 5, 2, pixels, 16, map, 1);
        PROMISE(step.chunk && step.next == bound + 5 && same_record(step.record, record));
        PROMISE(step.answer.number == (length < bound ? SEATBOARD_BYTES_FOLLOW : SEATBOARD_LENGTH_DIFFERS));
    }
    munmap(pages, room);
}

/* ---- counts that 16 bits cannot hold ---- */

void try_longest_run(void)
{
    const uint8_t kept[] = {5, 0xE1, 0, 0, 5, 0}; /* one block is kept */
    const size_t chunks = ((size_t)1 << 16) + 3, length = chunks * sizeof kept;
    uint8_t *run = mmap(NULL, length, PROT_READ | PROT_WRITE, MAP_PRIVATE | MAP_ANONYMOUS, -1, 0), pixels[16] = {0};
    uint16_t map[1] = {0};
    const Record record = {{4, 4}, 1};
    PROMISE(run != MAP_FAILED);
    for (size_t k = 0; k < chunks; k++)
        memcpy(run + k * sizeof kept, kept, sizeof kept);
    Tally said = seatboard_walk_run(record, run, length, pixels, 16, map, 1);
    PROMISE(same_tally(said, (Tally){answered(0, length, 1), chunks, record}));
    munmap(run, length);
}
