/* Tests of a stage: the questions of each call in their order, what a refusal leaves, and memory that something else has
 * written. */
#include "check.h"
#include "layout.h"

#include <string.h>

enum {
    PLACES = MIDICI_PE_STAGE_PLACES,
    EXTRA = PLACE_WORDS + 2,     /* words past the stage: one more place would lie there */
    BAD = 5000,                  /* the one byte of the buffer that is above 7F */
    LONGEST = 16383 * 104,       /* the longest body that is cut at 128; behind the bad byte there is one byte more */
    END = BAD + 1 + LONGEST + 1, /* the buffer's length */
    BUSY = 3,                    /* the place where a list waits */
    BEHIND = 9                   /* another one */
};

/* The scene list: 5 chunks, of 241, 241, 241, 241 and 129 bytes. */
#define SCENES                                                                                                             \
    {                                                                                                                      \
        0, 48, 48, 1000, 5, 256                                                                                            \
    }
static const midici_pe_outgoing scenes = SCENES;

static uint64_t *words_of(const struct stage *stage) { return lent_words(&stage->lent[STAGE]); }

/* A list that waits at a place, written by hand. */
static void put_list(struct stage *stage, size_t place, midici_pe_outgoing list, uint64_t next_chunk)
{
    const uint64_t words[PLACE_WORDS] = {list.header_at,  list.header_len, list.body_at, list.body_len,
                                         list.request_id, list.max_sysex,  next_chunk};
    memcpy(words_of(stage) + place_at(place), words, sizeof words);
}

static bool holds_list(const struct stage *stage, size_t place, midici_pe_outgoing list, uint64_t next_chunk)
{
    const uint64_t words[PLACE_WORDS] = {list.header_at,  list.header_len, list.body_at, list.body_len,
                                         list.request_id, list.max_sysex,  next_chunk};
    return memcmp(words_of(stage) + place_at(place), words, sizeof words) == 0;
}

/* ---- An empty stage ---- */

/* Empties the stage, with words past it that stay. */
static void empty(struct stage *stage)
{
    lent_resize(&stage->lent[STAGE], 8 * (MIDICI_PE_STAGE_LEN + EXTRA));
    lent_fill(&stage->lent[STAGE]);
    check(stage_new(stage).refusal == 0, "a stage is made", "setting up");
}

static void test_new(struct stage *stage)
{
    const struct told refused = {.refusal = 30}, done = {.refusal = 0};
    for (size_t len = 0; len < MIDICI_PE_STAGE_LEN + EXTRA; len++) {
        lent_resize_or_null(&stage->lent[STAGE], 8 * len);
        lent_fill(&stage->lent[STAGE]);
        struct told told = check_stage_call(stage, STAGE_NEW, NULL, "an empty stage");
        check(told_same(told, len < MIDICI_PE_STAGE_LEN ? refused : done), "30 for less than its length", "an empty stage");
        for (size_t i = 0; len >= MIDICI_PE_STAGE_LEN && i < MIDICI_PE_STAGE_LEN; i++)
            check(words_of(stage)[i] == 0, "every number is 0", "an empty stage");
    }
}

/* ---- Joining ---- */

/* Where a list joins, and the refusal or the count. */
static const struct join_case {
    const char *name;
    uint64_t place;
    midici_pe_outgoing list;
    uint8_t refusal;
    uint64_t count;
} join_cases[] = {
    {"a scene list", 0, SCENES, 0, 5},
    {"at the last place", 15, SCENES, 0, 5},
    {"place 16", 16, SCENES, 38, 0},
    {"a place of 33 bits", UINT64_C(1) << 32, SCENES, 38, 0},
    {"the largest place", UINT64_MAX, SCENES, 38, 0},
    {"place 16, asked before the buffer", 16, {END, 1, 0, 0, 5, 256}, 38, 0},
    {"place 16, asked before the cutter's own", 16, {0, 0, 0, 0, 0x80, 256}, 38, 0},
    {"place 16 + the busy one", 16 + BUSY, SCENES, 38, 0},
    {"a busy place", BUSY, SCENES, 39, 0},
    {"a busy place, asked before the buffer", BUSY, {0, 0, END, 1, 5, 256}, 39, 0},
    {"a busy place, asked before the cutter's own", BUSY, {0, 0, 0, 0, 0x80, 256}, 39, 0},
    {"nothing at all", 1, {0, 0, 0, 0, 0, 256}, 0, 1},
    {"nothing, at the buffer's end", 1, {END, 0, END, 0, 127, 256}, 0, 1},
    {"no header, behind the buffer's end", 1, {END + 1, 0, 0, 10, 5, 256}, 30, 0},
    {"no body, behind the buffer's end", 1, {0, 10, END + 1, 0, 5, 256}, 30, 0},
    {"a header up to the buffer's end", 1, {END - 48, 48, 48, 1000, 5, 256}, 0, 5},
    {"a header one byte outside", 1, {END - 47, 48, 48, 1000, 5, 256}, 30, 0},
    {"a body up to the buffer's end", 1, {0, 48, END - 1000, 1000, 5, 256}, 0, 5},
    {"a body one byte outside", 1, {0, 48, END - 999, 1000, 5, 256}, 30, 0},
    {"header and body are the same bytes", 1, {10, 48, 10, 48, 5, 256}, 0, 1},
    {"a header behind its body", 1, {1000, 48, 0, 1000, 5, 256}, 0, 5},
    {"a header longer than the buffer", 1, {0, END + 1, 0, 10, 5, 256}, 30, 0},
    {"a body longer than the buffer", 1, {0, 10, 0, END + 1, 5, 256}, 30, 0},
    {"a header at 2^32", 1, {UINT64_C(1) << 32, 48, 48, 1000, 5, 256}, 30, 0},
    {"a body at 2^32", 1, {0, 48, UINT64_C(1) << 32, 1000, 5, 256}, 30, 0},
    {"a header of 2^32 bytes", 1, {0, UINT64_C(1) << 32, 48, 1000, 5, 256}, 30, 0},
    {"a body of 2^32 bytes", 1, {0, 48, 48, UINT64_C(1) << 32, 5, 256}, 30, 0},
    {"a header whose sum is 2^64", 1, {UINT64_MAX - 47, 48, 48, 1000, 5, 256}, 30, 0},
    {"a body whose sum is 2^64", 1, {0, 48, UINT64_MAX - 999, 1000, 5, 256}, 30, 0},
    {"a header of 2^64 - 1 bytes from 1 on", 1, {1, UINT64_MAX, 48, 1000, 5, 256}, 30, 0},
    {"a body of 2^64 - 1 bytes from 49 on", 1, {0, 48, 49, UINT64_MAX, 5, 256}, 30, 0},
    {"the largest numbers", 1, {UINT64_MAX, UINT64_MAX, UINT64_MAX, UINT64_MAX, UINT64_MAX, UINT64_MAX}, 30, 0},
    {"outside, asked before the id", 1, {0, 48, END, 1, 0x80, 256}, 30, 0},
    {"outside, asked before the header's bytes", 1, {BAD, 1, END, 1, 5, 256}, 30, 0},
    {"outside, asked before the header's length", 1, {0, 4097, END, 1, 5, 256}, 30, 0},
    {"id 7F", 1, {0, 48, 48, 1000, 0x7F, 256}, 0, 5},
    {"id 80", 1, {0, 48, 48, 1000, 0x80, 256}, 1, 0},
    {"id 256 + 5", 1, {0, 48, 48, 1000, 256 + 5, 256}, 1, 0},
    {"id 2^32 + 5", 1, {0, 48, 48, 1000, (UINT64_C(1) << 32) + 5, 256}, 1, 0},
    {"the largest id", 1, {0, 48, 48, 1000, UINT64_MAX, 256}, 1, 0},
    {"id 256, asked before the header's length", 1, {0, 4097, 0, 0, 256, 256}, 1, 0},
    {"a header byte above 7F", 1, {BAD - 1, 2, 0, 10, 5, 256}, 1, 0},
    {"a header byte above 7F, asked before its length", 1, {BAD - 4096, 4097, 0, 10, 5, 256}, 1, 0},
    {"a header up to the byte above 7F", 1, {BAD - 2, 2, 0, 10, 5, 256}, 0, 1},
    {"a header behind the byte above 7F", 1, {BAD + 1, 2, 0, 10, 5, 256}, 0, 1},
    {"a body byte above 7F", 1, {0, 2, BAD - 999, 1000, 5, 256}, 1, 0},
    {"a body byte above 7F, asked before the header's length", 1, {0, 4097, BAD, 1, 5, 256}, 1, 0},
    {"a body up to the byte above 7F", 1, {0, 2, BAD - 10, 10, 5, 256}, 0, 1},
    {"a body behind the byte above 7F", 1, {0, 2, BAD + 1, 10, 5, 256}, 0, 1},
    {"the longest header", 1, {0, 4096, 0, 1, 5, 16384}, 0, 1},
    {"a header of 4,097", 1, {0, 4097, 0, 1, 5, 16384}, 4, 0},
    {"a header that leaves nothing", 1, {0, 104, 0, 1, 5, 128}, 0, 2},
    {"a header one too long", 1, {0, 105, 0, 1, 5, 128}, 4, 0},
    {"a header one too long, asked before the count", 1, {0, 105, BAD + 1, LONGEST + 1, 5, 128}, 4, 0},
    {"16,383 chunks", 1, {0, 0, BAD + 1, LONGEST, 5, 128}, 0, 16383},
    {"one byte more", 1, {0, 0, BAD + 1, LONGEST + 1, 5, 128}, 5, 0},
    {"limit 0 is 128", 1, {0, 0, 0, 209, 5, 0}, 0, 3},
    {"limit 2^32 is 16,384", 1, {0, 0, 0, 209, 5, UINT64_C(1) << 32}, 0, 1},
    {"limit 2^32 + 128 is 16,384", 1, {0, 0, 0, 209, 5, (UINT64_C(1) << 32) + 128}, 0, 1},
    {"the largest limit is 16,384", 1, {0, 4096, 0, 209, 5, UINT64_MAX}, 0, 1},
};

/* Every list also with a stage that is one word short: 30, before all else. */
static void test_join(struct stage *stage, const struct join_case *c)
{
    const struct joining joining = {c->place, c->list};
    const struct told wanted = {.refusal = c->refusal, .numbers = {c->count}}, too_short = {.refusal = 30};
    empty(stage);
    put_list(stage, BUSY, scenes, 5);
    words_of(stage)[TURN] = 7;
    check(told_same(check_stage_call(stage, STAGE_JOIN, &joining, c->name), wanted), "the answer", c->name);
    if (c->refusal == 0)
        check(holds_list(stage, (size_t)c->place, c->list, 1), "the place holds the list", c->name);
    check(holds_list(stage, BUSY, scenes, 5) && words_of(stage)[TURN] == 7, "other place and turn stay", c->name);
    lent_resize(&stage->lent[STAGE], 8 * (MIDICI_PE_STAGE_LEN - 1));
    check(told_same(check_stage_call(stage, STAGE_JOIN, &joining, c->name), too_short), "a short stage: 30", c->name);
}

/* A place is busy whatever number its next chunk has, and free where that is 0, whatever else it holds. */
static void test_busy(struct stage *stage)
{
    const uint64_t numbers[] = {1, 2, 5, 6, 16384, 65536, UINT64_C(1) << 32, UINT64_MAX};
    const midici_pe_outgoing largest = {UINT64_MAX, UINT64_MAX, UINT64_MAX, UINT64_MAX, UINT64_MAX, UINT64_MAX};
    for (size_t place = 0; place < PLACES; place++) {
        const struct joining joining = {place, scenes};
        empty(stage);
        for (size_t i = 0; i < sizeof numbers / sizeof numbers[0]; i++) {
            put_list(stage, place, (midici_pe_outgoing){0, 0, 0, 0, 0, 0}, numbers[i]);
            check(check_stage_call(stage, STAGE_JOIN, &joining, "busy places").refusal == 39, "39", "busy places");
        }
        put_list(stage, place, largest, 0);
        check(check_stage_call(stage, STAGE_JOIN, &joining, "free places").numbers[0] == 5, "five chunks", "free places");
        check(holds_list(stage, place, scenes, 1), "the place holds the list", "free places");
    }
}

/* ---- Turns ---- */

/* A list at place BUSY, the number of its next chunk and the output's length: what a turn answers. */
static const struct turn_case {
    const char *name;
    midici_pe_outgoing list;
    uint64_t next_chunk;
    size_t out_len;
    midici_pe_turn wanted;
} turn_cases[] = {
    {"the first chunk", SCENES, 1, 241, {0, 1, 1, 5, BUSY, 241}},
    {"the fourth chunk", SCENES, 4, 300, {0, 1, 4, 5, BUSY, 241}},
    {"the last chunk", SCENES, 5, 129, {0, 1, 5, 5, BUSY, 129}},
    {"an output one byte short", SCENES, 1, 240, {3, 0, 0, 0, 0, 0}},
    {"an output one byte short for the last chunk", SCENES, 5, 128, {3, 0, 0, 0, 0, 0}},
    {"no output", SCENES, 1, 0, {3, 0, 0, 0, 0, 0}},
    {"nothing at all", {END, 0, END, 0, 0, 0}, 1, 9, {0, 1, 1, 1, BUSY, 9}},
    {"the longest chunk",
     {0, 0, BAD + 1, 20000, 5, 16384},
     1,
     MIDICI_PE_CHUNK_LEN,
     {0, 1, 1, 2, BUSY, MIDICI_PE_CHUNK_LEN}},
    {"the longest chunk, one byte short", {0, 0, BAD + 1, 20000, 5, 16384}, 1, MIDICI_PE_CHUNK_LEN - 1, {3, 0, 0, 0, 0, 0}},
    {"chunk 16,383", {0, 0, BAD + 1, LONGEST, 5, 128}, 16383, 300, {0, 1, 16383, 16383, BUSY, 113}},
    {"too many chunks", {0, 0, BAD + 1, LONGEST + 1, 5, 128}, 1, 300, {5, 0, 0, 0, 0, 0}},
    {"too many chunks, asked before the number", {0, 0, BAD + 1, LONGEST + 1, 5, 128}, 20000, 0, {5, 0, 0, 0, 0, 0}},
    {"chunk 6 of 5", SCENES, 6, 300, {29, 0, 0, 0, 0, 0}},
    {"chunk 6 of 5, asked before the output", SCENES, 6, 0, {29, 0, 0, 0, 0, 0}},
    {"chunk 65,536 + 1", SCENES, 65536 + 1, 300, {29, 0, 0, 0, 0, 0}},
    {"chunk 2^32 + 1", SCENES, (UINT64_C(1) << 32) + 1, 300, {29, 0, 0, 0, 0, 0}},
    {"the largest chunk number", SCENES, UINT64_MAX, 300, {29, 0, 0, 0, 0, 0}},
    {"the largest chunk number, asked after the id", {0, 48, 48, 1000, 0x80, 256}, UINT64_MAX, 300, {1, 0, 0, 0, 0, 0}},
    {"id 80", {0, 48, 48, 1000, 0x80, 256}, 1, 300, {1, 0, 0, 0, 0, 0}},
    {"id 256 + 5", {0, 48, 48, 1000, 256 + 5, 256}, 1, 300, {1, 0, 0, 0, 0, 0}},
    {"the largest id", {0, 48, 48, 1000, UINT64_MAX, 256}, 1, 300, {1, 0, 0, 0, 0, 0}},
    {"the largest id, asked before the output", {0, 48, 48, 1000, UINT64_MAX, 256}, 1, 0, {1, 0, 0, 0, 0, 0}},
    {"limit 1 is 128", {0, 0, 0, 209, 5, 1}, 3, 10, {0, 1, 3, 3, BUSY, 10}},
    {"limit 2^32 + 128 is 16,384", {0, 0, 0, 209, 5, (UINT64_C(1) << 32) + 128}, 1, 218, {0, 1, 1, 1, BUSY, 218}},
    {"the largest limit is 16,384", {0, 48, 48, 1000, 5, UINT64_MAX}, 1, 1057, {0, 1, 1, 1, BUSY, 1057}},
    {"a header byte above 7F", {BAD, 1, 0, 10, 5, 256}, 1, 300, {1, 0, 0, 0, 0, 0}},
    {"a body byte above 7F, in a later chunk", {0, 48, BAD - 999, 1000, 5, 256}, 1, 300, {1, 0, 0, 0, 0, 0}},
    {"a header of 4,097", {0, 4097, 0, 1, 5, 16384}, 1, 300, {4, 0, 0, 0, 0, 0}},
    {"a header one too long", {0, 105, 0, 1, 5, 128}, 1, 300, {4, 0, 0, 0, 0, 0}},
    {"a header one byte outside", {END - 47, 48, 48, 1000, 5, 256}, 1, 300, {30, 0, 0, 0, 0, 0}},
    {"a body one byte outside", {0, 48, END - 999, 1000, 5, 256}, 1, 300, {30, 0, 0, 0, 0, 0}},
    {"a header whose sum is 2^64", {UINT64_MAX - 47, 48, 48, 1000, 5, 256}, 1, 300, {30, 0, 0, 0, 0, 0}},
    {"a body whose sum is 2^64 + 48", {0, 48, UINT64_MAX - 951, 1000, 5, 256}, 1, 300, {30, 0, 0, 0, 0, 0}},
    {"a body of 2^64 - 1 bytes", {0, 48, 48, UINT64_MAX, 5, 256}, 1, 300, {30, 0, 0, 0, 0, 0}},
    {"outside, asked before the cutter's own", {BAD, 1, END, 1, UINT64_MAX, 256}, UINT64_MAX, 0, {30, 0, 0, 0, 0, 0}},
};

static void lend_out(struct stage *stage, size_t len)
{
    lent_resize_or_null(&stage->lent[OUT], len);
    lent_fill(&stage->lent[OUT]);
}

/* A refused turn does not go on: it is refused again, until its list is right and the output is long enough. */
static void test_refused_turn(struct stage *stage, const struct turn_case *c)
{
    const struct told served = {.numbers = {1, 1, 5, BUSY, 241}}, behind = {.numbers = {1, 5, 5, BEHIND, 129}};
    struct told again = check_stage_call(stage, STAGE_TURN, NULL, c->name);
    check(told_same(again, told_turn(c->wanted)), "the same once more", c->name);
    put_list(stage, BUSY, scenes, 1);
    lend_out(stage, 241);
    check(told_same(check_stage_call(stage, STAGE_TURN, NULL, c->name), served), "a turn that is right again", c->name);
    check(told_same(check_stage_call(stage, STAGE_TURN, NULL, c->name), behind), "and the list behind it", c->name);
}

static void test_turn(struct stage *stage, const struct turn_case *c)
{
    const uint64_t next = c->wanted.chunk_num == c->wanted.num_chunks ? 0 : c->next_chunk + 1;
    empty(stage);
    words_of(stage)[TURN] = 16 * 5 + 1;
    put_list(stage, BUSY, c->list, c->next_chunk);
    put_list(stage, BEHIND, scenes, 5);
    lend_out(stage, c->out_len);
    stage_keep(stage);
    midici_pe_turn turn = stage_turn(stage);
    check(told_same(told_turn(turn), told_turn(c->wanted)), "the answer", c->name);
    check(stage_guarded(stage) && lent_same_from(&stage->lent[BUFFER], 0), "buffer and what is before stay", c->name);
    if (c->wanted.refusal == 0) {
        check_stage_chunk(stage, c->list, c->next_chunk, turn.length, c->name);
        check(lent_same_from(&stage->lent[OUT], (size_t)turn.length), "bytes past the chunk stay", c->name);
        check(words_of(stage)[TURN] == BUSY + 1, "the next place is asked first", c->name);
        check(holds_list(stage, BUSY, c->list, next), "the place holds the rest of its list", c->name);
    } else {
        check(stage_same(stage), "a refusal leaves everything", c->name);
    }
    check(told_same(told_turn(model_stage_turn(stage)), told_turn(turn)), "the model answers the same", c->name);
    check(stage_same(stage), "the model leaves the same", c->name);
    if (c->wanted.refusal != 0)
        test_refused_turn(stage, c);
    lent_resize(&stage->lent[STAGE], 8 * (MIDICI_PE_STAGE_LEN - 1));
    check(check_stage_call(stage, STAGE_TURN, NULL, c->name).refusal == 30, "a short stage: 30", c->name);
}

/* ---- Whose turn it is ---- */

/* Of two places with a list, the one that is met first from the stored turn on, which is taken modulo 16. */
static void test_whose_turn(struct stage *stage, uint64_t turn, size_t first, size_t second)
{
    size_t to_first = (first + 16 - (size_t)(turn % 16)) % 16, to_second = (second + 16 - (size_t)(turn % 16)) % 16;
    size_t expected = to_first <= to_second ? first : second;
    empty(stage);
    words_of(stage)[TURN] = turn;
    put_list(stage, first, scenes, 1);
    put_list(stage, second, scenes, 1);
    struct told told = check_stage_call(stage, STAGE_TURN, NULL, "whose turn");
    check(told_same(told, (struct told){.numbers = {1, 1, 5, expected, 241}}), "the next place", "whose turn");
    check(words_of(stage)[TURN] == (expected + 1) % 16, "the one behind it is asked next", "whose turn");
}

/* Where nobody waits, no place is handed out, and everything stays, a turn above 15 too. */
static void test_nobody(struct stage *stage, uint64_t turn)
{
    empty(stage);
    words_of(stage)[TURN] = turn;
    for (size_t place = 0; place < PLACES; place++)
        put_list(stage, place, scenes, 0);
    struct told told = check_stage_call(stage, STAGE_TURN, NULL, "nobody waits");
    check(told_same(told, (struct told){.refusal = 0}), "none", "nobody waits");
    check(words_of(stage)[TURN] == turn, "the turn stays", "nobody waits");
    lend_out(stage, 0);
    told = check_stage_call(stage, STAGE_TURN, NULL, "nobody waits");
    check(told_same(told, (struct told){.refusal = 0}), "none, and the output does not matter", "nobody waits");
    lend_out(stage, 300);
}

static void test_turns(struct stage *stage)
{
    const uint64_t bases[] = {0, 16, 32, 256, UINT64_C(1) << 32, UINT64_MAX - 15};
    for (size_t i = 0; i < sizeof bases / sizeof bases[0]; i++)
        for (uint64_t turn = bases[i]; turn - bases[i] < 16; turn++) {
            test_nobody(stage, turn);
            for (size_t first = 0; first < PLACES; first++)
                for (size_t second = first; second < PLACES; second++)
                    test_whose_turn(stage, turn, first, second);
        }
}

/* ---- Slices that are too short, or NULL ---- */

/* The list fills the buffer, and its chunk the output. */
static void test_short_slice(const struct stage_call *call, int slice, bool null)
{
    const midici_pe_outgoing list = {0, 10, 10, 20, 5, 256};
    const uint8_t refusals[STAGE_LENT] = {30, 30, 3};
    struct stage stage;
    stage_make(&stage, MIDICI_PE_STAGE_LEN, 30, 39);
    fill_letters(&stage.lent[BUFFER], 30, 0);
    check(stage_new(&stage).refusal == 0 && stage_join(&stage, 0, list).count == 1, "a list joins", call->name);
    struct lent *lent = &stage.lent[slice];
    if (null)
        lent_null(lent);
    else
        lent_resize(lent, lent->len - (slice == STAGE ? 8 : 1));
    struct told told = check_stage_call(&stage, (int)(call - stage_calls), &(struct joining){1, list}, call->name);
    check(told.refusal == (call->lent >> slice & 1 ? refusals[slice] : 0), "a slice that is lent and too short",
          call->name);
    check(told.refusal == 0 || told_same(told, (struct told){.refusal = told.refusal}), "with a refusal all else is 0",
          call->name);
    stage_free(&stage);
}

/* A list of nothing needs no buffer. */
static void test_no_buffer(void)
{
    const midici_pe_outgoing nothing = {0, 0, 0, 0, 5, 256};
    struct stage stage;
    stage_make(&stage, MIDICI_PE_STAGE_LEN, 0, 9);
    lent_null(&stage.lent[BUFFER]);
    stage_new(&stage);
    struct told told = check_stage_call(&stage, STAGE_JOIN, &(struct joining){15, nothing}, "no buffer");
    check(told_same(told, (struct told){.numbers = {1}}), "a list of nothing joins", "no buffer");
    told = check_stage_call(&stage, STAGE_TURN, NULL, "no buffer");
    check(told_same(told, (struct told){.numbers = {1, 1, 1, 15, 9}}), "and leaves", "no buffer");
    check(memcmp(stage.lent[OUT].at, (const uint8_t[]){5, 0, 0, 1, 0, 1, 0, 0, 0}, 9) == 0, "its chunk", "no buffer");
    stage_free(&stage);
}

/* The questions, in a buffer for the longest list. */
static void test_questions(void)
{
    struct stage stage;
    stage_make(&stage, MIDICI_PE_STAGE_LEN + EXTRA, END, MIDICI_PE_CHUNK_LEN);
    fill_letters(&stage.lent[BUFFER], END, 0);
    stage.lent[BUFFER].at[BAD] = 0x80;
    for (size_t i = 0; i < sizeof join_cases / sizeof join_cases[0]; i++)
        test_join(&stage, &join_cases[i]);
    for (size_t i = 0; i < sizeof turn_cases / sizeof turn_cases[0]; i++)
        test_turn(&stage, &turn_cases[i]);
    stage_free(&stage);
}

void test_stage(void)
{
    struct stage stage;
    test_questions();
    stage_make(&stage, MIDICI_PE_STAGE_LEN + EXTRA, 1048, 300);
    fill_letters(&stage.lent[BUFFER], 1048, 0);
    test_new(&stage);
    test_busy(&stage);
    test_turns(&stage);
    stage_free(&stage);
    for (int call = 0; call < STAGE_CALLS; call++)
        for (int slice = 0; slice < STAGE_LENT; slice++) {
            test_short_slice(&stage_calls[call], slice, false);
            test_short_slice(&stage_calls[call], slice, true);
        }
    test_no_buffer();
}
