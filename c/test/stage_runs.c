/* Runs of calls on a stage: whose chunk leaves with which turn, while lists join, and that all of each list leaves. Random
 * calls are held against the model and, where nothing else writes the memory, against what joined. */
#include "check.h"
#include "layout.h"

#include <stdio.h>
#include <string.h>

enum {
    PLACES = MIDICI_PE_STAGE_PLACES,
    LIMIT = 128, /* of the lists by hand: chunks of up to 104 bytes of the list */
    SHARE = 104,
    BUFFER_LEN = PLACES * (PLACES + 1) / 2 * SHARE,
    OUT_LEN = 450,           /* enough for each chunk here */
    EXTRA = PLACE_WORDS + 2, /* words past the stage: one more place would lie there */
    RUNS = 1500,
    CALLS = 150
};

/* ---- Lists by hand ---- */

/* Makes an empty stage, and a buffer in which any two lists below differ. */
static void make_stage(struct stage *stage)
{
    stage_make(stage, MIDICI_PE_STAGE_LEN + EXTRA, BUFFER_LEN, OUT_LEN);
    for (size_t i = 0; i < BUFFER_LEN; i++)
        stage->lent[BUFFER].at[i] = (uint8_t)((i + i / 128) % 128);
    check(stage_new(stage).refusal == 0, "a stage is made", "setting up");
}

/* A list of so many chunks, each as long as it can be, at the buffer's byte `at`; its header has four bytes. */
static midici_pe_outgoing list_of(size_t at, size_t chunks)
{
    return (midici_pe_outgoing){at, 4, at + 4, chunks * SHARE - 4, at % 128, LIMIT};
}

static void join(struct stage *stage, size_t place, midici_pe_outgoing list, size_t chunks, const char *of)
{
    struct told told = check_stage_call(stage, STAGE_JOIN, &(struct joining){place, list}, of);
    check(told_same(told, (struct told){.numbers = {chunks}}), "a list joins", of);
}

/* The next chunk is this one; it is as long as it can be. */
static void check_turn(struct stage *stage, size_t place, midici_pe_outgoing list, size_t chunk_num, const char *of)
{
    struct told told = check_stage_call(stage, STAGE_TURN, NULL, of);
    const struct told wanted = {.numbers = {1, chunk_num, (4 + list.body_len) / SHARE, place, 9 + SHARE}};
    check(told_same(told, wanted), "the next chunk", of);
    check_stage_chunk(stage, list, chunk_num, 9 + SHARE, of);
}

static void check_nobody(struct stage *stage, const char *of)
{
    struct told told = check_stage_call(stage, STAGE_TURN, NULL, of);
    check(told_same(told, (struct told){.refusal = 0}), "nobody waits", of);
}

/* The output is fed as a chunk of its place, as a peer of its own; with the last one the list is whole. */
static void feed(struct table *table, const struct stage *stage, size_t place, midici_pe_outgoing list, bool is_last)
{
    const uint8_t *chunk = stage->lent[OUT].at, *buffer = stage->lent[BUFFER].at;
    midici_pe_fed fed = table_feed(table, (uint32_t)place, chunk, 9 + SHARE, 0);
    check(fed.refusal == 0 && fed.whole == is_last, "whole with the last chunk", "16 lists");
    if (!is_last)
        return;
    check(fed.header_len == list.header_len && fed.body_len == list.body_len, "its lengths", "16 lists");
    check(memcmp(table->lent[OUT_HEADER].at, buffer + list.header_at, list.header_len) == 0, "its header", "16 lists");
    check(memcmp(table->lent[OUT_BODY].at, buffer + list.body_at, list.body_len) == 0, "its body", "16 lists");
}

/* A list at each place, with one chunk more than the one before it: each round has a chunk of each that has one left. */
static void test_rounds(void)
{
    struct stage stage;
    struct table table;
    midici_pe_outgoing lists[PLACES];
    make_stage(&stage);
    table_make(&table, (midici_pe_shape){PLACES, 4, PLACES * SHARE, PLACES}, 0);
    table_new(&table);
    for (size_t i = 0; i < PLACES; i++) { /* they join in another order */
        size_t place = (5 + 7 * i) % PLACES;
        lists[place] = list_of(place * (place + 1) / 2 * SHARE, place + 1);
        join(&stage, place, lists[place], place + 1, "16 lists");
    }
    for (size_t round = 1; round <= PLACES; round++)
        for (size_t place = round - 1; place < PLACES; place++) {
            check_turn(&stage, place, lists[place], round, "16 lists");
            feed(&table, &stage, place, lists[place], place + 1 == round);
        }
    check_nobody(&stage, "16 lists");
    table_free(&table);
    stage_free(&stage);
}

/* A list of 16 chunks at one place, and at each other one of a single chunk, which joins again as soon as it has left: the
 * long list is served with each 16th turn. */
static void test_joins_between(size_t place)
{
    const midici_pe_outgoing longer = list_of(0, PLACES), single = list_of(PLACES * SHARE, 1);
    const char *of = "joins between turns";
    struct stage stage;
    make_stage(&stage);
    for (size_t p = 0; p < PLACES; p++)
        join(&stage, p, p == place ? longer : single, p == place ? PLACES : 1, of);
    for (size_t turn = 0; turn < PLACES * PLACES; turn++) {
        size_t p = turn % PLACES;
        check_turn(&stage, p, p == place ? longer : single, p == place ? turn / PLACES + 1 : 1, of);
        if (p != place)
            join(&stage, p, single, 1, of);
    }
    for (size_t p = 0; p < PLACES; p++)
        if (p != place)
            check_turn(&stage, p, single, 1, of);
    check_nobody(&stage, of);
    stage_free(&stage);
}

/* One that joins at a place that was just passed waits for a round, one that joins ahead is met in this one; both leave
 * long before the list that began. A place that is free again takes another list. */
static void test_short_beside_long(void)
{
    const midici_pe_outgoing longer = list_of(0, 9), single = list_of(9 * SHARE, 1), two = list_of(10 * SHARE, 2);
    const char *of = "short lists beside a long one";
    struct stage stage;
    make_stage(&stage);
    check_nobody(&stage, of);
    join(&stage, 6, longer, 9, of);
    check_turn(&stage, 6, longer, 1, of);
    check_turn(&stage, 6, longer, 2, of);
    join(&stage, 5, single, 1, of);
    join(&stage, 7, two, 2, of);
    check_turn(&stage, 7, two, 1, of);
    check_turn(&stage, 5, single, 1, of);
    join(&stage, 5, two, 2, of);
    check_turn(&stage, 6, longer, 3, of);
    check_turn(&stage, 7, two, 2, of);
    check_turn(&stage, 5, two, 1, of);
    check_turn(&stage, 6, longer, 4, of);
    check_turn(&stage, 5, two, 2, of);
    for (size_t k = 5; k <= 9; k++)
        check_turn(&stage, 6, longer, k, of);
    check_nobody(&stage, of);
    stage_free(&stage);
}

/* ---- Random runs ---- */

/* What joined at a place and has not left: its list, its count, its next chunk, and for how many turns it has waited. */
struct waiting {
    bool is_here;
    midici_pe_outgoing list;
    uint64_t count, next;
    unsigned turns;
};

struct run {
    struct stage stage;
    uint64_t seed;
    bool is_sound; /* nobody but calls has written the stage or the buffer since it was empty */
    struct waiting waiting[PLACES];
    size_t joins; /* of six calls, about so many are joins */
    unsigned long answered[STAGE_CALLS][256], none, left, longest_wait;
};

static size_t any(struct run *run, size_t below) { return any_below(&run->seed, below); }

/* A number that is mostly below `below`, sometimes just above or any. */
static uint64_t any_number(struct run *run, size_t below)
{
    const uint64_t odd[] = {below,     below + 1,      UINT64_C(1) << 32, UINT64_MAX, UINT64_MAX - any(run, 500),
                            run->seed, run->seed >> 40};
    return any(run, 32) == 0 ? odd[any(run, sizeof odd / sizeof odd[0])] : any(run, below);
}

static struct joining any_joining(struct run *run)
{
    size_t len = run->stage.lent[BUFFER].len;
    struct joining joining = {.place = any_number(run, PLACES)};
    midici_pe_outgoing *list = &joining.list;
    list->header_len = any_number(run, 20);
    list->body_len = any_number(run, any(run, 3) == 0 ? 400 : 100);
    list->header_at = any(run, 16) == 0 ? len - list->header_len + any(run, 2) : any(run, len - 20);
    list->body_at = any(run, 16) == 0 ? len - list->body_len + any(run, 2) : any(run, len - 400);
    list->request_id = any_number(run, 128);
    list->max_sysex = any_number(run, 300);
    return joining;
}

static void note_joined(struct run *run, const struct joining *joining, struct told told)
{
    if (!run->is_sound || told.refusal != 0)
        return;
    bool is_free = joining->place < PLACES && !run->waiting[joining->place].is_here;
    check(is_free, "a list joins where nobody waits", "random stages");
    if (is_free)
        run->waiting[joining->place] = (struct waiting){true, joining->list, told.numbers[0], 1, 0};
}

/* The chunk that was handed out is the next one of its place, and nobody else has waited too long. */
static void note_handed(struct run *run, struct told told)
{
    const char *of = "random stages";
    struct waiting *served = &run->waiting[told.numbers[3] % PLACES];
    check(served->is_here && told.numbers[1] == served->next && told.numbers[2] == served->count, "its next chunk", of);
    check_stage_chunk(&run->stage, served->list, served->next, told.numbers[4], of);
    for (size_t p = 0; p < PLACES; p++) {
        struct waiting *waiting = &run->waiting[p];
        waiting->turns += waiting->is_here;
        check(waiting->turns <= 16, "nobody waits for more than 16 turns", of);
        if (waiting->turns > run->longest_wait)
            run->longest_wait = waiting->turns;
    }
    served->turns = 0;
    served->is_here = served->next++ < served->count;
    run->left += !served->is_here;
}

static void note_turn(struct run *run, struct told told)
{
    run->none += told.refusal == 0 && told.numbers[0] == 0;
    if (!run->is_sound)
        return;
    if (told.refusal == 0 && told.numbers[0] == 1)
        note_handed(run, told);
    for (size_t p = 0; told.refusal == 0 && told.numbers[0] == 0 && p < PLACES; p++)
        check(!run->waiting[p].is_here, "none only if nobody waits", "random stages");
    check(told.refusal == 0 || told.refusal == 3, "only the output is too short", "random stages");
}

static void make_empty(struct run *run)
{
    struct lent *buffer = &run->stage.lent[BUFFER];
    fill_letters(buffer, 1500, 0);
    check_stage_call(&run->stage, STAGE_NEW, NULL, "random stages");
    memset(run->waiting, 0, sizeof run->waiting);
    run->is_sound = true;
}

/* Something else writes a word of the stage or a byte of the buffer, or a shorter buffer is lent; or all begins anew. */
static void damage(struct run *run)
{
    struct lent *stage = &run->stage.lent[STAGE], *buffer = &run->stage.lent[BUFFER];
    run->is_sound = false;
    switch (any(run, 8)) {
    case 0:
        lent_resize(buffer, 600 + any(run, 900));
        break;
    case 1:
        buffer->at[any(run, buffer->len)] |= 0x80;
        break;
    case 2:
        fill_letters(buffer, buffer->len, 0);
        break;
    case 3:
        make_empty(run);
        break;
    default:
        lent_words(stage)[any(run, stage->len / 8)] = any_number(run, 20);
    }
}

static void make_call(struct run *run)
{
    int call = any(run, 6) < run->joins ? STAGE_JOIN : STAGE_TURN;
    struct lent *out = &run->stage.lent[OUT];
    struct joining joining = any_joining(run);
    lent_resize_or_null(out, any(run, 4) == 0 ? any(run, 130) : OUT_LEN);
    struct told told = check_stage_call(&run->stage, call, &joining, "random stages");
    run->answered[call][told.refusal]++;
    if (call == STAGE_JOIN)
        note_joined(run, &joining, told);
    else
        note_turn(run, told);
}

/* In every fourth run something else writes the memory too. */
static void test_random(uint64_t seed)
{
    static struct run run;
    stage_make(&run.stage, MIDICI_PE_STAGE_LEN + EXTRA, 1500, OUT_LEN);
    run.seed = seed;
    for (int i = 0; i < RUNS; i++) {
        make_empty(&run);
        run.joins = 1 + any(&run, 4);
        for (int k = 0; k < CALLS; k++) {
            if (i % 4 == 0 && any(&run, 16) == 0)
                damage(&run);
            make_call(&run);
        }
    }
    const unsigned long *joins = run.answered[STAGE_JOIN], *turns = run.answered[STAGE_TURN];
    check(joins[0] > 0 && joins[38] > 0 && joins[39] > 0 && joins[30] > 0 && joins[1] > 0 && turns[0] > 0 && run.none > 0 &&
              turns[30] > 0 && turns[1] > 0 && turns[29] > 0 && turns[3] > 0 && run.longest_wait == 16,
          "some are answered, some refused", "random stages");
    printf(
        "%d random stages: %lu lists joined (refused with 38: %lu, 39: %lu, 30: %lu, 1: %lu), %lu chunks handed out, with "
        "them %lu lists left, none: %lu (refused with 30: %lu, 1: %lu, 29: %lu, 3: %lu)\n",
        RUNS, joins[0], joins[38], joins[39], joins[30], joins[1], turns[0] - run.none, run.left, run.none, turns[30],
        turns[1], turns[29], turns[3]);
    stage_free(&run.stage);
}

void test_stage_runs(uint64_t seed)
{
    test_rounds();
    for (size_t place = 0; place < PLACES; place++)
        test_joins_between(place);
    test_short_beside_long();
    test_random(seed);
}
