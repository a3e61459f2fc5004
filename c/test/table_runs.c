/* Runs of random calls on tables. Each call is held against the model: its answer, and all that it leaves. Many of the
 * chunks go beyond their count, many counts come late, and some property bytes are above 7F: of those it is also asked
 * here, without the model, what they leave. Some tables begin with a clock that is soon held at its largest number. */
#include "check.h"
#include "layout.h"

#include <stdio.h>
#include <string.h>

enum { RUNS = 4000, CALLS = 60, MOST_PEERS = 3, LISTS = 6, FIRST_ID = 5 };

/* What a chunk meets. */
enum met {
    NOTHING_SPECIAL,
    PROPERTY_BYTE,     /* a property byte is above 7F */
    ABOVE_OWN_COUNT,   /* its number is above its own count */
    ABOVE_KNOWN_COUNT, /* its number is above the count that its list has */
    COUNT_BELOW_HELD,  /* it has its list's first count, which is below a number that is held */
    COUNT_AT_HIGHEST,  /* it has its list's first count, which is the highest number that is held */
    COUNT_LATE,        /* it has its list's first count, which is above all numbers that are held */
    MET
};

static const char *const met_names[MET] = {"",
                                           "with a property byte above 7F, refused",
                                           "numbered above their own count, refused",
                                           "numbered above the known count, refused",
                                           "with a first count below a number that is held, refused",
                                           "with a first count at the highest number that is held",
                                           "with a first count above the numbers that are held"};

/* What puts a list ahead of one that lies before it in memory: its tick, with equal ticks its peer, and of one peer its
 * request id. */
enum put_by { BY_TICK, BY_PEER, BY_REQUEST_ID, PUT_BY };

static const char *const put_by_names[PUT_BY] = {"by its tick", "by its peer, with equal ticks",
                                                 "by its request id, with equal ticks of one peer"};

struct seen {
    unsigned long chunks[MET], whole, whole_after_stray;
    unsigned long open_lists[PUT_BY]; /* those with such a list */
};

struct run {
    struct table table;
    uint64_t seed;
    unsigned counts[MOST_PEERS + 1][LISTS]; /* the count that most chunks of a list have */
    bool strayed[MOST_PEERS * SLOTS];       /* has an open list turned a stray chunk down? */
    struct seen *seen;
};

/* A chunk, its sender and its time. */
struct arrival {
    uint32_t peer;
    uint64_t now_ms;
    struct fields fields;
    char property[16];
    bool is_as_written; /* no byte of it was changed */
};

/* ---- What is chosen ---- */

static size_t any(struct run *run, size_t below) { return any_below(&run->seed, below); }

static void choose_property(struct run *run, char *property)
{
    size_t len = any(run, any(run, 8) == 0 ? 15 : 5);
    memset(property, (int)('a' + any(run, 26)), len);
    property[len] = '\0';
    if (len > 0 && any(run, 10) == 0)
        property[any(run, len)] = (char)(0x80 + any(run, 128));
}

/* Most chunks belong to a list of a few, and tell its count or none; some have any number or count. */
static void choose_fields(struct run *run, struct arrival *arrival)
{
    size_t list = any(run, any(run, 8) == 0 ? LISTS : 2);
    unsigned count = run->counts[arrival->peer][list], number = 1 + (unsigned)any(run, count);
    if (any(run, 6) == 0)
        number = count + 1 + (unsigned)any(run, 3);
    if (any(run, 24) == 0)
        number = any(run, 2) == 0 ? 0 : 16383;
    if (any(run, 2) == 0)
        count = 0;
    else if (any(run, 6) == 0)
        count = 1 + (unsigned)any(run, 6);
    choose_property(run, arrival->property);
    const char *header = number == 1 ? (any(run, 24) == 0 ? "HDR" : "HD") : any(run, 48) == 0 ? "X" : "";
    arrival->fields = (struct fields){(uint8_t)(FIRST_ID + list), header, count, number, arrival->property};
}

/* One byte more, one less, or another one. */
static void change(struct run *run, struct bytes *chunk)
{
    switch (any(run, 3)) {
    case 0:
        add_byte(chunk, (unsigned)any(run, 256));
        break;
    case 1:
        chunk->len--;
        break;
    default:
        chunk->at[any(run, chunk->len)] = (uint8_t)any(run, 256);
    }
}

static struct bytes choose_arrival(struct run *run, struct arrival *arrival, enum given_bytes kind)
{
    choose_fields(run, arrival);
    struct bytes chunk = chunk_of(arrival->fields);
    arrival->is_as_written = any(run, 16) != 0;
    if (!arrival->is_as_written)
        change(run, &chunk);
    return kind == A_MESSAGE ? message_of(0x35, arrival->peer, 9, &chunk) : chunk;
}

/* ---- What it meets, from the table before the call ---- */

/* The slot that a peer has open with a request id, or -1. */
static int open_slot(const struct table *table, uint32_t peer, uint8_t request_id)
{
    const uint64_t *numbers = lent_words(&table->lent[NUMBERS]);
    for (size_t i = 0; i < SLOTS * table->shape.max_peers; i++) {
        const uint64_t *record = numbers + peer_at(i / SLOTS), *slot = numbers + slot_at(i / SLOTS, i % SLOTS);
        if (record[BOUND] != 0 && record[MUID] == peer && slot[ACTIVE] != 0 && slot[REQUEST_ID] == request_id)
            return (int)i;
    }
    return -1;
}

static const uint64_t *words_at(const struct table *table, int slot)
{
    return lent_words(&table->lent[NUMBERS]) + slot_at((size_t)slot / SLOTS, (size_t)slot % SLOTS);
}

static unsigned highest_held(const struct table *table, int slot)
{
    const uint64_t *index = lent_words(&table->lent[INDEX]) + (size_t)slot * table->shape.fragment_records;
    unsigned highest = 0;
    for (uint64_t i = 0; i < words_at(table, slot)[INDEX_LEN]; i++)
        if (record_number(index[i]) > highest)
            highest = (unsigned)record_number(index[i]);
    return highest;
}

/* In its list. A chunk 1 whose header is already there, or is too long, is answered before its count is looked at. */
static enum met met_in_list(const struct table *table, int slot, const struct fields *f)
{
    const uint64_t *words = words_at(table, slot);
    if (f->chunk_num == 1 && (words[HEADER_SET] != 0 || strlen(f->header) > table->shape.header_bytes))
        return NOTHING_SPECIAL;
    if (words[NUM_CHUNKS] != 0)
        return f->num_chunks == 0 && f->chunk_num > words[NUM_CHUNKS] ? ABOVE_KNOWN_COUNT : NOTHING_SPECIAL;
    if (f->num_chunks == 0 || words[INDEX_LEN] == 0)
        return NOTHING_SPECIAL;
    unsigned highest = highest_held(table, slot);
    return f->num_chunks < highest ? COUNT_BELOW_HELD : f->num_chunks == highest ? COUNT_AT_HIGHEST : COUNT_LATE;
}

static enum met met_by(const struct table *table, const struct arrival *arrival)
{
    const struct fields *f = &arrival->fields;
    int slot = open_slot(table, arrival->peer, f->request_id);
    if (!arrival->is_as_written)
        return NOTHING_SPECIAL;
    for (const char *byte = f->property; *byte != '\0'; byte++)
        if ((uint8_t)*byte > 0x7F)
            return PROPERTY_BYTE;
    if (f->chunk_num != 1 && f->header[0] != '\0')
        return NOTHING_SPECIAL;
    if (f->num_chunks != 0 && f->chunk_num > f->num_chunks)
        return ABOVE_OWN_COUNT;
    return slot < 0 ? NOTHING_SPECIAL : met_in_list(table, slot, f);
}

/* ---- What it leaves ---- */

/* A stray chunk leaves its list open, with its time and tick set and a header stored, and takes nothing else. */
static void check_stray(const struct table *table, int slot, const uint64_t *before, const struct arrival *arrival)
{
    const uint64_t *words = words_at(table, slot);
    const char *of = "a stray chunk in random runs";
    check(words[ACTIVE] == before[ACTIVE] && words[REQUEST_ID] == before[REQUEST_ID], "its list stays open", of);
    check(words[LAST_ACTIVITY_MS] == arrival->now_ms, "the time is set", of);
    check(words[LRU_TICK] == lent_words(&table->lent[NUMBERS])[CLOCK] &&
              (words[LRU_TICK] > before[LRU_TICK] || words[LRU_TICK] == UINT64_MAX),
          "the tick is set", of);
    check(words[NUM_CHUNKS] == before[NUM_CHUNKS], "its count is not taken", of);
    check(words[INDEX_LEN] == before[INDEX_LEN] && words[PROPERTY_BYTES] == before[PROPERTY_BYTES], "nor its bytes", of);
    check(words[HEADER_SET] == (arrival->fields.chunk_num == 1 || before[HEADER_SET] != 0), "chunk 1's header is", of);
}

/* What the chunk met is answered, and leaves, as it should. The kept copies are still those before the call. */
static void check_met(struct run *run, enum met met, int slot, const uint64_t *before, const struct arrival *arrival,
                      uint8_t refusal)
{
    const char *of = "random runs";
    bool is_left = table_same(&run->table);
    switch (met) {
    case PROPERTY_BYTE:
        check(refusal == 1 && is_left, "a property byte above 7F gives 1 and leaves everything", of);
        break;
    case ABOVE_OWN_COUNT:
        check(refusal == 8 && is_left, "a number above its own count gives 8 and leaves everything", of);
        break;
    case ABOVE_KNOWN_COUNT:
    case COUNT_BELOW_HELD:
        check(refusal == 8, "a stray chunk gives 8", of);
        check_stray(&run->table, slot, before, arrival);
        break;
    case COUNT_AT_HIGHEST:
    case COUNT_LATE:
        check(words_at(&run->table, slot)[ACTIVE] == 0 ||
                  words_at(&run->table, slot)[NUM_CHUNKS] == arrival->fields.num_chunks,
              "a count that comes late is taken", of);
        break;
    default:
        break;
    }
    run->seen->chunks[met]++;
    if (slot >= 0 && (met == ABOVE_OWN_COUNT || met == ABOVE_KNOWN_COUNT || met == COUNT_BELOW_HELD))
        run->strayed[slot] = true;
}

/* Lists that are whole, and those of them that had turned a stray chunk down. */
static void count_whole(struct run *run, int slot, bool is_whole)
{
    run->seen->whole += is_whole;
    run->seen->whole_after_stray += is_whole && slot >= 0 && run->strayed[slot];
    for (int i = 0; i < (int)(SLOTS * run->table.shape.max_peers); i++)
        run->strayed[i] = run->strayed[i] && words_at(&run->table, i)[ACTIVE] != 0;
}

/* ---- What an open list shows ---- */

/* What puts the list at a place ahead of the one at a place before it, if anything; PUT_BY if nothing does. */
static enum put_by put_ahead_by(const struct table *table, int place, int before)
{
    const uint64_t *a = words_at(table, place), *b = words_at(table, before), *numbers = lent_words(&table->lent[NUMBERS]);
    const uint64_t by[PUT_BY][2] = {
        {a[LRU_TICK], b[LRU_TICK]},
        {numbers[peer_at((size_t)place / SLOTS) + MUID], numbers[peer_at((size_t)before / SLOTS) + MUID]},
        {a[REQUEST_ID], b[REQUEST_ID]}};
    for (int i = 0; i < PUT_BY; i++)
        if (by[i][0] != by[i][1])
            return by[i][0] < by[i][1] ? (enum put_by)i : PUT_BY;
    return PUT_BY;
}

static void count_open_list(struct run *run)
{
    bool found[PUT_BY + 1] = {false};
    for (int i = 0; i < (int)(SLOTS * run->table.shape.max_peers); i++)
        for (int before = 0; before < i; before++)
            if (words_at(&run->table, i)[ACTIVE] != 0 && words_at(&run->table, before)[ACTIVE] != 0)
                found[put_ahead_by(&run->table, i, before)] = true;
    for (int i = 0; i < PUT_BY; i++)
        run->seen->open_lists[i] += found[i];
}

/* ---- Calls and runs ---- */

static void make_call(struct run *run, const struct call *call)
{
    struct table *table = &run->table;
    struct arrival arrival = {.peer = 1 + (uint32_t)any(run, MOST_PEERS), .now_ms = 1000 * any(run, 8)};
    struct bytes chunk = choose_arrival(run, &arrival, call->bytes);
    struct lent raw = {.at = chunk.at, .len = chunk.len};
    struct given given = {arrival.peer, arrival.fields.request_id, arrival.now_ms, &raw};
    int slot = open_slot(table, arrival.peer, arrival.fields.request_id);
    enum met met = call->bytes == NO_BYTES ? NOTHING_SPECIAL : met_by(table, &arrival);
    uint64_t before[SLOT_WORDS] = {0};
    if (slot >= 0)
        memcpy(before, words_at(table, slot), sizeof before);
    table_keep(table);
    struct told told = call->made(table, &given);
    check_met(run, met, slot, before, &arrival, told.refusal);
    count_whole(run, slot, call->bytes != NO_BYTES && told.numbers[0] == 1);
    check(told_same(told, call->model(table, &given)), "the answer is the model's", call->name);
    if (call->lent >> OUT_CHUNKS_HELD & 1)
        count_open_list(run);
    check(table_same(table), "everything is left as the model leaves it", call->name);
    check(table_guarded(table), "nothing is written before a slice", call->name);
}

/* Five calls of six are feeds, bare or in messages. */
static const struct call *choose_call(struct run *run)
{
    size_t rows = 0;
    while (calls[rows].name != NULL)
        rows++;
    const struct call *call = &calls[any(run, rows)];
    if (any(run, 6) != 0)
        while (call->bytes == NO_BYTES)
            call = &calls[any(run, rows)];
    return call;
}

static void make_run(uint64_t *seed, struct seen *seen)
{
    struct run run = {.seed = *seed, .seen = seen};
    midici_pe_shape shape = {1 + any(&run, MOST_PEERS), any(&run, 8) == 0 ? any(&run, 3) : 4, 8 + any(&run, 40),
                             any(&run, 8) == 0 ? any(&run, 3) : 3 + any(&run, 4)};
    for (size_t i = 0; i < (MOST_PEERS + 1) * LISTS; i++)
        run.counts[i / LISTS][i % LISTS] = 1 + (unsigned)any(&run, 4);
    table_make(&run.table, shape, any(&run, 2));
    check(table_new(&run.table).refusal == 0, "a table is made", "random runs");
    if (any(&run, 4) == 0)
        lent_words(&run.table.lent[NUMBERS])[CLOCK] = UINT64_MAX - any(&run, 20);
    for (int i = 0; i < CALLS; i++)
        make_call(&run, choose_call(&run));
    table_free(&run.table);
    *seed = run.seed;
}

void test_table_runs(uint64_t seed)
{
    struct seen seen = {.whole = 0};
    for (int i = 0; i < RUNS; i++)
        make_run(&seed, &seen);
    printf("%d random calls on tables. Lists that got whole: %lu, %lu of them after a stray chunk. Chunks\n", RUNS * CALLS,
           seen.whole, seen.whole_after_stray);
    for (int met = NOTHING_SPECIAL + 1; met < MET; met++) {
        printf("  %s: %lu\n", met_names[met], seen.chunks[met]);
        check(seen.chunks[met] > 0, met_names[met], "random runs had no chunk");
    }
    check(seen.whole_after_stray > 0, "a list is whole after a stray chunk", "random runs");
    printf("Open lists in which a list stands ahead of one that lies before it in memory\n");
    for (int by = 0; by < PUT_BY; by++) {
        printf("  %s: %lu\n", put_by_names[by], seen.open_lists[by]);
        check(seen.open_lists[by] > 0, put_by_names[by], "random runs had no list put ahead");
    }
}
