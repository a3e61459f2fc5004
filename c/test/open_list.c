/* Tests of the open list: what it shows, and in which order. */
#include "check.h"
#include "layout.h"

enum { PEERS = 16, OPEN = SLOTS * PEERS, EXTRA = 3 };

struct row {
    uint64_t peer, request_id, chunks_held;
};

/* The open list has just these rows, from the top, and all else stays. */
static void check_rows(struct table *table, const struct row *rows, uint64_t count, const char *of)
{
    const uint64_t *peers = lent_words(&table->lent[OUT_PEERS]), *ids = lent_words(&table->lent[OUT_REQUEST_IDS]),
                   *held = lent_words(&table->lent[OUT_CHUNKS_HELD]);
    table_keep(table);
    midici_pe_answer answer = table_open_list(table);
    check(answer.refusal == 0 && answer.value == 0 && answer.count == count, "how many are open", of);
    for (uint64_t i = 0; i < count; i++)
        check(peers[i] == rows[i].peer && ids[i] == rows[i].request_id && held[i] == rows[i].chunks_held,
              "each open list stands in its row", of);
    for (int slice = 0; slice < LENT; slice++)
        check(lent_same_from(&table->lent[slice], slice >= OUT_PEERS ? 8 * count : 0), "all else stays", of);
    check(table_guarded(table), "nothing is written before a slice", of);
    model_open_list(table);
    check(table_same(table), "the rows are the model's", of);
}

static void make_table(struct table *table, size_t max_peers)
{
    table_make(table, (midici_pe_shape){max_peers, 8, 32, 4}, EXTRA);
    check(table_new(table).refusal == 0, "a table is made", "setting up");
}

/* Another chunk reaches an open list, and is refused or taken. */
static void feed_one(struct table *table, uint32_t peer, struct fields fields, uint8_t refusal)
{
    struct bytes chunk = chunk_of(fields);
    check(table_feed(table, peer, chunk.at, chunk.len, 0).refusal == refusal, "a chunk is fed", "setting up");
}

/* A few lists: refused chunks count where they reached their list, and one that is closed is gone. */
static void test_few(void)
{
    const struct row rows[] = {{1, 11, 1}, {2, 22, 1}, {1, 12, 1}, {2, 21, 1}, {2, 23, 1}, {2, 24, 2}};
    struct table table;
    make_table(&table, 2);
    check_rows(&table, NULL, 0, "nothing open");
    open_one(&table, 1, 11, 1000);
    open_one(&table, 2, 21, 1001);
    open_one(&table, 1, 12, 1002);
    open_one(&table, 2, 22, 1003);
    open_one(&table, 1, 13, 1004);
    feed_one(&table, 1, (struct fields){12, "", 2, 3, "x"}, 8); /* above its own count: it does not reach the list */
    feed_one(&table, 1, (struct fields){12, "HD", 2, 1, "abc"}, 8);
    feed_one(&table, 2, (struct fields){21, "", 3, 2, "x"}, 8);
    open_one(&table, 2, 23, 0);
    feed_one(&table, 2, (struct fields){24, "", 0, 3, "x"}, 0);
    feed_one(&table, 2, (struct fields){24, "", 3, 2, "x"}, 0);
    check(table_cancel(&table, 1, 13).count == 1, "a list is cancelled", "setting up");
    check_rows(&table, rows, sizeof rows / sizeof rows[0], "a few lists");
    table_free(&table);
}

/* ---- As many lists as can be open; the places have peers, and each of them request ids, in descending order ---- */

static uint32_t peer_of(size_t place) { return (uint32_t)(PEERS - place / SLOTS); }

static uint8_t id_of(size_t place) { return (uint8_t)(40 - place % SLOTS); }

static struct row row_of(size_t place) { return (struct row){peer_of(place), id_of(place), 1}; }

/* Opens all lists, by place, with the clock set first. */
static void make_full(struct table *table, uint64_t clock)
{
    make_table(table, PEERS);
    lent_words(&table->lent[NUMBERS])[CLOCK] = clock;
    for (size_t place = 0; place < OPEN; place++)
        open_one(table, peer_of(place), id_of(place), 0);
}

/* A chunk reaches one list after the other, by places with a step between them, while the times go back. */
static void test_ticks(size_t first, size_t step, const char *of)
{
    struct table table;
    struct row rows[OPEN];
    make_full(&table, 1);
    for (size_t i = 0; i < OPEN; i++) {
        size_t place = (first + step * i) % OPEN;
        struct bytes again = chunk_of((struct fields){id_of(place), "HD", 2, 1, "abc"});
        check(table_feed(&table, peer_of(place), again.at, again.len, OPEN - i).refusal == 8, "a duplicate", of);
        rows[i] = row_of(place);
    }
    check_rows(&table, rows, OPEN, of);
    check(table_cancel(&table, (uint32_t)rows[0].peer, (uint8_t)rows[0].request_id).count == 1, "one is closed", of);
    check_rows(&table, rows + 1, OPEN - 1, of);
    table_free(&table);
}

/* Ticks are held at the largest number, all but the first few: those lists stand on top, and the others by peer and id. */
static void test_held_ticks(size_t lower, const char *of)
{
    struct table table;
    struct row rows[OPEN];
    make_full(&table, UINT64_MAX - 1 - lower);
    const uint64_t *numbers = lent_words(&table.lent[NUMBERS]);
    for (size_t i = 0; i < OPEN; i++) {
        uint64_t tick = numbers[slot_at(i / SLOTS, i % SLOTS) + LRU_TICK];
        check(i < lower ? tick < UINT64_MAX : tick == UINT64_MAX, "its tick", of);
        rows[i] = row_of(i < lower ? i : lower + OPEN - 1 - i);
    }
    check_rows(&table, rows, OPEN, of);
    table_free(&table);
}

/* ---- Memory that something else has written: stored numbers are taken as they are ---- */

/* What two slots have, of which the first stands ahead of the second, wherever each of them lies. */
static const struct pair {
    const char *name;
    struct stored {
        uint64_t tick, peer, request_id;
    } slots[2];
} pairs[] = {
    {"tick, whatever peer and id are", {{0, UINT64_MAX, UINT64_MAX}, {1, 0, 0}}},
    {"tick of 33 bits", {{UINT32_MAX, 1, 1}, {UINT32_MAX + UINT64_C(1), 1, 1}}},
    {"tick of 64 bits", {{INT64_MAX, 1, 1}, {INT64_MAX + UINT64_C(1), 1, 1}}},
    {"largest tick", {{UINT64_MAX - 1, 1, 1}, {UINT64_MAX, 1, 1}}},
    {"peer, whatever the id is", {{5, 0, UINT64_MAX}, {5, 1, 0}}},
    {"peer of 29 bits", {{5, MIDICI_PE_MUID_MAX, 1}, {5, MIDICI_PE_MUID_MAX + 1, 1}}},
    {"peer of 33 bits", {{5, UINT32_MAX, 1}, {5, UINT32_MAX + UINT64_C(1), 1}}},
    {"peer of 64 bits", {{5, INT64_MAX, 1}, {5, INT64_MAX + UINT64_C(1), 1}}},
    {"request id of 8 bits", {{5, 1, 0x7F}, {5, 1, 0x80}}},
    {"request id of 9 bits", {{5, 1, 0xFF}, {5, 1, 0x100}}},
    {"request id of 64 bits", {{5, 1, INT64_MAX}, {5, 1, INT64_MAX + UINT64_C(1)}}},
};

/* Writes a slot that is open at a place. */
static void put_slot(struct table *table, size_t place, struct stored stored, uint64_t now_ms, uint64_t chunks_held)
{
    uint64_t *numbers = lent_words(&table->lent[NUMBERS]), *slot = numbers + slot_at(place / SLOTS, place % SLOTS);
    numbers[peer_at(place / SLOTS) + MUID] = stored.peer;
    slot[ACTIVE] = UINT64_MAX;
    slot[REQUEST_ID] = stored.request_id;
    slot[LAST_ACTIVITY_MS] = now_ms;
    slot[LRU_TICK] = stored.tick;
    slot[INDEX_LEN] = chunks_held;
}

/* The one behind has the earlier time. */
static void test_pair(const struct pair *pair, bool swapped)
{
    struct table table;
    struct row rows[2];
    make_table(&table, 2);
    for (int i = 0; i < 2; i++) {
        struct stored stored = pair->slots[i];
        put_slot(&table, (i == 0) == swapped ? SLOTS : SLOTS - 1, stored, i == 0 ? 2000 : 1000, UINT64_MAX - i);
        rows[i] = (struct row){stored.peer, stored.request_id, UINT64_MAX - i};
    }
    check_rows(&table, rows, 2, pair->name);
    table_free(&table);
}

/* All slots with one tick, peer and request id: place decides. */
static void test_places(void)
{
    struct table table;
    struct row rows[OPEN];
    make_table(&table, PEERS);
    for (size_t place = 0; place < OPEN; place++) {
        put_slot(&table, place, (struct stored){5, 7, 9}, OPEN - place, OPEN - place);
        rows[place] = (struct row){7, 9, OPEN - place};
    }
    check_rows(&table, rows, OPEN, "by place");
    table_free(&table);
}

void test_open_list(void)
{
    test_few();
    test_ticks(0, 1, "ticks in order");
    test_ticks(OPEN - 1, OPEN - 1, "ticks reversed");
    test_ticks(5, 27, "ticks shuffled");
    test_held_ticks(0, "all ticks held");
    test_held_ticks(3, "ticks held but for three");
    for (size_t i = 0; i < sizeof pairs / sizeof pairs[0]; i++) {
        test_pair(&pairs[i], false);
        test_pair(&pairs[i], true);
    }
    test_places();
}
