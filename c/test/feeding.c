/* Tests of a table that is fed: what is joined, closed, listed and counted, and the refusals of chunks that reach a list.
 */
#include "check.h"
#include "layout.h"

#include <string.h>

enum { PEERS = 2, HEADER_BYTES = 8, TX_BYTES = 32, RECORDS = 4, EXTRA = 3, STEPS = 8 };

/* One chunk that is fed, and what is answered: a refusal, waiting, or the whole list. Then so many lists are open. */
struct step {
    uint32_t peer;
    struct fields chunk;
    uint8_t refusal;
    const char *whole_header, *whole_body;
    uint64_t open;
};

#define WAITING 0, NULL, NULL
#define WHOLE(header, body) 0, header, body
#define REFUSED(number) number, NULL, NULL

static const struct feed_case {
    const char *name;
    struct step steps[STEPS];
} feed_cases[] = {
    {"in order", {{1, {5, "HD", 2, 1, "ab"}, WAITING, 1}, {1, {5, "", 2, 2, "cd"}, WHOLE("HD", "abcd"), 0}}},
    {"the other way round", {{1, {5, "", 2, 2, "cd"}, WAITING, 1}, {1, {5, "HD", 2, 1, "ab"}, WHOLE("HD", "abcd"), 0}}},
    {"one chunk", {{1, {5, "HD", 1, 1, "ab"}, WHOLE("HD", "ab"), 0}}},
    {"nothing in it", {{1, {0, "", 1, 1, ""}, WHOLE("", ""), 0}}},
    {"body bytes up to 7F", {{1, {5, "", 1, 1, "\x7F\x01"}, WHOLE("", "\x7F\x01"), 0}}},
    {"a body byte above 7F opens nothing", {{1, {5, "", 1, 1, "a\x80"}, REFUSED(1), 0}}},
    {"a body byte above 7F in an open list",
     {{1, {5, "HD", 2, 1, "a"}, WAITING, 1},
      {1, {5, "", 2, 2, "\xFF"}, REFUSED(1), 1},
      {1, {5, "", 2, 5, "\xFF"}, REFUSED(1), 1},
      {1, {5, "", 2, 2, "b"}, WHOLE("HD", "ab"), 0}}},
    {"largest numbers", {{0x0FFFFFFF, {127, "HD", 1, 1, "ab"}, WHOLE("HD", "ab"), 0}}},
    {"count told late",
     {{1, {5, "HD", 0, 1, "a"}, WAITING, 1},
      {1, {5, "", 0, 2, "b"}, WAITING, 1},
      {1, {5, "", 3, 3, "c"}, WHOLE("HD", "abc"), 0}}},
    {"count told first", {{1, {5, "", 2, 2, "b"}, WAITING, 1}, {1, {5, "HD", 0, 1, "a"}, WHOLE("HD", "ab"), 0}}},
    {"1 of 2, 5 of 2, 2 of 2",
     {{1, {5, "", 2, 1, "1"}, WAITING, 1},
      {1, {5, "", 2, 5, "5"}, REFUSED(8), 1},
      {1, {5, "", 2, 2, "2"}, WHOLE("", "12"), 0}}},
    {"a number above its own count opens nothing",
     {{1, {5, "", 2, 5, "5"}, REFUSED(8), 0},
      {1, {5, "", 1, 2, "2"}, REFUSED(8), 0},
      {1, {5, "", 127, 128, "x"}, REFUSED(8), 0},
      {1, {5, "", 16382, 16383, "x"}, REFUSED(8), 0}}},
    {"the largest count and number",
     {{1, {5, "", 16383, 16383, "x"}, WAITING, 1},
      {1, {6, "", 0, 16383, "x"}, WAITING, 2},
      {1, {7, "", 128, 127, "x"}, WAITING, 3}}},
    {"a number above the known count",
     {{1, {5, "HD", 2, 1, "a"}, WAITING, 1},
      {1, {5, "", 0, 3, "x"}, REFUSED(8), 1},
      {1, {5, "", 0, 16383, "x"}, REFUSED(8), 1},
      {1, {5, "", 0, 2, "b"}, WHOLE("HD", "ab"), 0}}},
    {"a number above the known count, and a body too long, stays open",
     {{1, {5, "HD", 2, 1, "a"}, WAITING, 1},
      {1, {5, "", 0, 3, "0123456789ABCDEF0123456789ABCDEFG"}, REFUSED(8), 1},
      {1, {5, "", 2, 2, "b"}, WHOLE("HD", "ab"), 0}}},
    {"a number above the known count, asked before the records",
     {{1, {5, "", 5, 5, "e"}, WAITING, 1},
      {1, {5, "", 5, 4, "d"}, WAITING, 1},
      {1, {5, "", 5, 3, "c"}, WAITING, 1},
      {1, {5, "", 5, 2, "b"}, WAITING, 1},
      {1, {5, "", 0, 6, "x"}, REFUSED(8), 1},
      {1, {5, "", 0, 1, "x"}, REFUSED(5), 1}}},
    {"a first count below a number that is held",
     {{1, {5, "", 0, 3, "c"}, WAITING, 1},
      {1, {5, "", 2, 2, "b"}, REFUSED(8), 1},
      {1, {5, "", 0, 4, "d"}, WAITING, 1},
      {1, {5, "", 3, 2, "b"}, REFUSED(8), 1},
      {1, {5, "", 4, 2, "b"}, WAITING, 1},
      {1, {5, "HD", 4, 1, "a"}, WHOLE("HD", "abcd"), 0}}},
    {"a first count of 1 while 2 is held",
     {{1, {5, "", 0, 2, "b"}, WAITING, 1},
      {1, {5, "HD", 1, 1, "a"}, REFUSED(8), 1},
      {1, {5, "HD", 2, 1, "a"}, WHOLE("HD", "ab"), 0}}},
    {"a first count that is the highest number held",
     {{1, {5, "", 0, 3, "c"}, WAITING, 1},
      {1, {5, "", 3, 2, "b"}, WAITING, 1},
      {1, {5, "", 0, 4, "x"}, REFUSED(8), 1},
      {1, {5, "HD", 0, 1, "a"}, WHOLE("HD", "abc"), 0}}},
    {"a first count below the largest number",
     {{1, {5, "", 0, 16383, "x"}, WAITING, 1},
      {1, {5, "", 16382, 2, "b"}, REFUSED(8), 1},
      {1, {5, "", 16383, 2, "b"}, WAITING, 1}}},
    {"a header that a refused first count left",
     {{1, {5, "", 0, 3, "c"}, WAITING, 1},
      {1, {5, "HD", 2, 1, "a"}, REFUSED(8), 1},
      {1, {5, "HX", 3, 1, "a"}, REFUSED(8), 1},
      {1, {5, "", 3, 2, "b"}, WAITING, 1},
      {1, {5, "HX", 3, 1, "a"}, REFUSED(8), 1},
      {1, {5, "HD", 3, 1, "a"}, WHOLE("HD", "abc"), 0}}},
    {"a count that a refused duplicate left",
     {{1, {5, "HD", 0, 1, "a"}, WAITING, 1},
      {1, {5, "", 0, 2, "b"}, WAITING, 1},
      {1, {5, "", 2, 2, "b"}, REFUSED(8), 1},
      {1, {5, "", 0, 3, "x"}, REFUSED(8), 1},
      {1, {5, "", 3, 3, "x"}, REFUSED(8), 1}}},
    {"a header too long, asked before the first count",
     {{1, {5, "", 0, 2, "b"}, WAITING, 1},
      {1, {5, "123456789", 1, 1, "a"}, REFUSED(4), 1},
      {1, {5, "HD", 2, 1, "a"}, WHOLE("HD", "ab"), 0}}},
    {"a duplicate",
     {{1, {5, "", 2, 2, "b"}, WAITING, 1},
      {1, {5, "", 2, 2, "x"}, REFUSED(8), 1},
      {1, {5, "HD", 2, 1, "a"}, WHOLE("HD", "ab"), 0}}},
    {"another header",
     {{1, {5, "HD", 2, 1, "a"}, WAITING, 1},
      {1, {5, "HE", 2, 1, "a"}, REFUSED(8), 1},
      {1, {5, "H", 2, 1, "a"}, REFUSED(8), 1},
      {1, {5, "HD", 2, 1, "a"}, REFUSED(8), 1},
      {1, {5, "", 2, 2, "b"}, WHOLE("HD", "ab"), 0}}},
    {"another count",
     {{1, {5, "HD", 2, 1, "a"}, WAITING, 1},
      {1, {5, "", 3, 2, "x"}, REFUSED(8), 1},
      {1, {5, "", 2, 2, "b"}, WHOLE("HD", "ab"), 0}}},
    {"a header that a refused chunk left",
     {{1, {5, "", 2, 2, "b"}, WAITING, 1},
      {1, {5, "HDR", 3, 1, "a"}, REFUSED(8), 1},
      {1, {5, "XDR", 2, 1, "a"}, REFUSED(8), 1},
      {1, {5, "HDX", 2, 1, "a"}, REFUSED(8), 1},
      {1, {5, "HXR", 2, 1, "a"}, REFUSED(8), 1},
      {1, {5, "HD", 2, 1, "a"}, REFUSED(8), 1},
      {1, {5, "", 2, 1, "a"}, REFUSED(8), 1},
      {1, {5, "HDR", 2, 1, "a"}, WHOLE("HDR", "ab"), 0}}},
    {"number 0 closes", {{1, {5, "HD", 2, 1, "a"}, WAITING, 1}, {1, {5, "", 2, 0, "x"}, REFUSED(8), 0}}},
    {"number 0 first", {{1, {5, "", 2, 0, "x"}, REFUSED(8), 0}}},
    {"number 0 without a count closes", {{1, {5, "HD", 2, 1, "a"}, WAITING, 1}, {1, {5, "", 0, 0, "x"}, REFUSED(8), 0}}},
    {"number 0 with a first count below a number that is held stays open",
     {{1, {5, "", 0, 3, "c"}, WAITING, 1},
      {1, {5, "", 2, 0, "x"}, REFUSED(8), 1},
      {1, {5, "", 3, 2, "b"}, WAITING, 1},
      {1, {5, "HD", 3, 1, "a"}, WHOLE("HD", "abc"), 0}}},
    {"number 0 with a first count at the highest number closes",
     {{1, {5, "", 0, 3, "c"}, WAITING, 1}, {1, {5, "", 3, 0, "x"}, REFUSED(8), 0}}},
    {"number 0 with another count stays open",
     {{1, {5, "HD", 2, 1, "a"}, WAITING, 1},
      {1, {5, "", 3, 0, "x"}, REFUSED(8), 1},
      {1, {5, "", 2, 2, "b"}, WHOLE("HD", "ab"), 0}}},
    {"the longest header", {{1, {5, "12345678", 1, 1, "ab"}, WHOLE("12345678", "ab"), 0}}},
    {"a header one too long opens a list",
     {{1, {5, "123456789", 1, 1, "ab"}, REFUSED(4), 1}, {1, {5, "HD", 1, 1, "ab"}, WHOLE("HD", "ab"), 0}}},
    {"as many chunks as there are records",
     {{1, {5, "", 4, 4, "d"}, WAITING, 1},
      {1, {5, "", 4, 3, "c"}, WAITING, 1},
      {1, {5, "", 4, 2, "b"}, WAITING, 1},
      {1, {5, "HD", 4, 1, "a"}, WHOLE("HD", "abcd"), 0}}},
    {"one chunk more than there are records",
     {{1, {5, "", 5, 5, "e"}, WAITING, 1},
      {1, {5, "", 5, 4, "d"}, WAITING, 1},
      {1, {5, "", 5, 3, "c"}, WAITING, 1},
      {1, {5, "", 5, 2, "b"}, WAITING, 1},
      {1, {5, "HD", 5, 1, "a"}, REFUSED(5), 1}}},
    {"the longest body",
     {{1, {5, "", 2, 2, "0123456789abcdef"}, WAITING, 1},
      {1, {5, "HD", 2, 1, "0123456789ABCDEF"}, WHOLE("HD", "0123456789ABCDEF0123456789abcdef"), 0}}},
    {"a body one too long closes",
     {{1, {5, "", 2, 2, "0123456789abcdef"}, WAITING, 1}, {1, {5, "HD", 2, 1, "0123456789ABCDEFG"}, REFUSED(5), 0}}},
    {"a duplicate with a body too long stays open",
     {{1, {5, "", 2, 2, "b"}, WAITING, 1},
      {1, {5, "", 2, 2, "0123456789ABCDEF0123456789ABCDEFG"}, REFUSED(8), 1},
      {1, {5, "HD", 2, 1, "a"}, WHOLE("HD", "ab"), 0}}},
    {"no record, and a body too long, stays open",
     {{1, {5, "", 5, 5, "e"}, WAITING, 1},
      {1, {5, "", 5, 4, "d"}, WAITING, 1},
      {1, {5, "", 5, 3, "c"}, WAITING, 1},
      {1, {5, "", 5, 2, "b"}, WAITING, 1},
      {1, {5, "HD", 5, 1, "0123456789ABCDEF0123456789ABCDEFG"}, REFUSED(5), 1}}},
    {"a body too long at once", {{1, {5, "HD", 1, 1, "0123456789ABCDEF0123456789ABCDEFG"}, REFUSED(5), 0}}},
    {"four lists of one peer",
     {{1, {1, "", 2, 1, "a"}, WAITING, 1},
      {1, {2, "", 2, 1, "b"}, WAITING, 2},
      {1, {3, "", 2, 1, "c"}, WAITING, 3},
      {1, {4, "", 2, 1, "d"}, WAITING, 4},
      {1, {5, "", 2, 1, "e"}, REFUSED(6), 4},
      {2, {5, "", 2, 1, "e"}, WAITING, 5},
      {1, {2, "", 2, 2, "B"}, WHOLE("", "bB"), 4},
      {1, {5, "", 1, 1, "e"}, WHOLE("", "e"), 4}}},
    {"two peers, and no record for a third",
     {{1, {5, "", 2, 1, "a"}, WAITING, 1},
      {2, {5, "", 2, 1, "A"}, WAITING, 2},
      {3, {5, "", 2, 1, "x"}, REFUSED(7), 2},
      {2, {5, "", 2, 2, "B"}, WHOLE("", "AB"), 1},
      {3, {5, "", 1, 1, "x"}, WHOLE("", "x"), 1},
      {1, {5, "", 2, 2, "b"}, WHOLE("", "ab"), 0}}},
    {"no number of a peer",
     {{0x10000000, {5, "", 1, 1, "a"}, REFUSED(28), 0}, {UINT32_MAX, {5, "", 1, 1, "a"}, REFUSED(28), 0}}},
};

/* Refusals that come before a chunk reaches its list leave everything: of the questions that are asked in reading it, those
 * here are 1 and 8 for a number above the chunk's own count. */
static bool leaves_all(const struct step *step)
{
    const struct fields *chunk = &step->chunk;
    return step->refusal == 28 || step->refusal == 7 || step->refusal == 6 || step->refusal == 1 ||
           (step->refusal == 8 && chunk->num_chunks != 0 && chunk->chunk_num > chunk->num_chunks);
}

/* A chunk that reached a list which it leaves open has set its time and tick, whatever the answer. */
static void check_reached(const struct table *table, const struct step *step, uint64_t now_ms, const char *name)
{
    const uint64_t *numbers = lent_words(&table->lent[NUMBERS]), *reached = NULL;
    for (size_t i = 0; i < SLOTS * PEERS; i++) {
        const uint64_t *slot = numbers + slot_at(i / SLOTS, i % SLOTS);
        if (slot[ACTIVE] != 0 && slot[REQUEST_ID] == step->chunk.request_id &&
            numbers[peer_at(i / SLOTS) + MUID] == step->peer)
            reached = slot;
    }
    if (reached != NULL && !leaves_all(step))
        check(reached[LAST_ACTIVITY_MS] == now_ms && reached[LRU_TICK] == numbers[CLOCK], "time and tick are set", name);
}

static void check_whole(struct table *table, midici_pe_fed answer, const struct step *step, const char *name)
{
    size_t header_len = strlen(step->whole_header), body_len = strlen(step->whole_body);
    check(answer.whole == 1 && answer.header_len == header_len && answer.body_len == body_len, "the list is whole", name);
    check(memcmp(table->lent[OUT_HEADER].at, step->whole_header, header_len) == 0, "its header", name);
    check(memcmp(table->lent[OUT_BODY].at, step->whole_body, body_len) == 0, "its body", name);
    check(lent_same_from(&table->lent[OUT_HEADER], header_len), "bytes past the header stay", name);
    check(lent_same_from(&table->lent[OUT_BODY], body_len), "bytes past the body stay", name);
}

static void check_step(struct table *table, midici_pe_fed answer, const struct step *step, uint64_t now_ms,
                       const char *name)
{
    check(answer.refusal == step->refusal && answer.value == 0, "the refusal", name);
    if (step->whole_header != NULL) {
        check_whole(table, answer, step, name);
    } else {
        check(answer.whole == 0 && answer.header_len == 0 && answer.body_len == 0, "no list is whole", name);
        check(lent_same_from(&table->lent[OUT_HEADER], 0), "the output of the header stays", name);
        check(lent_same_from(&table->lent[OUT_BODY], 0), "the output of the body stays", name);
    }
    if (step->refusal != 0)
        check(lent_same_from(&table->lent[ARENAS], 0), "a refused chunk's bytes are not taken", name);
    if (leaves_all(step))
        check(table_same(table), "the refusal leaves everything", name);
    check_reached(table, step, now_ms, name);
    check(table_guarded(table), "nothing is written before a slice", name);
    check(table_open_list(table).count == step->open, "so many lists are open", name);
    check(table_memory_stats(table).active_slots == step->open, "so many lists are counted", name);
}

/* What a feed is lent is left as the model leaves its copy. */
static void check_left(struct table *table, uint32_t peer, struct bytes *chunk, uint64_t now_ms, const char *name)
{
    struct lent raw = {.at = chunk->at, .len = chunk->len};
    model_feed(table, peer, &raw, now_ms);
    for (int slice = NUMBERS; slice <= OUT_BODY; slice++)
        check(lent_same_from(&table->lent[slice], 0), "the table is left as it should be", name);
}

/* Feeds a case's chunks, bare or in messages. A peer's number that a message cannot carry is fed bare. */
static void test_feed_case(const struct feed_case *c, bool in_messages)
{
    struct table table;
    table_make(&table, (midici_pe_shape){PEERS, HEADER_BYTES, TX_BYTES, RECORDS}, EXTRA);
    table_new(&table);
    for (int i = 0; i < STEPS && c->steps[i].chunk.header != NULL; i++) {
        const struct step *step = &c->steps[i];
        struct bytes chunk = chunk_of(step->chunk), message = message_of(0x35, step->peer, 9, &chunk);
        uint64_t now_ms = 1000 + (uint64_t)i;
        table_keep(&table);
        midici_pe_fed answer = in_messages && step->peer <= MIDICI_PE_MUID_MAX
                                   ? table_feed_message(&table, message.at, message.len, now_ms)
                                   : table_feed(&table, step->peer, chunk.at, chunk.len, now_ms);
        check_step(&table, answer, step, now_ms, c->name);
        check_left(&table, step->peer, &chunk, now_ms, c->name);
    }
    table_free(&table);
}

void test_feeding(void)
{
    for (size_t i = 0; i < sizeof feed_cases / sizeof feed_cases[0]; i++) {
        test_feed_case(&feed_cases[i], false);
        test_feed_case(&feed_cases[i], true);
    }
}
