/* Tests of a list that is cut at once: what is written, into outputs of every length, and what a refusal leaves. Random
 * lists and messages, held against the model; a list that is cut arrives whole. */
#include "check.h"

#include <stdio.h>
#include <string.h>

enum {
    MOST_CHUNKS = 16383,
    MOST_HEADER = 16384,
    MOST_BODY = MOST_CHUNKS * 104 + 1,
    EXTRA = 3,
    MESSAGES = 20000,
    LISTED_CHUNKS = MIDICI_PE_TX_BYTES / 104 + 2 /* of random lists */
};

/* Random lists: how many, and the most that limit, header and body have. */
static const struct sizes {
    const char *name;
    int lists;
    uint32_t max_sysex;
    size_t header_len, body_len;
} sizes[] = {
    {"random lists", 3000, 599, 129, 2500},
    {"larger random lists", 300, 20000, MIDICI_PE_HEADER_BYTES + 100, MIDICI_PE_TX_BYTES},
};

/* A list, its limit, and what is lent for its chunks. */
struct lending {
    uint8_t request_id;
    uint32_t max_sysex;
    struct lent header, body, out, lengths, chunk;
};

#define GIVEN(l) l->request_id, l->header.at, l->header.len, l->body.at, l->body.len, l->max_sysex
#define MODEL(l) l->request_id, &l->header, &l->body, l->max_sysex

/* ---- One call ---- */

static void lend_chunks(struct lending *l, size_t bytes, size_t chunks)
{
    lent_resize_or_null(&l->out, bytes);
    lent_resize_or_null(&l->lengths, 2 * chunks);
    lent_fill(&l->out);
    lent_fill(&l->lengths);
    lent_keep(&l->out);
    lent_keep(&l->lengths);
}

static bool answers(midici_pe_cut answer, uint8_t refusal, uint64_t chunks, uint64_t bytes)
{
    return answer.refusal == refusal && answer.chunks == chunks && answer.bytes == bytes;
}

/* The list, cut into outputs of these lengths; whether they hold its chunks now. */
static bool test_rooms(struct lending *l, size_t bytes, size_t chunks, uint8_t refusal, const char *of)
{
    size_t count = (size_t)midici_pe_chunk_count(GIVEN(l)).count, all = l->header.len + l->body.len + 9 * count;
    lend_chunks(l, bytes, chunks);
    lent_keep(&l->header);
    lent_keep(&l->body);
    midici_pe_cut answer = midici_pe_split(GIVEN(l), l->out.at, l->out.len, lent_u16s(&l->lengths), chunks);
    if (refusal != 0) {
        check(answers(answer, refusal, 0, 0), "the list is refused", of);
        check(lent_same_from(&l->out, 0) && lent_same_from(&l->lengths, 0), "a refusal leaves both outputs", of);
    } else {
        check(answers(answer, 0, count, all), "how many chunks and bytes", of);
        check(lent_same_from(&l->out, all), "bytes past the chunks stay", of);
        check(lent_same_from(&l->lengths, 2 * count), "lengths past the chunks stay", of);
    }
    check(lent_guarded(&l->out) && lent_guarded(&l->lengths), "nothing is written before an output", of);
    check(lent_same_from(&l->header, 0) && lent_same_from(&l->body, 0), "header and body stay", of);
    midici_pe_cut model = model_split(MODEL(l), &l->out, &l->lengths);
    check(answers(model, answer.refusal, answer.chunks, answer.bytes), "the model answers the same", of);
    bool is_written = lent_same_from(&l->out, 0) && lent_same_from(&l->lengths, 0);
    check(is_written, "the model writes the same", of);
    return is_written && answers(answer, 0, count, all);
}

/* Where chunk `chunk_num` stands in the output: behind those before it. */
static size_t place_of(const struct lending *l, size_t chunk_num)
{
    size_t place = 0;
    for (size_t k = 1; k < chunk_num; k++)
        place += lent_u16s(&l->lengths)[k - 1];
    return place;
}

/* Chunk `chunk_num` of the output is the one that is cut alone. */
static void check_alone(struct lending *l, size_t chunk_num, const char *of)
{
    midici_pe_answer alone = midici_pe_split_chunk(GIVEN(l), (uint16_t)chunk_num, l->chunk.at, l->chunk.len);
    check(alone.refusal == 0 && alone.count == lent_u16s(&l->lengths)[chunk_num - 1], "the chunk's length", of);
    check(memcmp(l->out.at + place_of(l, chunk_num), l->chunk.at, (size_t)alone.count) == 0, "the chunk's bytes", of);
}

/* Outputs of every kind of length, the exact one last, and then each chunk (of very many the first ones, the last ones, and
 * some between). */
static void test_split(struct lending *l, const char *of)
{
    size_t count = (size_t)midici_pe_chunk_count(GIVEN(l)).count, all = l->header.len + l->body.len + 9 * count;
    test_rooms(l, all + EXTRA, count + EXTRA, 0, of);
    test_rooms(l, all - 1, count, 3, of);
    test_rooms(l, all, count - 1, 3, of);
    test_rooms(l, all - 1, count + EXTRA, 3, of);
    test_rooms(l, all + EXTRA, count - 1, 3, of);
    test_rooms(l, 0, count, 3, of);
    test_rooms(l, all, 0, 3, of);
    if (!test_rooms(l, all, count, 0, of))
        return;
    for (size_t k = 1; k <= count; k += k > 64 && k < count - 3 ? (count - k) / 4 + 1 : 1)
        check_alone(l, k, of);
}

/* ---- Lists by hand ---- */

static const struct split_case {
    const char *name;
    uint8_t request_id;
    size_t header_len;
    uint8_t header_last;
    size_t body_len;
    uint8_t body_last;
    uint32_t max_sysex;
    uint8_t refusal;
    uint64_t chunks;
} split_cases[] = {
    {"at once: a scene list", 5, 48, 0, 1000, 0, 256, 0, 5},
    {"at once: nothing at all", 0, 0, 0, 0, 0, 256, 0, 1},
    {"at once: only a header", 127, 2, 0x7F, 0, 0, 256, 0, 1},
    {"at once: only a body", 1, 0, 0, 300, 0x7F, 256, 0, 2},
    {"at once: a header that leaves nothing", 1, 104, 0, 100, 0, 128, 0, 2},
    {"at once: a header that leaves nothing, and no body", 1, 104, 0, 0, 0, 128, 0, 1},
    {"at once: chunks at 4,096", 1, 4072, 0, 3 * 4072, 0, 4096, 0, 4},
    {"at once: the longest header and chunks", 1, 4096, 0, 12264 + 3 * 16360, 0, UINT32_MAX, 0, 4},
    {"at once: one byte more than they hold", 1, 4096, 0, 12264 + 3 * 16360 + 1, 0, 16384, 0, 5},
    {"at once: the longest body", 1, 48, 0, 65536, 0, 16384, 0, 5},
    {"at once: a last chunk of one byte", 1, 10, 0, 94 + 104 + 1, 0, 0, 0, 3},
    {"at once: 200 chunks", 1, 0, 0, 200 * 104, 0, 128, 0, 200},
    {"at once: 16,383 chunks", 1, 0, 0, MOST_CHUNKS * 104, 0, 128, 0, MOST_CHUNKS},
    {"at once: one byte more", 1, 0, 0, MOST_CHUNKS * 104 + 1, 0, 128, 5, 0},
    {"at once: one byte more, above 7F", 1, 0, 0, MOST_CHUNKS * 104 + 1, 0x80, 128, 1, 0},
    {"at once: id above 7F", 0x80, 2, 0, 10, 0, 256, 1, 0},
    {"at once: id above 7F, asked first", 0xFF, 16384, 0, 10, 0, 256, 1, 0},
    {"at once: header byte above 7F", 1, 2, 0x80, 10, 0, 256, 1, 0},
    {"at once: header byte, asked before its length", 1, 16384, 0xFF, 10, 0, 256, 1, 0},
    {"at once: body byte above 7F", 1, 2, 0, 10, 0x80, 256, 1, 0},
    {"at once: body byte, behind the first chunk", 1, 48, 0, 1000, 0xFF, 256, 1, 0},
    {"at once: body byte, asked before the header's length", 1, 16384, 0, 10, 0xFF, 256, 1, 0},
    {"at once: body byte, asked before the budget", 1, 105, 0, 10, 0xFF, 128, 1, 0},
    {"at once: a header of 4,097, which would fit", 1, 4097, 0, 10, 0, 16384, 4, 0},
    {"at once: a header of 16,384", 1, 16384, 0, 10, 0, 4096, 4, 0},
    {"at once: a header one too long", 1, 105, 0, 100, 0, 128, 4, 0},
};

static void test_split_case(struct lending *l, const struct split_case *c)
{
    l->request_id = c->request_id;
    l->max_sysex = c->max_sysex;
    fill_letters(&l->header, c->header_len, c->header_last);
    fill_letters(&l->body, c->body_len, c->body_last);
    midici_pe_answer count = midici_pe_chunk_count(GIVEN(l));
    check(count.refusal == c->refusal && count.count == c->chunks, "the count", c->name);
    if (c->refusal == 0) {
        test_split(l, c->name);
    } else {
        test_rooms(l, 4096, 64, c->refusal, c->name);
        test_rooms(l, 0, 0, c->refusal, c->name);
    }
}

/* ---- Random lists ---- */

/* Letters, and in one of eight a byte above 7F somewhere. */
static void choose_letters(uint64_t *seed, struct lent *lent, size_t len)
{
    fill_letters(lent, len, 0);
    if (len > 0 && any_below(seed, 8) == 0)
        lent->at[any_below(seed, len)] = (uint8_t)(0x80 + any_below(seed, 128));
}

/* The count and each chunk, also those that are not there, are the model's. */
static void check_chunks(struct lending *l, const char *of)
{
    midici_pe_answer count = midici_pe_chunk_count(GIVEN(l)), model = model_chunk_count(MODEL(l));
    check(count.refusal == model.refusal && count.value == 0 && count.count == model.count, "the count", of);
    for (uint16_t k = 0; k <= count.count + 1; k++) {
        lent_keep(&l->chunk);
        midici_pe_answer answer = midici_pe_split_chunk(GIVEN(l), k, l->chunk.at, l->chunk.len);
        model = model_split_chunk(MODEL(l), k, &l->chunk);
        check(answer.refusal == model.refusal && answer.value == 0 && answer.count == model.count, "the chunk", of);
        check(lent_same_from(&l->chunk, 0), "the chunk is the model's", of);
    }
}

/* Feeds the chunks of the output in any order: the last one makes the list whole. */
static void check_arrives(struct lending *l, struct table *table, uint64_t *seed, const char *of)
{
    size_t count = (size_t)midici_pe_chunk_count(GIVEN(l)).count, numbers[LISTED_CHUNKS];
    midici_pe_fed fed = {.whole = 0};
    table_new(table);
    for (size_t i = 0; i < count; i++) {
        size_t at = any_below(seed, i + 1);
        numbers[i] = numbers[at];
        numbers[at] = i + 1;
    }
    for (size_t i = 0; i < count; i++) {
        check(fed.refusal == 0 && fed.whole == 0, "waiting", of);
        fed = table_feed(table, 1, l->out.at + place_of(l, numbers[i]), lent_u16s(&l->lengths)[numbers[i] - 1], i);
    }
    check(fed.refusal == 0 && fed.whole == 1 && fed.header_len == l->header.len && fed.body_len == l->body.len,
          "the list is whole", of);
    check(l->header.len == 0 || memcmp(table->lent[OUT_HEADER].at, l->header.at, l->header.len) == 0, "its header", of);
    check(l->body.len == 0 || memcmp(table->lent[OUT_BODY].at, l->body.at, l->body.len) == 0, "its body", of);
}

/* One random list; its refusal. */
static uint8_t test_random_list(struct lending *l, const struct sizes *most, struct table *table, uint64_t *seed)
{
    const char *of = most->name;
    l->request_id = (uint8_t)any_below(seed, any_below(seed, 16) == 0 ? 256 : 128);
    l->max_sysex = (uint32_t)any_below(seed, most->max_sysex + 1);
    choose_letters(seed, &l->header, any_below(seed, most->header_len + 1));
    choose_letters(seed, &l->body, any_below(seed, most->body_len + 1));
    check_chunks(l, of);
    midici_pe_answer count = model_chunk_count(MODEL(l));
    size_t bytes = l->header.len + l->body.len + 9 * (size_t)count.count, chunks = (size_t)count.count;
    if (count.refusal == 0) {
        test_rooms(l, any_below(seed, bytes), chunks + any_below(seed, EXTRA), 3, of);
        test_rooms(l, bytes + any_below(seed, EXTRA), any_below(seed, chunks), 3, of);
    }
    if (test_rooms(l, bytes + any_below(seed, EXTRA), chunks + any_below(seed, EXTRA), count.refusal, of))
        check_arrives(l, table, seed, of);
    return count.refusal;
}

static void test_random_lists(struct lending *l, const struct sizes *most, uint64_t *seed)
{
    unsigned long answered[256] = {0};
    struct table table;
    size_t header_bytes = most->header_len < MIDICI_PE_HEADER_BYTES ? most->header_len : MIDICI_PE_HEADER_BYTES;
    table_make(&table, (midici_pe_shape){1, header_bytes, most->body_len, LISTED_CHUNKS}, 0);
    for (int i = 0; i < most->lists; i++)
        answered[test_random_list(l, most, &table, seed)]++;
    check(answered[0] > 0 && answered[1] > 0 && answered[4] > 0, "some are cut, some refused", most->name);
    printf("%d %s: %lu cut and whole again, %lu refused for a byte above 7F, %lu for their header's length\n", most->lists,
           most->name, answered[0], answered[1], answered[4]);
    table_free(&table);
}

/* ---- Random messages ---- */

/* The numbers of a chunk: mostly small ones, so that the number is often above the count. */
static uint16_t any_number(uint64_t *seed)
{
    return (uint16_t)(any_below(seed, 32) == 0 ? any_below(seed, 65536) : any_below(seed, 6));
}

/* The same message, written here without any question and read: what the writer refuses with 1 or 8 the reader refuses
 * with the same number, and what it writes can be read (number 0 is then refused by the list). */
static void check_read(struct lending *l, struct table *table, uint8_t request_id, uint16_t num_chunks, uint16_t chunk_num,
                       const midici_pe_answer *written)
{
    struct bytes chunk = {.len = 0}, message;
    add_byte(&chunk, request_id);
    add_u14(&chunk, (unsigned)l->header.len);
    add_bytes(&chunk, l->header.at, l->header.len);
    add_u14(&chunk, num_chunks);
    add_u14(&chunk, chunk_num);
    add_u14(&chunk, (unsigned)l->body.len);
    add_bytes(&chunk, l->body.at, l->body.len);
    message = message_of(0x35, 1, 2, &chunk);
    table_new(table);
    table_keep(table);
    midici_pe_fed fed = table_feed_message(table, message.at, message.len, 0);
    if (written->refusal != 0)
        check(fed.refusal == written->refusal && table_same(table), "what is not written is not read", "random messages");
    else
        check(fed.refusal == (chunk_num == 0 ? 8 : 0), "what is written is read", "random messages");
}

/* One random message; its refusal. */
static uint8_t test_random_message(struct lending *l, struct table *table, uint64_t *seed)
{
    const char *of = "random messages";
    struct lent *out = &l->chunk, *header = &l->header, *property = &l->body;
    uint8_t sub_id2 = (uint8_t)(0x34 + any_below(seed, 7)), request_id = (uint8_t)any_below(seed, 132);
    uint16_t num_chunks = any_number(seed), chunk_num = any_below(seed, 2) == 0 ? 1 : any_number(seed);
    choose_letters(seed, header, any_below(seed, 4));
    choose_letters(seed, property, any_below(seed, 12));
    size_t len = 22 + header->len + property->len;
    lent_resize(out, any_below(seed, 4) == 0 ? any_below(seed, len) : len + any_below(seed, EXTRA));
    lent_fill(out);
    lent_keep(out);
    midici_pe_answer answer = midici_pe_encode_message(sub_id2, 1, 2, request_id, header->at, header->len, num_chunks,
                                                       chunk_num, property->at, property->len, out->at, out->len);
    midici_pe_answer model = model_encode_message(sub_id2, 1, 2, request_id, header, num_chunks, chunk_num, property, out);
    check(answer.refusal == model.refusal && answer.value == model.value && answer.count == model.count, "the answer", of);
    check(lent_same_from(out, 0) && lent_guarded(out), "the message is the model's", of);
    if ((answer.refusal == 0 || answer.refusal == 1 || answer.refusal == 8) && num_chunks < 16384 && chunk_num < 16384)
        check_read(l, table, request_id, num_chunks, chunk_num, &answer);
    return answer.refusal;
}

static void test_random_messages(struct lending *l, uint64_t *seed)
{
    unsigned long answered[256] = {0};
    struct table table;
    table_make(&table, (midici_pe_shape){1, 8, 16, 1}, 0);
    for (int i = 0; i < MESSAGES; i++)
        answered[test_random_message(l, &table, seed)]++;
    check(answered[0] > 0 && answered[1] > 0 && answered[3] > 0 && answered[8] > 0 && answered[24] > 0,
          "some are written, some refused", "random messages");
    printf("%d random messages: %lu written and read, refused with 1: %lu, with 8: %lu, with 3: %lu\n", MESSAGES,
           answered[0], answered[1], answered[8], answered[3]);
    table_free(&table);
}

void test_splitting(uint64_t seed)
{
    struct lending lending;
    lent_make(&lending.header, MOST_HEADER);
    lent_make(&lending.body, MOST_BODY);
    lent_make(&lending.out, MOST_CHUNKS * 113 + EXTRA);
    lent_make(&lending.lengths, 2 * (MOST_CHUNKS + EXTRA));
    lent_make(&lending.chunk, MIDICI_PE_CHUNK_LEN);
    for (size_t i = 0; i < sizeof split_cases / sizeof split_cases[0]; i++)
        test_split_case(&lending, &split_cases[i]);
    for (size_t i = 0; i < sizeof sizes / sizeof sizes[0]; i++)
        test_random_lists(&lending, &sizes[i], &seed);
    test_random_messages(&lending, &seed);
    lent_free(&lending.header);
    lent_free(&lending.body);
    lent_free(&lending.out);
    lent_free(&lending.lengths);
    lent_free(&lending.chunk);
}
