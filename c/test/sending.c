/* Tests of what a sender calls: the request counter, the cutter, the writer of messages. */
#include "check.h"

#include <stdlib.h>
#include <string.h>

enum { MOST = 32768, LARGEST_BODY = 16383 * 104 + 1 };

static bool counted(midici_pe_answer answer, uint64_t count)
{
    return answer.refusal == 0 && answer.value == 0 && answer.count == count;
}

static bool refused(midici_pe_answer answer, uint8_t refusal, uint8_t value)
{
    return answer.refusal == refusal && answer.value == value && answer.count == 0;
}

static void test_request_ids(void)
{
    for (unsigned counter = 0; counter < 256; counter++) {
        midici_pe_request_id allocated = midici_pe_alloc_out_request_id((uint8_t)counter);
        unsigned next = (counter + 1) % 128;
        check(allocated.request_id == counter, "the id is the counter", "request ids");
        check(allocated.counter == (next == 0 ? 1 : next), "the counter steps", "request ids");
        uint8_t refusal = midici_pe_chunk_count(allocated.request_id, NULL, 0, NULL, 0, 256).refusal;
        check(refusal == (counter < 128 ? 0 : 1), "an id above 7F is refused by the cutter", "request ids");
    }
    check(midici_pe_alloc_out_request_id(200).counter == 73, "200 gives 73", "request ids");
}

/* A list to cut: the refusal, or the count and the first and the last chunk's share of the body. */
static const struct cut_case {
    const char *name;
    uint8_t request_id;
    size_t header_len;
    uint8_t header_last;
    size_t body_len;
    uint8_t body_last;
    uint32_t max_sysex;
    uint8_t refusal;
    uint64_t count;
    size_t first, last;
} cut_cases[] = {
    {"a scene list", 5, 48, 0, 1000, 0, 256, 0, 5, 184, 120},
    {"nothing at all", 0, 0, 0, 0, 0, 256, 0, 1, 0, 0},
    {"only a header", 127, 2, 0, 0, 0, 256, 0, 1, 0, 0},
    {"only a body", 1, 0, 0, 300, 0, 256, 0, 2, 232, 68},
    {"limit 0 is 128", 1, 0, 0, 208, 0, 0, 0, 2, 104, 104},
    {"limit 127 is 128", 1, 0, 0, 209, 0, 127, 0, 3, 104, 1},
    {"limit 128", 1, 0, 0, 208, 0, 128, 0, 2, 104, 104},
    {"limit 4096", 1, 0, 0, 4073, 0, 4096, 0, 2, 4072, 1},
    {"limit 4097", 1, 0, 0, 4074, 0, 4097, 0, 2, 4073, 1},
    {"limit 5000", 1, 0, 0, 4977, 0, 5000, 0, 2, 4976, 1},
    {"limit 16384", 1, 0, 0, 16361, 0, 16384, 0, 2, 16360, 1},
    {"limit 16385 is 16384", 1, 0, 0, 16361, 0, 16385, 0, 2, 16360, 1},
    {"the largest limit is 16384", 1, 0, 0, 16360, 0, UINT32_MAX, 0, 1, 16360, 16360},
    {"the longest body at the largest limit", 5, 48, 0, 65536, 0, 16384, 0, 5, 16312, 144},
    {"a header that leaves nothing", 1, 104, 0, 100, 0, 128, 0, 2, 0, 100},
    {"a header one too long", 1, 105, 0, 100, 0, 128, 4, 0, 0, 0},
    {"the longest header at 4096", 1, 4072, 0, 1, 0, 4096, 0, 2, 0, 1},
    {"one longer", 1, 4073, 0, 1, 0, 4096, 4, 0, 0, 0},
    {"the longest header, which leaves nothing", 1, 4096, 0, 1, 0, 4120, 0, 2, 0, 1},
    {"the longest header, at one byte less", 1, 4096, 0, 1, 0, 4119, 4, 0, 0, 0},
    {"the longest header at the largest limit", 1, 4096, 0, 12265, 0, 16384, 0, 2, 12264, 1},
    {"a header of 4,097, which would fit", 1, 4097, 0, 0, 0, 16384, 4, 0, 0, 0},
    {"a header of 16,360, which would fit", 1, 16360, 0, 0, 0, 16384, 4, 0, 0, 0},
    {"a header of 16,384", 1, 16384, 0, 0, 0, 4096, 4, 0, 0, 0},
    {"id above 7F", 0x80, 2, 0, 10, 0, 256, 1, 0, 0, 0},
    {"id above 7F, asked first", 0xFF, 16384, 0x80, 10, 0, 256, 1, 0, 0, 0},
    {"header byte above 7F", 1, 2, 0x80, 10, 0, 256, 1, 0, 0, 0},
    {"header byte above 7F, asked before its length", 1, 16384, 0xFF, 10, 0, 256, 1, 0, 0, 0},
    {"bytes of 7F", 0x7F, 2, 0x7F, 300, 0x7F, 256, 0, 2, 230, 70},
    {"body byte above 7F", 1, 2, 0, 10, 0x80, 256, 1, 0, 0, 0},
    {"the only body byte above 7F", 1, 0, 0, 1, 0xFF, 256, 1, 0, 0, 0},
    {"body byte above 7F, behind the first chunk", 1, 48, 0, 1000, 0xFF, 256, 1, 0, 0, 0},
    {"body byte above 7F, asked before the header's length", 1, 16384, 0, 10, 0x80, 256, 1, 0, 0, 0},
    {"body byte above 7F, asked before the budget", 1, 105, 0, 100, 0xFF, 128, 1, 0, 0, 0},
    {"16,383 chunks", 1, 0, 0, 16383 * 104, 0, 128, 0, 16383, 104, 104},
    {"one byte more", 1, 0, 0, 16383 * 104 + 1, 0, 128, 5, 0, 0, 0},
    {"one byte more, above 7F", 1, 0, 0, 16383 * 104 + 1, 0x80, 128, 1, 0, 0, 0},
};

/* Chunk `chunk_num` of a case, held against one that is written here. `out` is first too short by one. */
static void test_chunk(const struct cut_case *c, const struct lent *header, const struct lent *body, struct lent *out,
                       uint16_t chunk_num, size_t from, size_t len)
{
    struct bytes wanted = {.len = 0};
    size_t header_len = chunk_num == 1 ? header->len : 0;
    add_byte(&wanted, c->request_id);
    add_u14(&wanted, (unsigned)header_len);
    add_bytes(&wanted, header->at, header_len);
    add_u14(&wanted, (unsigned)c->count);
    add_u14(&wanted, chunk_num);
    add_u14(&wanted, (unsigned)len);
    add_bytes(&wanted, len > 0 ? body->at + from : NULL, len);
    for (size_t extra = 0; extra < 3; extra++) {
        lent_resize(out, wanted.len + extra - 1);
        lent_fill(out);
        lent_keep(out);
        midici_pe_answer answer = midici_pe_split_chunk(c->request_id, header->at, header->len, body->at, body->len,
                                                        c->max_sysex, chunk_num, out->at, out->len);
        if (extra == 0) {
            check(refused(answer, 3, 0), "a short output is refused with 3", c->name);
            check(lent_same_from(out, 0), "a refusal leaves the output", c->name);
        } else {
            check(counted(answer, wanted.len), "the chunk's length", c->name);
            check(memcmp(out->at, wanted.at, wanted.len) == 0, "the chunk's bytes", c->name);
            check(lent_same_from(out, wanted.len), "bytes past the chunk stay", c->name);
        }
        check(lent_guarded(out), "nothing is written before the output", c->name);
    }
}

/* A chunk that is refused, with an output that is long enough. */
static void test_no_chunk(const struct cut_case *c, const struct lent *header, const struct lent *body, struct lent *out,
                          uint16_t chunk_num, uint8_t refusal)
{
    lent_resize(out, MIDICI_PE_CHUNK_LEN);
    lent_keep(out);
    midici_pe_answer answer = midici_pe_split_chunk(c->request_id, header->at, header->len, body->at, body->len,
                                                    c->max_sysex, chunk_num, out->at, out->len);
    check(refused(answer, refusal, 0), "the chunk is refused", c->name);
    check(lent_same_from(out, 0) && lent_guarded(out), "a refusal leaves the output", c->name);
    answer = midici_pe_split_chunk(c->request_id, header->at, header->len, body->at, body->len, c->max_sysex, chunk_num,
                                   NULL, 0);
    check(refused(answer, refusal, 0), "the chunk is refused, and the output not looked at", c->name);
}

static void test_cut(const struct cut_case *c, struct lent *header, struct lent *body, struct lent *out)
{
    fill_letters(header, c->header_len, c->header_last);
    fill_letters(body, c->body_len, c->body_last);
    lent_keep(header);
    lent_keep(body);
    midici_pe_answer answer =
        midici_pe_chunk_count(c->request_id, header->at, header->len, body->at, body->len, c->max_sysex);
    if (c->refusal != 0) {
        check(refused(answer, c->refusal, 0), "the count is refused", c->name);
        test_no_chunk(c, header, body, out, 1, c->refusal);
        test_no_chunk(c, header, body, out, 0, c->refusal);
    } else {
        check(counted(answer, c->count), "the count", c->name);
        test_chunk(c, header, body, out, 1, 0, c->first);
        if (c->count > 1)
            test_chunk(c, header, body, out, (uint16_t)c->count, c->body_len - c->last, c->last);
        test_no_chunk(c, header, body, out, 0, 29);
        test_no_chunk(c, header, body, out, (uint16_t)(c->count + 1), 29);
        test_no_chunk(c, header, body, out, UINT16_MAX, 29);
    }
    check(lent_same_from(header, 0) && lent_same_from(body, 0), "header and body stay", c->name);
}

/* One body byte above 7F, wherever it stands: neither the count nor any chunk is told. */
static void test_body_bytes(struct lent *header, struct lent *body, struct lent *out)
{
    const size_t places[] = {0, 1, 183, 184, 415, 416, 500, 879, 880, 999};
    struct cut_case c = {.name = "a body byte above 7F, for each chunk", .request_id = 5, .max_sysex = 256};
    fill_letters(header, 48, 0);
    for (size_t i = 0; i < 2 * sizeof places / sizeof places[0]; i++) {
        fill_letters(body, 1000, 0);
        body->at[places[i / 2]] = i % 2 == 0 ? 0x80 : 0xFF;
        midici_pe_answer answer = midici_pe_chunk_count(5, header->at, header->len, body->at, body->len, 256);
        check(refused(answer, 1, 0), "the count is refused", c.name);
        for (uint16_t k = 0; k <= 6; k++)
            test_no_chunk(&c, header, body, out, k, 1);
    }
}

/* All five chunks of the scene list, with the shares that the requirement names. */
static void test_scene_list(struct lent *header, struct lent *body, struct lent *out)
{
    const size_t shares[5] = {184, 232, 232, 232, 120};
    size_t from = 0;
    fill_letters(header, 48, 0);
    fill_letters(body, 1000, 0);
    for (uint16_t i = 0; i < 5; i++) {
        test_chunk(&cut_cases[0], header, body, out, (uint16_t)(i + 1), from, shares[i]);
        from += shares[i];
    }
}

/* A message to write, and its refusal. `out` is as long as is needed, less `short_by`. */
static const struct message_case {
    const char *name;
    uint8_t sub_id2;
    uint32_t source, dest;
    uint8_t request_id;
    size_t header_len;
    uint8_t header_last;
    uint16_t num_chunks, chunk_num;
    size_t property_len;
    uint8_t property_last;
    size_t short_by;
    uint8_t refusal, value;
} message_cases[] = {
    {"a message", 0x34, 1, 2, 5, 2, 0, 1, 1, 3, 0, 0, 0, 0},
    {"largest numbers", 0x3F, 0x0FFFFFFF, 0x0FFFFFFF, 0x7F, 0, 0, 16383, 16383, 100, 0, 0, 0, 0},
    {"count and number 0", 0x39, 0, 0, 0, 0, 0, 0, 0, 0, 0, 0, 0, 0},
    {"longest header", 0x35, 1, 2, 5, 4000, 0, 1, 1, 0, 0, 0, 0, 0},
    {"longest property", 0x35, 1, 2, 5, 0, 0, 2, 2, 4000, 0x7F, 0, 0, 0},
    {"no count yet, and the largest number", 0x35, 1, 2, 5, 0, 0, 0, 16383, 3, 0, 0, 0, 0},
    {"number 0 of 2", 0x35, 1, 2, 5, 0, 0, 2, 0, 3, 0, 0, 0, 0},
    {"source above 28 bits", 0x34, 0x10000000, 2, 5, 2, 0, 1, 1, 3, 0, 0, 28, 0},
    {"destination above 28 bits", 0x34, 1, 0x10000000, 5, 2, 0, 1, 1, 3, 0, 0, 28, 0},
    {"28 is asked before 24", 0x30, UINT32_MAX, 2, 0x80, 2, 0, 1, 1, 3, 0, 22, 28, 0},
    {"24 is asked before 1", 0x30, 1, 2, 0x80, 2, 0, 1, 1, 3, 0, 22, 24, 0x30},
    {"id above 7F", 0x34, 1, 2, 0x80, 2, 0, 1, 1, 3, 0, 0, 1, 0},
    {"header of 16,384", 0x34, 1, 2, 5, 16384, 0, 1, 1, 3, 0, 0, 1, 0},
    {"property of 16,384", 0x34, 1, 2, 5, 2, 0, 1, 1, 16384, 0, 0, 1, 0},
    {"count of 16,384", 0x34, 1, 2, 5, 2, 0, 16384, 1, 3, 0, 0, 1, 0},
    {"number of 16,384", 0x34, 1, 2, 5, 0, 0, 1, 16384, 3, 0, 0, 1, 0},
    {"header byte above 7F", 0x34, 1, 2, 5, 2, 0x80, 1, 1, 3, 0, 0, 1, 0},
    {"header byte, asked before the number", 0x34, 1, 2, 5, 2, 0x80, 2, 2, 3, 0, 0, 1, 0},
    {"property byte above 7F", 0x34, 1, 2, 5, 2, 0, 1, 1, 3, 0x80, 0, 1, 0},
    {"property byte, asked before the header with number 2", 0x34, 1, 2, 5, 2, 0, 2, 2, 3, 0xFF, 0, 1, 0},
    {"property byte, asked before the number above the count", 0x34, 1, 2, 5, 0, 0, 1, 2, 3, 0x80, 0, 1, 0},
    {"property byte, asked before the output", 0x34, 1, 2, 5, 2, 0, 1, 1, 1, 0xFF, 22, 1, 0},
    {"header with number 2", 0x34, 1, 2, 5, 2, 0, 2, 2, 3, 0, 0, 8, 0},
    {"header with number 0, asked before the output", 0x34, 1, 2, 5, 2, 0, 2, 0, 3, 0, 22, 8, 0},
    {"number 5 of 2", 0x34, 1, 2, 5, 0, 0, 2, 5, 3, 0, 0, 8, 0},
    {"number 2 of 1, with a header", 0x34, 1, 2, 5, 2, 0, 1, 2, 3, 0, 0, 8, 0},
    {"number 16,383 of 16,382", 0x34, 1, 2, 5, 0, 0, 16382, 16383, 3, 0, 0, 8, 0},
    {"number above the count, asked before the output", 0x34, 1, 2, 5, 0, 0, 2, 3, 3, 0, 1, 8, 0},
    {"number above the count, asked after its range", 0x34, 1, 2, 5, 0, 0, 2, 16384, 3, 0, 0, 1, 0},
    {"output one too short", 0x34, 1, 2, 5, 2, 0, 1, 1, 3, 0, 1, 3, 0},
    {"no output", 0x34, 1, 2, 5, 2, 0, 1, 1, 3, 0, 27, 3, 0},
};

static void test_message(const struct message_case *c, struct lent *header, struct lent *property, struct lent *out)
{
    fill_letters(header, c->header_len, c->header_last);
    fill_letters(property, c->property_len, c->property_last);
    size_t len = 22 + c->header_len + c->property_len;
    lent_resize(out, len - c->short_by + (c->short_by == 0 ? 2 : 0));
    lent_fill(out);
    lent_keep(out);
    midici_pe_answer answer =
        midici_pe_encode_message(c->sub_id2, c->source, c->dest, c->request_id, header->at, header->len, c->num_chunks,
                                 c->chunk_num, property->at, property->len, out->at, out->len);
    check(lent_guarded(out), "nothing is written before the output", c->name);
    if (c->refusal != 0) {
        check(refused(answer, c->refusal, c->value), "the message is refused", c->name);
        check(lent_same_from(out, 0), "a refusal leaves the output", c->name);
        return;
    }
    struct bytes chunk = {.len = 0}, wanted;
    add_byte(&chunk, c->request_id);
    add_u14(&chunk, (unsigned)c->header_len);
    add_bytes(&chunk, header->at, header->len);
    add_u14(&chunk, c->num_chunks);
    add_u14(&chunk, c->chunk_num);
    add_u14(&chunk, (unsigned)c->property_len);
    add_bytes(&chunk, property->at, property->len);
    wanted = message_of(c->sub_id2, c->source, c->dest, &chunk);
    check(counted(answer, len) && len == wanted.len, "the message's length", c->name);
    check(memcmp(out->at, wanted.at, wanted.len) == 0, "the message's bytes", c->name);
    check(lent_same_from(out, len), "bytes past the message stay", c->name);
}

/* Header and property of 16,383 bytes each are the most that is taken. */
static void test_largest_message(struct lent *header, struct lent *property, struct lent *out)
{
    fill_letters(header, 16383, 0);
    fill_letters(property, 16383, 0);
    lent_resize(out, 22 + 2 * 16383);
    midici_pe_answer answer = midici_pe_encode_message(0x34, 1, 2, 5, header->at, header->len, 1, 1, property->at,
                                                       property->len, out->at, out->len);
    check(counted(answer, out->len), "the largest message", "messages");
    check(memcmp(out->at + 16, header->at, 16383) == 0, "its header", "messages");
    check(memcmp(out->at + 22 + 16383, property->at, 16383) == 0, "its property", "messages");
    check(lent_guarded(out), "nothing is written before the output", "messages");
}

static bool carries_chunk(unsigned sub_id2) { return (sub_id2 >= 0x34 && sub_id2 <= 0x39) || sub_id2 == 0x3F; }

static void test_kinds(struct lent *out)
{
    lent_resize(out, 22);
    for (unsigned kind = 0; kind < 256; kind++) {
        lent_fill(out);
        lent_keep(out);
        midici_pe_answer answer = midici_pe_encode_message((uint8_t)kind, 1, 2, 5, NULL, 0, 1, 1, NULL, 0, out->at, 22);
        if (carries_chunk(kind)) {
            check(counted(answer, 22) && out->at[3] == kind, "the kind is written", "kinds");
        } else {
            check(refused(answer, 24, (uint8_t)kind), "24, with the kind", "kinds");
            check(lent_same_from(out, 0), "a refusal leaves the output", "kinds");
        }
    }
}

void test_sending(void)
{
    struct lent header, body, out;
    lent_make(&header, MOST);
    lent_make(&body, LARGEST_BODY);
    lent_make(&out, 2 * MOST);
    test_request_ids();
    for (size_t i = 0; i < sizeof cut_cases / sizeof cut_cases[0]; i++)
        test_cut(&cut_cases[i], &header, &body, &out);
    test_scene_list(&header, &body, &out);
    test_body_bytes(&header, &body, &out);
    for (size_t i = 0; i < sizeof message_cases / sizeof message_cases[0]; i++)
        test_message(&message_cases[i], &header, &body, &out);
    test_largest_message(&header, &body, &out);
    test_kinds(&out);
    lent_free(&header);
    lent_free(&body);
    lent_free(&out);
}
