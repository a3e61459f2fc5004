/* Checks that are counted, and chunks and messages written byte by byte, without the library. */
#include "check.h"

#include <stdio.h>
#include <string.h>

static unsigned long made, failed;

const struct fields FIRST = {5, "HD", 3, 1, "abc"};

void check(bool holds, const char *what, const char *of)
{
    made++;
    if (holds)
        return;
    failed++;
    printf("Failed: %s: %s\n", of, what);
}

int checks_done(void)
{
    printf("%lu checks of the exports, %lu failed\n", made, failed);
    return failed == 0 ? 0 : 1;
}

void add_byte(struct bytes *bytes, unsigned byte) { bytes->at[bytes->len++] = (uint8_t)byte; }

void add_u14(struct bytes *bytes, unsigned number)
{
    add_byte(bytes, number % 128);
    add_byte(bytes, number / 128);
}

void add_muid(struct bytes *bytes, uint32_t muid)
{
    add_u14(bytes, muid % 16384);
    add_u14(bytes, muid / 16384);
}

void add_bytes(struct bytes *bytes, const void *from, size_t len)
{
    if (len > 0)
        memcpy(bytes->at + bytes->len, from, len);
    bytes->len += len;
}

void fill_letters(struct lent *lent, size_t len, uint8_t last)
{
    lent_resize_or_null(lent, len);
    for (size_t i = 0; i < len; i++)
        lent->at[i] = (uint8_t)('A' + i % 53);
    if (last != 0 && len > 0)
        lent->at[len - 1] = last;
}

size_t any_below(uint64_t *seed, size_t below)
{
    *seed ^= *seed << 13;
    *seed ^= *seed >> 7;
    *seed ^= *seed << 17;
    return (size_t)(*seed % below);
}

struct bytes chunk_of(struct fields fields)
{
    struct bytes chunk = {.len = 0};
    size_t header_len = strlen(fields.header), property_len = strlen(fields.property);
    add_byte(&chunk, fields.request_id);
    add_u14(&chunk, (unsigned)header_len);
    add_bytes(&chunk, fields.header, header_len);
    add_u14(&chunk, fields.num_chunks);
    add_u14(&chunk, fields.chunk_num);
    add_u14(&chunk, (unsigned)property_len);
    add_bytes(&chunk, fields.property, property_len);
    return chunk;
}

struct bytes message_of(uint8_t sub_id2, uint32_t source, uint32_t dest, const struct bytes *chunk)
{
    struct bytes message = {.len = 0};
    const uint8_t start[3] = {0x7E, 0x7F, 0x0D};
    add_bytes(&message, start, sizeof start);
    add_byte(&message, sub_id2);
    add_byte(&message, 2);
    add_muid(&message, source);
    add_muid(&message, dest);
    add_bytes(&message, chunk->at, chunk->len);
    return message;
}

void make_begun(struct table *table)
{
    struct bytes first = chunk_of(FIRST), second = chunk_of((struct fields){5, "", 3, 2, "de"});
    table_make(table, (midici_pe_shape){2, 8, 32, 4}, 0);
    check(table_new(table).refusal == 0, "a table is made", "setting up");
    check(table_feed(table, 1, first.at, first.len, 1000).refusal == 0, "chunk 1", "setting up");
    check(table_feed(table, 1, second.at, second.len, 1000).refusal == 0, "chunk 2", "setting up");
}

void open_one(struct table *table, uint32_t peer, uint8_t request_id, uint64_t now_ms)
{
    struct bytes chunk = chunk_of((struct fields){request_id, "HD", 2, 1, "abc"});
    midici_pe_fed answer = table_feed(table, peer, chunk.at, chunk.len, now_ms);
    check(answer.refusal == 0 && answer.whole == 0, "a list is opened", "setting up");
}

void check_refused(const struct table *table, midici_pe_fed answer, uint8_t refusal, uint8_t value, const char *of)
{
    check(answer.refusal == refusal && answer.value == value, "the refusal", of);
    check(answer.whole == 0 && answer.header_len == 0 && answer.body_len == 0, "no list is whole", of);
    check(table_same(table), "everything stays", of);
    check(table_guarded(table), "nothing is written before a slice", of);
}

struct told check_stage_call(struct stage *stage, int call, const struct joining *joining, const char *of)
{
    stage_keep(stage);
    struct told told = stage_calls[call].made(stage, joining);
    check(told.refusal == 0 || stage_same(stage), "a refusal leaves everything", of);
    check(stage_guarded(stage), "nothing is written before a slice", of);
    check(told_same(stage_calls[call].model(stage, joining), told), "the model answers the same", of);
    check(stage_same(stage), "the model leaves the same", of);
    return told;
}

void check_stage_chunk(const struct stage *stage, midici_pe_outgoing list, uint64_t chunk_num, uint64_t len, const char *of)
{
    static uint8_t alone[MIDICI_PE_CHUNK_LEN];
    const uint8_t *buffer = stage->lent[BUFFER].at;
    uint32_t limit = list.max_sysex > UINT32_MAX ? UINT32_MAX : (uint32_t)list.max_sysex;
    midici_pe_answer cut = midici_pe_split_chunk((uint8_t)list.request_id, buffer + list.header_at, (size_t)list.header_len,
                                                 buffer + list.body_at, (size_t)list.body_len, limit, (uint16_t)chunk_num,
                                                 alone, sizeof alone);
    bool is_long = cut.refusal == 0 && cut.count == len && len <= stage->lent[OUT].len;
    check(is_long, "the chunk's length", of);
    check(is_long && memcmp(stage->lent[OUT].at, alone, (size_t)len) == 0, "the chunk's bytes", of);
}
