/* What the cutter and the writer of messages should answer and write. */
#include "table.h"

#include <string.h>

static midici_pe_answer answer(uint8_t refusal, uint8_t value, uint64_t count)
{
    return (midici_pe_answer){.refusal = refusal, .value = value, .count = count};
}

static bool is_seven_bit(const struct lent *bytes)
{
    for (size_t i = 0; i < bytes->len; i++)
        if (bytes->at[i] > 0x7F)
            return false;
    return true;
}

static uint32_t budget_of(uint32_t max_sysex)
{
    uint32_t limit = max_sysex < 128 ? 128 : max_sysex > 16384 ? 16384 : max_sysex;
    return limit - 15;
}

midici_pe_answer model_chunk_count(uint8_t request_id, const struct lent *header, const struct lent *body,
                                   uint32_t max_sysex)
{
    if (request_id > 0x7F || !is_seven_bit(header) || !is_seven_bit(body))
        return answer(1, 0, 0);
    if (header->len > 4096 || header->len + 9 > budget_of(max_sysex))
        return answer(4, 0, 0);
    size_t later = budget_of(max_sysex) - 9, first = later - header->len;
    size_t count = body->len <= first ? 1 : 1 + (body->len - first + later - 1) / later;
    return count > 16383 ? answer(5, 0, 0) : answer(0, 0, count);
}

static uint8_t *put(uint8_t *to, const void *from, size_t len)
{
    if (len > 0)
        memcpy(to, from, len);
    return to + len;
}

static uint8_t *put_u14(uint8_t *to, size_t number)
{
    to[0] = (uint8_t)(number % 128);
    to[1] = (uint8_t)(number / 128);
    return to + 2;
}

/* Writes a chunk, and tells where it ends; header and property are `len` bytes each. */
static uint8_t *put_chunk(uint8_t *to, uint8_t request_id, const uint8_t *header, size_t header_len, size_t num_chunks,
                          size_t chunk_num, const uint8_t *property, size_t property_len)
{
    to = put(to, &request_id, 1);
    to = put_u14(to, header_len);
    to = put(to, header, header_len);
    to = put_u14(to, num_chunks);
    to = put_u14(to, chunk_num);
    to = put_u14(to, property_len);
    return put(to, property, property_len);
}

/* What chunk `chunk_num` has of a list: all of the header or nothing, and a part of the body. */
struct piece {
    size_t header_len, from, len;
};

static struct piece piece_of(const struct lent *header, const struct lent *body, uint32_t max_sysex, size_t chunk_num)
{
    size_t later = budget_of(max_sysex) - 9, first = later - header->len;
    size_t from = chunk_num == 1 ? 0 : first + (chunk_num - 2) * later;
    size_t most = chunk_num == 1 ? first : later, rest = body->len - from;
    return (struct piece){chunk_num == 1 ? header->len : 0, from, rest < most ? rest : most};
}

static uint8_t *put_piece(uint8_t *to, uint8_t request_id, const struct lent *header, const struct lent *body,
                          struct piece piece, size_t num_chunks, size_t chunk_num)
{
    return put_chunk(to, request_id, header->at, piece.header_len, num_chunks, chunk_num,
                     piece.len > 0 ? body->at + piece.from : NULL, piece.len);
}

midici_pe_answer model_split_chunk(uint8_t request_id, const struct lent *header, const struct lent *body,
                                   uint32_t max_sysex, uint16_t chunk_num, struct lent *out)
{
    midici_pe_answer count = model_chunk_count(request_id, header, body, max_sysex);
    if (count.refusal != 0)
        return count;
    if (chunk_num < 1 || chunk_num > count.count)
        return answer(29, 0, 0);
    struct piece piece = piece_of(header, body, max_sysex, chunk_num);
    size_t len = 9 + piece.header_len + piece.len;
    if (out->len < len)
        return answer(3, 0, 0);
    put_piece(out->kept, request_id, header, body, piece, count.count, chunk_num);
    return answer(0, 0, len);
}

midici_pe_cut model_split(uint8_t request_id, const struct lent *header, const struct lent *body, uint32_t max_sysex,
                          struct lent *out, struct lent *lengths)
{
    midici_pe_answer count = model_chunk_count(request_id, header, body, max_sysex);
    if (count.refusal != 0)
        return (midici_pe_cut){.refusal = count.refusal};
    size_t bytes = 0;
    for (size_t k = 1; k <= count.count; k++) {
        struct piece piece = piece_of(header, body, max_sysex, k);
        bytes += 9 + piece.header_len + piece.len;
    }
    if (out->len < bytes || lengths->len / 2 < count.count)
        return (midici_pe_cut){.refusal = 3};
    uint8_t *to = out->kept;
    for (size_t k = 1; k <= count.count; k++) {
        uint8_t *end = put_piece(to, request_id, header, body, piece_of(header, body, max_sysex, k), count.count, k);
        ((uint16_t *)(void *)lengths->kept)[k - 1] = (uint16_t)(end - to);
        to = end;
    }
    return (midici_pe_cut){.chunks = count.count, .bytes = bytes};
}

midici_pe_answer model_encode_message(uint8_t sub_id2, uint32_t source, uint32_t dest, uint8_t request_id,
                                      const struct lent *header, uint16_t num_chunks, uint16_t chunk_num,
                                      const struct lent *property, struct lent *out)
{
    if (source > MIDICI_PE_MUID_MAX || dest > MIDICI_PE_MUID_MAX)
        return answer(28, 0, 0);
    if (!(sub_id2 >= 0x34 && sub_id2 <= 0x39) && sub_id2 != 0x3F)
        return answer(24, sub_id2, 0);
    if (request_id > 0x7F || header->len > 16383 || property->len > 16383 || num_chunks > 16383 || chunk_num > 16383 ||
        !is_seven_bit(header) || !is_seven_bit(property))
        return answer(1, 0, 0);
    if ((chunk_num != 1 && header->len > 0) || (num_chunks != 0 && chunk_num > num_chunks))
        return answer(8, 0, 0);
    if (out->len < 22 + header->len + property->len)
        return answer(3, 0, 0);
    const uint8_t start[5] = {0x7E, 0x7F, 0x0D, sub_id2, 2};
    uint8_t *to = put(out->kept, start, sizeof start);
    to = put_u14(put_u14(to, source % 16384), source / 16384);
    to = put_u14(put_u14(to, dest % 16384), dest / 16384);
    put_chunk(to, request_id, header->at, header->len, num_chunks, chunk_num, property->at, property->len);
    return answer(0, 0, 22 + header->len + property->len);
}
