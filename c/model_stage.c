/* What the calls on a stage should answer and leave: document 02, K8. */
#include "layout.h"
#include "stage.h"

#include <string.h>

enum { PLACES = 16 };

/* ---- The kept copies ---- */

static uint64_t *words_of(const struct stage *stage) { return (uint64_t *)(void *)stage->lent[STAGE].kept; }

static uint64_t *place_of(const struct stage *stage, size_t p) { return words_of(stage) + place_at(p); }

static bool is_long_enough(const struct stage *stage) { return stage->lent[STAGE].len >= 8 * place_at(PLACES); }

static midici_pe_outgoing list_of(const uint64_t *place)
{
    return (midici_pe_outgoing){.header_at = place[LIST_HEADER_AT],
                                .header_len = place[LIST_HEADER_LEN],
                                .body_at = place[LIST_BODY_AT],
                                .body_len = place[LIST_BODY_LEN],
                                .request_id = place[LIST_REQUEST_ID],
                                .max_sysex = place[LIST_MAX_SYSEX]};
}

static void put_list(uint64_t *place, midici_pe_outgoing list)
{
    place[LIST_HEADER_AT] = list.header_at;
    place[LIST_HEADER_LEN] = list.header_len;
    place[LIST_BODY_AT] = list.body_at;
    place[LIST_BODY_LEN] = list.body_len;
    place[LIST_REQUEST_ID] = list.request_id;
    place[LIST_MAX_SYSEX] = list.max_sysex;
    place[NEXT_CHUNK] = 1;
}

/* ---- A list in the buffer ---- */

/* A list as the cutter takes it. */
struct found {
    struct lent header, body;
    uint8_t request_id;
    uint32_t max_sysex;
};

static uint64_t at_most(uint64_t number, uint64_t most) { return number < most ? number : most; }

/* Takes a part of the buffer; whether it lies within. */
static bool take_part(const struct lent *buffer, uint64_t at, uint64_t len, struct lent *part)
{
    if (at > buffer->len || len > buffer->len - at)
        return false;
    part->at = len > 0 ? buffer->at + at : NULL;
    part->len = (size_t)len;
    return true;
}

/* A number above what the cutter's type holds is for the cutter like the largest that it holds: an id above 7F, a limit
 * above 16,384. */
static bool find_list(const struct stage *stage, midici_pe_outgoing list, struct found *found)
{
    const struct lent *buffer = &stage->lent[BUFFER];
    found->request_id = (uint8_t)at_most(list.request_id, UINT8_MAX);
    found->max_sysex = (uint32_t)at_most(list.max_sysex, UINT32_MAX);
    return take_part(buffer, list.header_at, list.header_len, &found->header) &&
           take_part(buffer, list.body_at, list.body_len, &found->body);
}

#define CUTTER(found) found.request_id, &found.header, &found.body, found.max_sysex

/* ---- The calls ---- */

midici_pe_answer model_stage_new(struct stage *stage)
{
    if (!is_long_enough(stage))
        return (midici_pe_answer){.refusal = 30};
    memset(words_of(stage), 0, 8 * place_at(PLACES));
    return (midici_pe_answer){.count = 0};
}

midici_pe_answer model_stage_join(struct stage *stage, uint64_t place, midici_pe_outgoing list)
{
    struct found found;
    if (!is_long_enough(stage))
        return (midici_pe_answer){.refusal = 30};
    if (place >= PLACES)
        return (midici_pe_answer){.refusal = 38};
    if (place_of(stage, (size_t)place)[NEXT_CHUNK] != 0)
        return (midici_pe_answer){.refusal = 39};
    if (!find_list(stage, list, &found))
        return (midici_pe_answer){.refusal = 30};
    midici_pe_answer count = model_chunk_count(CUTTER(found));
    if (count.refusal == 0)
        put_list(place_of(stage, (size_t)place), list);
    return count;
}

/* A chunk leaves from a place where somebody waits. */
static midici_pe_turn hand_out(struct stage *stage, size_t p)
{
    uint64_t *place = place_of(stage, p), chunk_num = place[NEXT_CHUNK];
    struct found found;
    if (!find_list(stage, list_of(place), &found))
        return (midici_pe_turn){.refusal = 30};
    uint64_t count = model_chunk_count(CUTTER(found)).count;
    midici_pe_answer chunk = model_split_chunk(CUTTER(found), (uint16_t)at_most(chunk_num, UINT16_MAX), &stage->lent[OUT]);
    if (chunk.refusal != 0)
        return (midici_pe_turn){.refusal = chunk.refusal};
    place[NEXT_CHUNK] = chunk_num == count ? 0 : chunk_num + 1;
    words_of(stage)[TURN] = (p + 1) % PLACES;
    return (midici_pe_turn){0, 1, (uint16_t)chunk_num, (uint16_t)count, p, chunk.count};
}

midici_pe_turn model_stage_turn(struct stage *stage)
{
    if (!is_long_enough(stage))
        return (midici_pe_turn){.refusal = 30};
    for (size_t i = 0; i < PLACES; i++) {
        size_t p = (size_t)(words_of(stage)[TURN] % PLACES + i) % PLACES;
        if (place_of(stage, p)[NEXT_CHUNK] != 0)
            return hand_out(stage, p);
    }
    return (midici_pe_turn){.handed = 0};
}

/* ---- A row for each call ---- */

static struct told told_answer(midici_pe_answer a) { return (struct told){a.refusal, a.value, {a.count}}; }

struct told told_turn(midici_pe_turn turn)
{
    return (struct told){turn.refusal, 0, {turn.handed, turn.chunk_num, turn.num_chunks, turn.place, turn.length}};
}

/* The call and its model as functions of a stage and what joins. */
#define PAIR(name, told_of, call, model)                                                                                   \
    static struct told made_##name(struct stage *s, const struct joining *j) { return (void)j, told_of(call); }            \
    static struct told wanted_##name(struct stage *s, const struct joining *j) { return (void)j, told_of(model); }

PAIR(stage_new, told_answer, stage_new(s), model_stage_new(s))
PAIR(stage_join, told_answer, stage_join(s, j->place, j->list), model_stage_join(s, j->place, j->list))
PAIR(stage_turn, told_turn, stage_turn(s), model_stage_turn(s))

#define ROW(name) #name, made_##name, wanted_##name

const struct stage_call stage_calls[STAGE_CALLS] = {
    {ROW(stage_new), 1 << STAGE},
    {ROW(stage_join), 1 << STAGE | 1 << BUFFER},
    {ROW(stage_turn), 1 << STAGE | 1 << BUFFER | 1 << OUT},
};
