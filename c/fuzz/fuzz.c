/* Calls the exports on memory of any contents, as a fuzzer's bytes say, and holds every call against the model.
 *
 * The bytes decide the shape (also one out of range), the length of each lent slice (also too short), what the memory holds
 * (a table that midici_pe_new made, or anything), and which calls are made with which arguments. After each call: the
 * answer is the model's, every slice holds what the model says, nothing before a slice has changed (what is behind it
 * cannot be touched at all), a refusal has left the memory alone, and a whole list fits its outputs. So it is with a stage,
 * on which a run of calls is made. */
#include "fuzz.h"

#include <stdio.h>
#include <stdlib.h>
#include <string.h>

enum { MOST_CALLS = 48 };

int LLVMFuzzerTestOneInput(const uint8_t *data, size_t size);

static void must(bool holds, const char *what)
{
    if (holds)
        return;
    fprintf(stderr, "NOT AS IT SHOULD BE: %s\n", what);
    abort();
}

/* ---- One call, held against the model ---- */

static bool same_answer(midici_pe_answer a, midici_pe_answer b)
{
    return a.refusal == b.refusal && a.value == b.value && a.count == b.count;
}

/* After a call, before the model has worked on the kept copies. A chunk that reached its list may be refused and yet leave
 * something. */
static void check_call(struct lending *lending, const struct call *call, uint8_t refusal)
{
    bool may_change = call->bytes != NO_BYTES && (refusal == 4 || refusal == 8 || refusal == 5);
    must(table_guarded(&lending->table), "nothing before a slice is written");
    must(refusal == 0 || may_change || table_same(&lending->table), "a refusal leaves everything");
    must(refusal != 31 || !lending->is_sound, "a table that only calls have written is not damaged");
}

static void check_fed(struct lending *lending, struct told fed)
{
    struct table *table = &lending->table;
    size_t header_len = (size_t)fed.numbers[1], body_len = (size_t)fed.numbers[2];
    must(header_len <= table->shape.header_bytes && body_len <= table->shape.tx_bytes, "a whole list fits");
    must(lent_same_from(&table->lent[OUT_HEADER], header_len), "bytes past the header stay");
    must(lent_same_from(&table->lent[OUT_BODY], body_len), "bytes past the body stay");
    must(fed.refusal == 0 || (lent_same_from(&table->lent[ARENAS], 0) && lent_same_from(&table->lent[INDEX], 0)),
         "a refused chunk is not taken");
    must(lent_same_from(&lending->body, 0) && lent_guarded(&lending->body), "the chunk or the message stays");
}

/* ---- The calls ---- */

/* A chunk or a message, mostly one that can be read. */
static void choose_given(struct input *input, struct lending *lending, enum given_bytes bytes)
{
    struct lent *body = &lending->body;
    unsigned odd = take(input);
    if (odd < 32) {
        choose_bytes(input, body);
    } else if (bytes == A_CHUNK) {
        choose_chunk(input, &lending->table, body, 0);
    } else {
        choose_chunk(input, &lending->table, body, 13);
        const uint8_t header[13] = {0x7E, 0x7F, 0x0D, 0x35, 2, (uint8_t)(take(input) % 5), 0, 0, 0, 1, 2, 3, 4};
        memcpy(body->at, header, sizeof header);
        if (odd >= 224)
            put_any(input, body->at, sizeof header);
    }
}

/* One call on the table: its answer and what it leaves are the model's. */
static void call_table(struct input *input, struct lending *lending, const struct call *call)
{
    struct table *table = &lending->table;
    struct given given = {.bytes = &lending->body};
    given.peer = take_muid(input);
    given.request_id = (uint8_t)(take(input) % 6);
    given.now_ms = take_number(input);
    if (call->bytes != NO_BYTES)
        choose_given(input, lending, call->bytes);
    lent_keep(&lending->body);
    table_keep(table);
    struct told told = call->made(table, &given);
    check_call(lending, call, told.refusal);
    if (call->bytes != NO_BYTES)
        check_fed(lending, told);
    must(told_same(told, call->model(table, &given)), call->name);
    must(table_same(table), call->name);
    lending->is_sound = lending->is_sound || (call == &calls[0] && told.refusal == 0);
}

/* After a call of the cutter or the writer. */
static void check_sent(struct lending *lending, midici_pe_answer answer)
{
    must(lent_guarded(&lending->out), "nothing before the output is written");
    must(lent_same_from(&lending->out, (size_t)answer.count), "bytes past the answer stay");
    must(lent_same_from(&lending->header, 0) && lent_same_from(&lending->body, 0), "header and body stay");
}

static void call_split(struct input *input, struct lending *lending)
{
    struct lent *header = &lending->header, *body = &lending->body, *out = &lending->out, *lengths = &lending->lengths;
    choose_list(input, lending);
    uint8_t request_id = (uint8_t)(take(input) % 130);
    uint32_t max_sysex = take_limit(input);
    choose_chunk_room(input, lending, model_chunk_count(request_id, header, body, max_sysex).count);
    midici_pe_cut answer = midici_pe_split(request_id, header->at, header->len, body->at, body->len, max_sysex, out->at,
                                           out->len, lent_u16s(lengths), lengths->len / 2);
    must(lent_guarded(out) && lent_guarded(lengths), "nothing before the outputs is written");
    must(lent_same_from(out, (size_t)answer.bytes) && lent_same_from(lengths, 2 * (size_t)answer.chunks),
         "bytes and lengths past the chunks stay");
    must(lent_same_from(header, 0) && lent_same_from(body, 0), "header and body stay");
    midici_pe_cut model = model_split(request_id, header, body, max_sysex, out, lengths);
    must(answer.refusal == model.refusal && answer.chunks == model.chunks && answer.bytes == model.bytes, "split");
    must(lent_same_from(out, 0) && lent_same_from(lengths, 0), "split writes what the model says");
}

static void call_split_chunk(struct input *input, struct lending *lending)
{
    struct lent *header = &lending->header, *body = &lending->body, *out = &lending->out;
    choose_list(input, lending);
    uint8_t request_id = (uint8_t)(take(input) % 130);
    uint32_t max_sysex = take_limit(input);
    uint16_t chunk_num = (uint16_t)(take(input) < 240 ? take(input) % 9 : take_bits(input, 2));
    midici_pe_answer count = midici_pe_chunk_count(request_id, header->at, header->len, body->at, body->len, max_sysex);
    must(same_answer(count, model_chunk_count(request_id, header, body, max_sysex)), "chunk_count");
    midici_pe_answer answer = midici_pe_split_chunk(request_id, header->at, header->len, body->at, body->len, max_sysex,
                                                    chunk_num, out->at, out->len);
    check_sent(lending, answer);
    must(same_answer(answer, model_split_chunk(request_id, header, body, max_sysex, chunk_num, out)), "split_chunk");
    must(lent_same_from(out, 0), "split_chunk writes what the model says");
}

static void call_encode_message(struct input *input, struct lending *lending)
{
    struct lent *header = &lending->header, *property = &lending->body, *out = &lending->out;
    choose_list(input, lending);
    uint8_t sub_id2 = (uint8_t)(take(input) < 200 ? 0x34 + take(input) % 6 : take(input));
    uint32_t source = take_muid(input), dest = take_muid(input);
    uint8_t request_id = (uint8_t)(take(input) % 130);
    uint16_t num_chunks = (uint16_t)take_number(input), chunk_num = (uint16_t)(take(input) < 160 ? 1 : take_number(input));
    midici_pe_answer answer =
        midici_pe_encode_message(sub_id2, source, dest, request_id, header->at, header->len, num_chunks, chunk_num,
                                 property->at, property->len, out->at, out->len);
    check_sent(lending, answer);
    must(same_answer(answer,
                     model_encode_message(sub_id2, source, dest, request_id, header, num_chunks, chunk_num, property, out)),
         "encode_message");
    must(lent_same_from(out, 0), "encode_message writes what the model says");
}

static void call_syx_list(struct input *input, struct lending *lending)
{
    struct lent *file = &lending->body, *places = &lending->places, *lengths = &lending->lengths;
    choose_file(input, lending);
    midici_pe_syx answer =
        midici_pe_syx_list(file->at, file->len, lent_words(places), places->len / 8, lent_words(lengths), lengths->len / 8);
    must(lent_guarded(places) && lent_guarded(lengths), "nothing before a column is written");
    must(lent_same_from(places, 8 * (size_t)answer.messages) && lent_same_from(lengths, 8 * (size_t)answer.messages),
         "what is past the messages stays");
    must(lent_same_from(file, 0) && lent_guarded(file), "the file stays");
    midici_pe_syx model = model_syx_list(file, places, lengths);
    must(answer.refusal == model.refusal && answer.messages == model.messages && answer.torn == model.torn, "syx_list");
    must(lent_same_from(places, 0) && lent_same_from(lengths, 0), "syx_list lists what the model says");
}

static void call_header_find(struct input *input, struct lending *lending)
{
    struct lent *header = &lending->header, *name = &lending->body;
    choose_header(input, lending);
    midici_pe_found answer = midici_pe_header_find(header->at, header->len, name->at, name->len);
    must(lent_same_from(header, 0) && lent_guarded(header), "the header stays");
    must(lent_same_from(name, 0) && lent_guarded(name), "the name stays");
    midici_pe_found model = model_header_find(header, name);
    must(answer.refusal == model.refusal && answer.kind == model.kind && answer.place == model.place &&
             answer.length == model.length,
         "header_find");
}

/* One call on a stage. */
static void hold_stage(struct stage *stage, const struct stage_call *call, const struct joining *joining)
{
    stage_keep(stage);
    struct told told = call->made(stage, joining);
    must(stage_guarded(stage), "nothing before a slice of a stage is written");
    must(told.refusal == 0 || stage_same(stage), "a refusal leaves a stage and its output");
    must(told_same(told, call->model(stage, joining)), call->name);
    must(stage_same(stage), call->name);
}

/* A run of calls, mostly turns and joins. */
static void run_stage(struct input *input, struct stage *stage)
{
    choose_stage(input, stage);
    for (unsigned calls = take(input); calls > 0 && input->left > 0; calls--) {
        unsigned choice = take(input);
        int call = choice < 24 ? (int)choice % STAGE_CALLS : choice < 96 ? STAGE_JOIN : STAGE_TURN;
        if (choice >= 248) {
            damage_stage(input, stage);
            continue;
        }
        struct joining joining = {.place = 0};
        if (call == STAGE_JOIN)
            joining = choose_joining(input, stage);
        hold_stage(stage, &stage_calls[call], &joining);
    }
}

static void call_alloc(struct input *input)
{
    uint8_t counter = (uint8_t)take(input);
    midici_pe_request_id allocated = midici_pe_alloc_out_request_id(counter);
    unsigned next = (counter + 1u) % 128;
    must(allocated.request_id == counter && allocated.counter == (next == 0 ? 1 : next), "alloc_out_request_id");
}

/* Somebody else writes a word of the table. */
static void damage(struct input *input, struct lending *lending)
{
    struct lent *lent = &lending->table.lent[take(input) % 2 == 0 ? NUMBERS : INDEX];
    size_t place = (size_t)take_bits(input, 2);
    if (lent->len == 0)
        return;
    lent_words(lent)[place % (lent->len / 8)] = take_number(input);
    lending->is_sound = false;
}

/* Feeds are made more often than the other calls. */
static void call_any(struct input *input, struct lending *lending)
{
    size_t rows = 0;
    while (calls[rows].name != NULL)
        rows++;
    unsigned choice = take(input);
    const struct call *call = &calls[choice / 16 % rows];
    switch (choice % 16) {
    case 0:
        if (choice < 128)
            call_split_chunk(input, lending);
        else
            call_split(input, lending);
        break;
    case 1:
        call_encode_message(input, lending);
        break;
    case 2:
        call_alloc(input);
        break;
    case 3:
        damage(input, lending);
        break;
    case 4:
        call_syx_list(input, lending);
        break;
    case 5:
        call_header_find(input, lending);
        break;
    case 6:
        run_stage(input, &lending->stage);
        break;
    case 7:
        call_table(input, lending, call);
        break;
    default:
        while (call->bytes == NO_BYTES || (choice % 16 > 9 && call->bytes == A_MESSAGE))
            call = call[1].name != NULL ? call + 1 : calls;
        call_table(input, lending, call);
    }
}

int LLVMFuzzerTestOneInput(const uint8_t *data, size_t size)
{
    struct input input = {data, size};
    struct lending *lending = choose_lending(&input);
    if (take(&input) % 2 == 0)
        call_table(&input, lending, &calls[0]);
    else
        fill_table(&input, &lending->table);
    for (int calls = 0; calls < MOST_CALLS && input.left > 0; calls++)
        call_any(&input, lending);
    return 0;
}
