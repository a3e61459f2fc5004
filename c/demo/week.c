/* The demo: the week of one scene list.
 *
 * A mixer sends its scene list to a hub, in chunks, by two cables. Both ends are played here: the mixer's side cuts the
 * list, at once, and sends each chunk behind a CI header; the hub's side feeds what arrives, turns down what does not
 * belong there, stray chunks among it, and puts the list together. Then the hub sends it on, by turns with a short list. At
 * the weekend the same list comes once more, as a .syx file, whose messages the hub finds and feeds. Of the lists that are
 * open, the hub's staff see the oldest on top, and of each that is whole the resource, which its header names. Each step is
 * printed, with the bytes that travel. What arrived is compared with what was sent, each time: the exit status is 0 if it
 * is the same, 1 if it is not or if a call answered something else than the step expects. */
#include "midici_pe.h"

#include <inttypes.h>
#include <stdbool.h>
#include <stdio.h>
#include <stdlib.h>
#include <string.h>

enum {
    PEERS = 4,
    HEADER_BYTES = MIDICI_PE_HEADER_BYTES,
    TX_BYTES = MIDICI_PE_TX_BYTES,
    RECORDS = MIDICI_PE_FRAGMENT_RECORDS,
    NUMBERS_LEN = MIDICI_PE_NUMBERS_LEN(PEERS),
    INDEX_LEN = MIDICI_PE_INDEX_LEN(PEERS, RECORDS),
    PLACES = MIDICI_PE_PLACES(PEERS),

    LIST_HEADER_LEN = 48,
    LIST_BODY_LEN = 1000,
    MAX_SYSEX = 256, /* no message is longer, F0 and F7 included */
    CHUNKS = 5,
    CUT_BYTES = LIST_HEADER_LEN + LIST_BODY_LEN + 9 * CHUNKS, /* all chunks together */
    STRAY = 7,                                                /* the number of a chunk that the list has not */
    FILE_BYTES = 2048,                                        /* room for the file */
    SENT_BYTES = 2048,                                        /* room for the lists that the hub sends on */
    SCENES_PLACE = 3,                                         /* their places on the stage */
    STATE_PLACE = 9,

    GET = 0x34,       /* the kind of a message that asks for a list */
    GET_REPLY = 0x35, /* the kind of a message that brings one */
    SYSEX_START = 0xF0,
    SYSEX_END = 0xF7,

    DAY_MS = 24 * 60 * 60 * 1000
};

/* The MUIDs of the devices. */
enum { HUB = 0x0123456, MIXER = 0x0A1B2C3, KEYBOARD = 0x0000011, DRUMS = 0x0000022, LIGHTS = 0x0000033 };

/* The table's shape, and its memory, which is lent with each call. */
static const midici_pe_shape shape = {PEERS, HEADER_BYTES, TX_BYTES, RECORDS};
static uint64_t numbers[NUMBERS_LEN];
static uint64_t fragment_index[INDEX_LEN];
static uint8_t headers[MIDICI_PE_HEADERS_LEN(PEERS, HEADER_BYTES)];
static uint8_t arenas[MIDICI_PE_ARENAS_LEN(PEERS, TX_BYTES)];

/* A list as its sender has it, and its chunks, one behind the other. */
struct list {
    uint32_t sender;
    uint8_t request_id;
    const char *resource; /* the one that the header names */
    size_t header_len, body_len;
    uint8_t header[LIST_HEADER_LEN], body[LIST_BODY_LEN];
    uint64_t chunks, cut_len;
    uint16_t lengths[CHUNKS];
    uint8_t cut[CUT_BYTES];
};

/* A message as it travels, from F0 to F7; without an F7 where the cable was pulled before. */
struct message {
    size_t len;
    bool is_torn;
    uint8_t bytes[MAX_SYSEX];
};

/* A .syx file, whole in memory. */
struct file {
    size_t len;
    uint8_t bytes[FILE_BYTES];
};

/* Lists that leave by turns: the stage, and the buffer that holds them one behind the other. */
struct outgoing {
    uint64_t stage[MIDICI_PE_STAGE_LEN];
    size_t len;
    uint8_t bytes[SENT_BYTES];
};

/* What a call wrote when a list was whole. */
struct received {
    size_t header_len, body_len;
    uint8_t header[HEADER_BYTES], body[TX_BYTES];
};

/* ---- What is printed ---- */

static void must(bool as_expected, const char *step)
{
    if (as_expected)
        return;
    printf("\nNot as expected: %s.\n", step);
    exit(1);
}

static const char *name_of(uint64_t muid)
{
    switch (muid) {
    case HUB:
        return "hub";
    case MIXER:
        return "mixer";
    case KEYBOARD:
        return "keyboard";
    case DRUMS:
        return "drums";
    case LIGHTS:
        return "lights";
    default:
        return "stranger";
    }
}

/* A number with a comma after its thousands, as README writes it. */
static const char *in_thousands(uint64_t number)
{
    static char text[4][32];
    static unsigned next;
    char *at = text[next++ % 4] + 31;
    int digits = 0;
    *at = '\0';
    do {
        if (digits > 0 && digits % 3 == 0)
            *--at = ',';
        *--at = (char)('0' + number % 10);
        digits++;
    } while ((number /= 10) > 0);
    return at;
}

/* The first bytes as text, a line's end as a slash. */
static void print_text(const char *name, const uint8_t *bytes, size_t len)
{
    const size_t most = 64;
    printf("      %s:%*s", name, (int)(7 - strlen(name)), "");
    for (size_t i = 0; i < len && i < most; i++)
        putchar(bytes[i] == '\n' ? '/' : bytes[i] >= 0x20 && bytes[i] < 0x7F ? bytes[i] : '.');
    puts(len > most ? " .." : len == 0 ? "(empty)" : "");
}

/* The first bytes and the last ones. */
static void print_bytes(const uint8_t *bytes, size_t len)
{
    const size_t first = 28, last = 4;
    printf("      bytes: ");
    for (size_t i = 0; i < len; i++) {
        if (len > first + last && i == first) {
            printf(" ..");
            i = len - last;
        }
        printf(" %02X", bytes[i]);
    }
    printf("\n");
}

/* A message's bytes, and header and body of its chunk as text: what there is of them. */
static void print_message(const struct message *message)
{
    const uint8_t *chunk = message->bytes + 1 + MIDICI_PE_CI_HEADER_LEN, *end = message->bytes + message->len;
    size_t header_len = chunk[1] + 128u * chunk[2];
    const uint8_t *body = chunk + 3 + header_len + 6;
    print_bytes(message->bytes, message->len);
    if (header_len > 0)
        print_text("header", chunk + 3, header_len);
    print_text("body", body, (size_t)(end - body) - (message->is_torn ? 0 : 1));
}

static const char *name_of_refusal(uint8_t refusal)
{
    switch (refusal) {
    case MIDICI_PE_TRUNCATED:
        return "MIDICI_PE_TRUNCATED: the chunk ends too early";
    case MIDICI_PE_INCONSISTENT_CHUNKING:
        return "MIDICI_PE_INCONSISTENT_CHUNKING: it does not go with itself or with the chunks before it";
    case MIDICI_PE_SYX_TOO_MANY_MESSAGES:
        return "MIDICI_PE_SYX_TOO_MANY_MESSAGES: the file has more messages than that";
    case MIDICI_PE_STAGE_PLACE_BUSY:
        return "MIDICI_PE_STAGE_PLACE_BUSY: the list that is there has not left yet";
    default:
        return "midici_pe.h has its name";
    }
}

static void print_refused(uint8_t refusal) { printf("      Refused, number %d, %s.\n", refusal, name_of_refusal(refusal)); }

static void print_fed(midici_pe_fed answer)
{
    if (answer.refusal != MIDICI_PE_OK)
        print_refused(answer.refusal);
    else if (answer.whole)
        printf("      The list is whole: %" PRIu64 " bytes of header, %" PRIu64 " of body.\n", answer.header_len,
               answer.body_len);
    else
        printf("      Taken. Chunks are still missing.\n");
}

/* ---- The sender's side ---- */

/* Cuts a list into chunks: one call for all of them. */
static void cut_list(struct list *list)
{
    midici_pe_cut cut = midici_pe_split(list->request_id, list->header, list->header_len, list->body, list->body_len,
                                        MAX_SYSEX, list->cut, CUT_BYTES, list->lengths, CHUNKS);
    must(cut.refusal == MIDICI_PE_OK, "the list can be cut");
    list->chunks = cut.chunks;
    list->cut_len = cut.bytes;
}

static void fill_scene_list(struct list *list, uint8_t request_id)
{
    enum { LINE = 25 };
    const char *header = "{\"status\":200,\"resource\":\"SceneList\",\"total\":40}";
    char line[LINE + 1];
    list->sender = MIXER;
    list->request_id = request_id;
    list->resource = "SceneList";
    list->header_len = LIST_HEADER_LEN;
    list->body_len = LIST_BODY_LEN;
    must(strlen(header) == LIST_HEADER_LEN, "the header has 48 bytes");
    memcpy(list->header, header, LIST_HEADER_LEN);
    for (int scene = 0; scene < LIST_BODY_LEN / LINE; scene++) {
        int len = snprintf(line, sizeof line, "Scene %03d, fader at %03d.\n", scene + 1, scene * 7 % 128);
        must(len == LINE, "a line of the list has 25 bytes");
        memcpy(list->body + scene * LINE, line, LINE);
    }
    cut_list(list);
}

/* A shorter list of two chunks. */
static struct list other_list(uint32_t sender, uint8_t request_id)
{
    struct list list = {.sender = sender, .request_id = request_id, .resource = "State", .header_len = 20, .body_len = 300};
    memcpy(list.header, "{\"resource\":\"State\"}", list.header_len);
    memset(list.body, name_of(sender)[0], list.body_len);
    cut_list(&list);
    return list;
}

/* A message around `len` bytes that already stand behind its F0. */
static void close_message(struct message *message, uint64_t len)
{
    message->bytes[0] = SYSEX_START;
    message->bytes[1 + len] = SYSEX_END;
    message->len = 1 + (size_t)len + 1;
    message->is_torn = false;
}

/* How many bytes stand behind the first `before` ones, without the F7. */
static size_t len_behind(const struct message *message, size_t before)
{
    return message->len - before - (message->is_torn ? 0 : 1);
}

/* The message that asks the mixer for its list. */
static struct message question(uint8_t request_id)
{
    const char *header = "{\"resource\":\"SceneList\"}";
    struct message message;
    midici_pe_answer written = midici_pe_encode_message(GET, HUB, MIXER, request_id, (const uint8_t *)header,
                                                        strlen(header), 1, 1, NULL, 0, message.bytes + 1, MAX_SYSEX - 2);
    must(written.refusal == MIDICI_PE_OK, "the question can be written");
    close_message(&message, written.count);
    return message;
}

/* The message with one chunk of a list: a CI header, written with an empty chunk, and the cut chunk in that one's place. */
static struct message message_with_chunk(const struct list *list, uint16_t chunk_num)
{
    struct message message;
    uint8_t *ci_header = message.bytes + 1;
    const uint8_t *chunk = list->cut;
    for (uint16_t k = 1; k < chunk_num; k++)
        chunk += list->lengths[k - 1];
    midici_pe_answer written = midici_pe_encode_message(GET_REPLY, list->sender, HUB, list->request_id, NULL, 0, 1, 1, NULL,
                                                        0, ci_header, MAX_SYSEX - 2);
    must(written.refusal == MIDICI_PE_OK, "the CI header can be written");
    memcpy(ci_header + MIDICI_PE_CI_HEADER_LEN, chunk, list->lengths[chunk_num - 1]);
    close_message(&message, MIDICI_PE_CI_HEADER_LEN + list->lengths[chunk_num - 1]);
    return message;
}

/* Writes a stray chunk that tells so many chunks, or 0 for none. */
static midici_pe_answer write_stray(const struct list *list, uint16_t num_chunks, struct message *message)
{
    const char *body = "Scene 057, fader at 008.\n";
    return midici_pe_encode_message(GET_REPLY, list->sender, HUB, list->request_id, NULL, 0, num_chunks, STRAY,
                                    (const uint8_t *)body, strlen(body), message->bytes + 1, MAX_SYSEX - 2);
}

/* A stray chunk as another program might send it. One above its own count is not written: its count is put in later. */
static struct message stray_message(const struct list *list, uint8_t num_chunks)
{
    struct message message;
    uint8_t *chunk = message.bytes + 1 + MIDICI_PE_CI_HEADER_LEN;
    must(num_chunks == 0 || write_stray(list, num_chunks, &message).refusal == MIDICI_PE_INCONSISTENT_CHUNKING,
         "a chunk above its own count is not written");
    midici_pe_answer written = write_stray(list, 0, &message);
    must(written.refusal == MIDICI_PE_OK, "a chunk without a count is written");
    close_message(&message, written.count);
    chunk[3] = num_chunks; /* behind request number and header length */
    return message;
}

/* ---- The hub's side ---- */

static void make_table(void)
{
    midici_pe_answer made = midici_pe_new(shape, numbers, NUMBERS_LEN, fragment_index, INDEX_LEN, headers, sizeof headers,
                                          arenas, sizeof arenas);
    must(made.refusal == MIDICI_PE_OK, "the table is made");
}

/* A whole message, F0 and F7 taken off: that is what cable A's port hands over, and what stands in a file. */
static midici_pe_fed arrive_whole(const uint8_t *body, size_t len, uint64_t now_ms, struct received *received)
{
    return midici_pe_feed_message(shape, numbers, NUMBERS_LEN, fragment_index, INDEX_LEN, headers, sizeof headers, arenas,
                                  sizeof arenas, body, len, now_ms, received->header, HEADER_BYTES, received->body,
                                  TX_BYTES);
}

/* What cable B's port does: it has read the CI header itself, and hands over the chunk behind it and its sender. */
static midici_pe_fed arrive_bare(uint32_t sender, const struct message *message, uint64_t now_ms, struct received *received)
{
    size_t before = 1 + MIDICI_PE_CI_HEADER_LEN;
    return midici_pe_feed(shape, numbers, NUMBERS_LEN, fragment_index, INDEX_LEN, headers, sizeof headers, arenas,
                          sizeof arenas, sender, message->bytes + before, len_behind(message, before), now_ms,
                          received->header, HEADER_BYTES, received->body, TX_BYTES);
}

/* Prints an answer; the lengths of a whole list are kept. */
static midici_pe_fed take_answer(midici_pe_fed answer, struct received *received)
{
    if (answer.whole) {
        received->header_len = (size_t)answer.header_len;
        received->body_len = (size_t)answer.body_len;
    }
    print_fed(answer);
    return answer;
}

static midici_pe_fed arrive(char cable, uint32_t sender, const struct message *message, uint64_t now_ms,
                            struct received *received)
{
    return take_answer(cable == 'A' ? arrive_whole(message->bytes + 1, len_behind(message, 1), now_ms, received)
                                    : arrive_bare(sender, message, now_ms, received),
                       received);
}

/* One chunk on its way: put behind a CI header, sent by a cable, fed to the table. */
static midici_pe_fed send_chunk(char cable, const struct list *list, uint16_t chunk_num, uint64_t now_ms,
                                struct received *received)
{
    struct message message = message_with_chunk(list, chunk_num);
    printf("  %4" PRIu64 " ms: chunk %u of %" PRIu64 " from the %s comes by cable %c, in a message of %zu bytes:\n",
           now_ms % DAY_MS, chunk_num, list->chunks, name_of(list->sender), cable, message.len);
    print_message(&message);
    return arrive(cable, list->sender, &message, now_ms, received);
}

static void expect_waiting(midici_pe_fed answer)
{
    must(answer.refusal == MIDICI_PE_OK && !answer.whole, "the chunk is taken");
}

static void expect_refused(midici_pe_fed answer, uint8_t refusal)
{
    must(answer.refusal == refusal, "the chunk is refused");
}

/* What the hub's staff see of a list that has arrived: its resource, as the header has it. */
static void show_resource(const struct received *received, const char *expected)
{
    const char *name = "resource";
    midici_pe_found found =
        midici_pe_header_find(received->header, received->header_len, (const uint8_t *)name, strlen(name));
    must(found.refusal == MIDICI_PE_OK && found.kind == MIDICI_PE_STRING, "the header names a resource");
    const uint8_t *resource = received->header + found.place;
    printf("      Its resource is %.*s: a string of %" PRIu64 " bytes, at place %" PRIu64 " of the header.\n",
           (int)found.length, (const char *)resource, found.length, found.place);
    must(found.length == strlen(expected) && memcmp(resource, expected, strlen(expected)) == 0,
         "it is the list's resource");
}

static void expect_whole(midici_pe_fed answer, const struct list *list, const struct received *received)
{
    must(answer.whole && answer.header_len == list->header_len && answer.body_len == list->body_len, "the list is whole");
    show_resource(received, list->resource);
}

static void print_totals(uint64_t expected_open)
{
    midici_pe_stats stats = midici_pe_memory_stats(shape, numbers, NUMBERS_LEN);
    printf("  Totals: %s bytes of rooms, %" PRIu64 " lists open, %s bytes held for them.\n",
           in_thousands(stats.reserved_bytes), stats.active_slots, in_thousands(stats.active_bytes));
    must(stats.refusal == MIDICI_PE_OK && stats.active_slots == expected_open, "so many lists are open");
}

/* What the hub's display shows; whose lists must be open, from the top, is expected. */
static void print_open_lists(const uint32_t *expected_peers, uint64_t expected_open)
{
    uint64_t peers[PLACES], request_ids[PLACES], chunks_held[PLACES];
    midici_pe_answer open =
        midici_pe_open_list(shape, numbers, NUMBERS_LEN, peers, PLACES, request_ids, PLACES, chunks_held, PLACES);
    must(open.refusal == MIDICI_PE_OK && open.count == expected_open, "so many lists are open");
    printf("  The open lists, the one that has waited longest for a chunk on top:\n");
    for (uint64_t i = 0; i < open.count; i++) {
        printf("      %-8s  request number %" PRIu64 ", chunks held: %" PRIu64 "\n", name_of(peers[i]), request_ids[i],
               chunks_held[i]);
        must(peers[i] == expected_peers[i], "the lists stand in their order");
    }
}

/* Closes what has waited too long; how many lists that must be is expected. */
static void poll_table(uint64_t now_ms, uint64_t expected_closed)
{
    uint64_t peers[PLACES], request_ids[PLACES];
    midici_pe_answer closed = midici_pe_poll(shape, numbers, NUMBERS_LEN, now_ms, peers, PLACES, request_ids, PLACES);
    printf("  %4" PRIu64 " ms: the hub looks for lists without a chunk for %d ms, and closes %" PRIu64 ".\n",
           now_ms % DAY_MS, MIDICI_PE_TIMEOUT_MS, closed.count);
    for (uint64_t i = 0; i < closed.count; i++)
        printf("      %s, request number %" PRIu64 "\n", name_of(peers[i]), request_ids[i]);
    must(closed.refusal == MIDICI_PE_OK && closed.count == expected_closed, "so many lists are closed");
}

/* ---- The week ---- */

static void monday(void)
{
    printf("\nMonday: the hub is switched on\n");
    make_table();
    size_t rooms = sizeof fragment_index + sizeof headers + sizeof arenas;
    printf("  It lends memory to a table for %d peers, with up to four open lists each: %s bytes, of which\n", PEERS,
           in_thousands(sizeof numbers + rooms));
    printf("  %s are the rooms for chunk records, headers and bodies.\n", in_thousands(rooms));
    print_totals(0);
}

/* The hub's question gets a request number; the mixer's answer will carry the same one. */
static uint8_t tuesday(void)
{
    printf("\nTuesday: the hub asks the mixer for its scene list\n");
    midici_pe_request_id allocated = midici_pe_alloc_out_request_id(1);
    printf("  The question gets request number %d; the next one will get %d.\n", allocated.request_id, allocated.counter);
    struct message message = question(allocated.request_id);
    printf("  It goes to the mixer by cable A, in a message of %zu bytes:\n", message.len);
    print_message(&message);
    return allocated.request_id;
}

static void print_cut(const struct list *list)
{
    printf("  The mixer's list has %zu bytes of header and %zu of body. No message may be longer than %d bytes.\n",
           list->header_len, list->body_len, MAX_SYSEX);
    print_text("header", list->header, list->header_len);
    print_text("body", list->body, list->body_len);
    printf("  So it is cut into %" PRIu64 " chunks, %s bytes all together, whose messages have", list->chunks,
           in_thousands(list->cut_len));
    must(list->chunks == CHUNKS && list->cut_len == CUT_BYTES, "there are five chunks");
    for (uint16_t chunk_num = 1; chunk_num <= CHUNKS; chunk_num++)
        printf(" %zu%s", message_with_chunk(list, chunk_num).len, chunk_num < CHUNKS ? "," : " bytes.\n");
}

/* The message of chunk 2, up to the moment in which a plug is pulled. */
static struct message torn_message(const struct list *list)
{
    struct message message = message_with_chunk(list, 2);
    message.len = 100;
    message.is_torn = true;
    return message;
}

static void wednesday(const struct list *list, struct received *received)
{
    const uint64_t day = 2 * (uint64_t)DAY_MS;
    struct message message = torn_message(list);
    printf("\nWednesday: the mixer answers, and somebody pulls a plug\n");
    print_cut(list);
    expect_waiting(send_chunk('A', list, 1, day, received));
    printf("     5 ms: the plug of cable B is pulled in the middle of chunk 2. The hub gets %zu bytes, and no F7:\n",
           message.len);
    print_message(&message);
    expect_refused(arrive('B', MIXER, &message, day + 5, received), MIDICI_PE_TRUNCATED);
    printf("      A chunk that cannot be read changes nothing, so the list's last chunk is still that of 0 ms.\n");
    poll_table(day + MIDICI_PE_TIMEOUT_MS, 1);
    printf("      Too late: the hub gives up what it had of the list.\n");
    print_totals(0);
}

static void cancel_and_drop(uint8_t request_id)
{
    midici_pe_answer cancelled = midici_pe_cancel(shape, numbers, NUMBERS_LEN, KEYBOARD, request_id);
    printf("  The hub cancels request %d of the keyboard: lists closed: %" PRIu64 ".\n", request_id, cancelled.count);
    must(cancelled.refusal == MIDICI_PE_OK && cancelled.count == 1, "one list is cancelled");
    midici_pe_answer dropped = midici_pe_drop_peer(shape, numbers, NUMBERS_LEN, DRUMS);
    printf("  The drums are switched off, and the hub drops them: lists closed: %" PRIu64 ".\n", dropped.count);
    must(dropped.refusal == MIDICI_PE_OK && dropped.count == 1, "one list is dropped");
}

static void begin_others(uint8_t request_id, uint64_t day, struct received *scratch)
{
    struct list keyboard = other_list(KEYBOARD, request_id), drums = other_list(DRUMS, request_id),
                lights = other_list(LIGHTS, request_id);
    expect_waiting(send_chunk('A', &lights, 1, day, scratch));
    expect_waiting(send_chunk('B', &drums, 1, day, scratch));
    expect_waiting(send_chunk('A', &keyboard, 1, day, scratch));
}

/* A chunk of a longer list gets in between, twice: with this list's count, and without one. The list goes on. */
static void send_strays(const struct list *list, uint64_t now_ms, struct received *received)
{
    struct message message = stray_message(list, CHUNKS);
    printf("  %4" PRIu64 " ms: a stray chunk from the mixer comes by cable A, number %d of %d:\n", now_ms % DAY_MS, STRAY,
           CHUNKS);
    print_message(&message);
    expect_refused(arrive('A', MIXER, &message, now_ms, received), MIDICI_PE_INCONSISTENT_CHUNKING);
    printf("      A number above the chunk's own count: it changes nothing.\n");
    message = stray_message(list, 0);
    printf("  %4" PRIu64 " ms: it comes again by cable B, and does not tell a count:\n", (now_ms + 10) % DAY_MS);
    print_message(&message);
    expect_refused(arrive('B', MIXER, &message, now_ms + 10, received), MIDICI_PE_INCONSISTENT_CHUNKING);
    printf("      The list has %d chunks, so number %d is none of them. The list stays open and keeps what it holds.\n",
           CHUNKS, STRAY);
}

static void thursday(const struct list *list, struct received *received, struct received *scratch)
{
    const uint64_t day = 3 * (uint64_t)DAY_MS;
    struct list lights = other_list(LIGHTS, list->request_id);
    printf("\nThursday: the mixer tries again, while three others send under the same request number\n");
    begin_others(list->request_id, day, scratch);
    expect_waiting(send_chunk('B', list, 3, day + 10, received));
    expect_waiting(send_chunk('A', list, 1, day + 20, received));
    expect_waiting(send_chunk('B', list, 5, day + 30, received));
    expect_refused(send_chunk('A', list, 3, day + 40, received), MIDICI_PE_INCONSISTENT_CHUNKING);
    printf("      Chunk 3 is there already. The list stays open and keeps what it holds.\n");
    send_strays(list, day + 50, received);
    print_open_lists((const uint32_t[]){LIGHTS, DRUMS, KEYBOARD, MIXER}, 4);
    printf("      In the table's memory the mixer comes first, since Wednesday. Here it stands last: the last\n");
    printf("      chunk that reached a list was its stray one of 60 ms.\n");
    print_totals(4);
    poll_table(day + MIDICI_PE_TIMEOUT_MS - 1, 0);
    printf("      Just in time: nobody has been silent for so long.\n");
    cancel_and_drop(list->request_id);
    expect_waiting(send_chunk('A', list, 2, day + MIDICI_PE_TIMEOUT_MS, received));
    expect_whole(send_chunk('B', &lights, 2, day + 3010, scratch), &lights, scratch);
    print_open_lists((const uint32_t[]){MIXER}, 1);
    expect_whole(send_chunk('B', list, 4, day + 3020, received), list, received);
    print_totals(0);
}

/* Says where two runs of bytes differ first, or that they don't. */
static bool same_bytes(const char *what, const uint8_t *sent, size_t sent_len, const uint8_t *arrived, size_t arrived_len)
{
    if (sent_len != arrived_len) {
        printf("  The %s differs: %zu bytes were sent, %zu arrived.\n", what, sent_len, arrived_len);
        return false;
    }
    for (size_t i = 0; i < sent_len; i++) {
        if (sent[i] != arrived[i]) {
            printf("  The %s differs at byte %zu: %02X was sent, %02X arrived.\n", what, i, sent[i], arrived[i]);
            return false;
        }
    }
    printf("  The %s is the same: %zu bytes compared.\n", what, sent_len);
    return true;
}

static const char *kind_of(const struct list *list) { return list->sender == MIXER ? "scene" : "short"; }

static bool same_list(const struct list *list, const struct received *received)
{
    bool header = same_bytes("header", list->header, list->header_len, received->header, received->header_len);
    bool body = same_bytes("body", list->body, list->body_len, received->body, received->body_len);
    printf("The %s list %s.\n", kind_of(list), header && body ? "has arrived as it was sent" : "is NOT what was sent");
    return header && body;
}

/* ---- The list goes on, by turns with a short one ---- */

/* Puts a list behind those that the buffer holds, and lets it join; the answer is its count, or a refusal. */
static midici_pe_answer join_stage(struct outgoing *outgoing, uint64_t place, const struct list *list)
{
    midici_pe_outgoing parts = {.header_at = outgoing->len,
                                .header_len = list->header_len,
                                .body_at = outgoing->len + list->header_len,
                                .body_len = list->body_len,
                                .request_id = list->request_id,
                                .max_sysex = MAX_SYSEX};
    must(outgoing->len + list->header_len + list->body_len <= SENT_BYTES, "the buffer has room");
    memcpy(outgoing->bytes + parts.header_at, list->header, list->header_len);
    memcpy(outgoing->bytes + parts.body_at, list->body, list->body_len);
    midici_pe_answer joined =
        midici_pe_stage_join(outgoing->stage, MIDICI_PE_STAGE_LEN, outgoing->bytes, SENT_BYTES, place, parts);
    printf("  The %s list is to join at place %" PRIu64 ", with %zu bytes of header and %zu of body.\n", kind_of(list),
           place, list->header_len, list->body_len);
    if (joined.refusal != MIDICI_PE_OK) {
        print_refused(joined.refusal);
    } else {
        printf("      It will leave in %" PRIu64 " chunks.\n", joined.count);
        outgoing->len += list->header_len + list->body_len;
    }
    return joined;
}

/* The message with the chunk whose turn it is: a CI header, and behind it the chunk, which the turn writes there. */
static midici_pe_turn take_turn(struct outgoing *outgoing, struct message *message)
{
    uint8_t *ci_header = message->bytes + 1;
    midici_pe_answer written =
        midici_pe_encode_message(GET_REPLY, HUB, LIGHTS, 0, NULL, 0, 1, 1, NULL, 0, ci_header, MAX_SYSEX - 2);
    must(written.refusal == MIDICI_PE_OK, "the CI header can be written");
    midici_pe_turn turn =
        midici_pe_stage_turn(outgoing->stage, MIDICI_PE_STAGE_LEN, outgoing->bytes, SENT_BYTES,
                             ci_header + MIDICI_PE_CI_HEADER_LEN, MAX_SYSEX - 2 - MIDICI_PE_CI_HEADER_LEN);
    must(turn.refusal == MIDICI_PE_OK, "a turn is granted");
    close_message(message, MIDICI_PE_CI_HEADER_LEN + turn.length);
    return turn;
}

/* A chunk of a list arrives at the far end; with the last one the list is whole. */
static void arrive_by_turn(midici_pe_turn turn, const struct message *message, const struct list *list,
                           struct received *received)
{
    midici_pe_fed fed = arrive('A', HUB, message, 4 * (uint64_t)DAY_MS, received);
    if (turn.chunk_num == turn.num_chunks)
        expect_whole(fed, list, received);
    else
        expect_waiting(fed);
}

/* All turns, until nobody waits. The two lists, and what arrives of them, stand here in the order of their places. */
static void take_turns(struct outgoing *outgoing, const struct list *const lists[2], struct received *const received[2])
{
    const uint64_t places[] = {SCENES_PLACE, STATE_PLACE,  SCENES_PLACE, STATE_PLACE,
                               SCENES_PLACE, SCENES_PLACE, SCENES_PLACE};
    const size_t most = sizeof places / sizeof places[0];
    struct message message;
    size_t turns = 0;
    for (midici_pe_turn turn = take_turn(outgoing, &message); turn.handed; turn = take_turn(outgoing, &message)) {
        int which = turn.place == SCENES_PLACE ? 0 : 1;
        turns++;
        printf("  Turn %zu: place %" PRIu64 ", chunk %d of %d, in a message of %zu bytes.\n", turns, turn.place,
               turn.chunk_num, turn.num_chunks, message.len);
        must(turns <= most && turn.place == places[turns - 1], "the lists take turns");
        arrive_by_turn(turn, &message, lists[which], received[which]);
    }
    printf("  Nobody waits any more.\n");
    must(turns == most, "all chunks have left");
}

/* What the hub has received it sends on, and with it a short list of its own. The far end is played here, by a new table in
 * the same memory. */
static bool send_on(const struct list *scenes, struct received *scenes_received, struct received *state_received)
{
    static struct outgoing outgoing;
    struct list state = other_list(HUB, (uint8_t)(scenes->request_id + 1));
    printf("  Now the hub sends it on to the lights, and by the same cable a short list, which need not wait for it.\n");
    must(midici_pe_stage_new(outgoing.stage, MIDICI_PE_STAGE_LEN).refusal == MIDICI_PE_OK, "the stage is made");
    make_table();
    must(join_stage(&outgoing, SCENES_PLACE, scenes).count == CHUNKS, "the scene list joins");
    must(join_stage(&outgoing, SCENES_PLACE, &state).refusal == MIDICI_PE_STAGE_PLACE_BUSY, "the place is busy");
    must(join_stage(&outgoing, STATE_PLACE, &state).count == state.chunks, "the short list joins");
    take_turns(&outgoing, (const struct list *const[]){scenes, &state},
               (struct received *const[]){scenes_received, state_received});
    bool scene_list = same_list(scenes, scenes_received), short_list = same_list(&state, state_received);
    return scene_list && short_list;
}

static bool friday(const struct list *list, const struct received *received)
{
    static struct received scenes, state;
    printf("\nFriday: what arrived is held against what was sent, byte for byte, and goes on\n");
    return same_list(list, received) && send_on(list, &scenes, &state);
}

/* ---- The weekend: the list in a file ---- */

static void save_bytes(struct file *file, const uint8_t *bytes, size_t len, const char *what)
{
    must(file->len + len <= FILE_BYTES, "the file has room");
    printf("  From byte %zu on: %s, %zu bytes:\n", file->len, what, len);
    print_bytes(bytes, len);
    memcpy(file->bytes + file->len, bytes, len);
    file->len += len;
}

static void save_chunk(struct file *file, const struct list *list, uint16_t chunk_num)
{
    char what[32];
    struct message message = message_with_chunk(list, chunk_num);
    snprintf(what, sizeof what, "chunk %u", chunk_num);
    save_bytes(file, message.bytes, message.len, what);
}

/* The five messages, in any order, with what got between them while they were recorded. */
static void saturday(const struct list *list, struct file *file)
{
    const uint8_t clock[3] = {0xF8, 0xF8, 0xF8}, note[3] = {0x90, 0x3C, 0x40};
    struct message torn = torn_message(list);
    printf("\nSaturday: somebody records the mixer's messages as a .syx file\n");
    save_bytes(file, clock, sizeof clock, "ticks of a clock");
    save_chunk(file, list, 1);
    save_chunk(file, list, 3);
    save_bytes(file, torn.bytes, torn.len, "chunk 2, torn as a plug is pulled");
    save_chunk(file, list, 2);
    save_bytes(file, note, sizeof note, "a key is struck");
    save_chunk(file, list, 5);
    save_bytes(file, clock, sizeof clock, "ticks of a clock");
    save_chunk(file, list, 4);
    printf("  The file has %s bytes.\n", in_thousands(file->len));
}

/* Reads the file into columns for so many messages. */
static midici_pe_syx read_file(const struct file *file, uint64_t *places, uint64_t *lengths, size_t messages)
{
    midici_pe_syx found = midici_pe_syx_list(file->bytes, file->len, places, messages, lengths, messages);
    printf("  The hub looks for messages in the file's %s bytes, with room for %zu.\n", in_thousands(file->len), messages);
    if (found.refusal != MIDICI_PE_OK)
        print_refused(found.refusal);
    else
        printf("      Messages found: %" PRIu64 ". Torn and left out: %" PRIu64 ". What is between them is dropped.\n",
               found.messages, found.torn);
    return found;
}

/* Feeds a message that was found in the file. */
static midici_pe_fed feed_found(const struct file *file, uint64_t place, uint64_t length, struct received *received)
{
    const uint8_t *body = file->bytes + place;
    printf("  A message is at place %" PRIu64 ", with length %" PRIu64 ":\n", place, length);
    print_bytes(body, (size_t)length);
    return take_answer(arrive_whole(body, (size_t)length, 6 * (uint64_t)DAY_MS, received), received);
}

/* Finds the messages, and feeds each to an empty table: the last one makes the list whole. */
static bool sunday(const struct list *list, const struct file *file, struct received *received)
{
    uint64_t places[FILE_BYTES / 2], lengths[FILE_BYTES / 2];
    printf("\nSunday: the hub is switched on again, and reads the file\n");
    make_table();
    must(read_file(file, places, lengths, CHUNKS - 1).refusal == MIDICI_PE_SYX_TOO_MANY_MESSAGES, "there is no room");
    midici_pe_syx found = read_file(file, places, lengths, file->len / 2);
    must(found.refusal == MIDICI_PE_OK && found.messages == CHUNKS && found.torn == 1, "five are found, and one is torn");
    for (int i = 0; i < CHUNKS - 1; i++)
        expect_waiting(feed_found(file, places[i], lengths[i], received));
    expect_whole(feed_found(file, places[CHUNKS - 1], lengths[CHUNKS - 1], received), list, received);
    print_totals(0);
    return same_list(list, received);
}

static void print_words(void)
{
    puts("MIDI-CI Property Exchange is how music devices ask each other for lists (scenes, presets, settings)");
    puts("and send them in pieces, as MIDI messages. A hub stands between such devices and puts the pieces of");
    puts("many lists together again, by several cables, in any order, from several devices at once. That it");
    puts("does so as the requirement says, stays within the memory that it was lent and always answers is");
    puts("proved for every input; this program calls it for one week, in which a mixer sends a scene list,");
    puts("the hub sends it on, and the same list comes as a file.\n");
    puts("A peer is a device that sends to the hub. A list is a header, which names the list's resource, and");
    puts("a body. It travels in chunks, each in a message of its own, and a table in the hub's memory puts the");
    puts("chunks together again. A request number says which list of a peer a chunk belongs to. On a stage of");
    puts("16 places lists that go out take turns, a chunk of each. A .syx file holds messages, one after");
    puts("another, each from F0 to F7. Bytes are hexadecimal, other numbers decimal; in text a line's end is a");
    puts("slash. Times are counted from the day's first chunk.");
}

int main(void)
{
    static struct received received, scratch, from_file;
    static struct list list;
    static struct file file;
    print_words();
    monday();
    fill_scene_list(&list, tuesday());
    wednesday(&list, &received);
    thursday(&list, &received, &scratch);
    bool by_cable = friday(&list, &received);
    saturday(&list, &file);
    bool by_file = sunday(&list, &file, &from_file);
    return by_cable && by_file ? 0 : 1;
}
