/* MIDI-CI Property Exchange: cut a header and a body into chunks, let several lists leave by turns, write messages, join
 * what arrives, find the messages of a .syx file, and find a value in a header.
 *
 * Words. A peer is a device, named by its MUID, a number of 28 bits. A list is the header and the body of one exchange,
 * bytes up to 7F both. A chunk is one piece of a list. A message is a CI header of 13 bytes with a chunk behind it, without
 * F0 and F7. In a file a message is any run of bytes up to 7F between F0 and F7 (see Files).
 *
 * Memory. The library allocates nothing, keeps no pointer after a call and has no state of its own. All memory is yours
 * and is lent for the time of a call. It has no I/O, takes no locks and never ends the program. The one function that it
 * calls is memset. No call takes more than MIDICI_PE_STACK_BYTES of stack (that is measured, not proved).
 *
 * Slices. A slice is a pointer and a length; the length counts elements, not bytes. A pointer may be NULL where the length
 * is 0. A call writes within the slices that are not const, and nowhere else.
 *
 * Answers. midici_pe_answer, midici_pe_cut, midici_pe_turn, midici_pe_fed, midici_pe_stats, midici_pe_syx and
 * midici_pe_found begin with `refusal`: 0, or the number that says why the call was turned down (enum midici_pe_refusal).
 * With a refusal every other field is 0, except `value` with number 24. Unless a call says otherwise, a refused call leaves
 * all lent memory as it was. midici_pe_request_id has no refusal. Compare fields, not the bytes of the structs: there is
 * padding between fields.
 *
 * Time. Every call returns, whatever its arguments. Its time grows with the bytes that it is given, a file's among them,
 * and the chunks that the list holds, with two exceptions. Feeding a list that holds a chunk number twice, or one that is 0
 * or above its count, may take time by the square of its chunks, some two million steps for 2,048 of them; calls leave no
 * such list, it can only stand in a table whose memory something else has written. Finding a value in a header takes time
 * that grows with the header, with the given name, and with the square of the number of names in the header, of which
 * there are at most 819.
 *
 * Trust. What is said here of answers and memory is proved of calls that keep four rules, and a call cannot see whether
 * they are kept:
 *   - a slice with a length above 0 points to that many elements, aligned as C aligns their type;
 *   - a slice that is not const does not overlap another slice of the same call;
 *   - while a call runs, nobody else writes what it is lent, and nobody else reads what it may write: calls on one table
 *     or one stage run one after the other, calls on different ones may run at the same time;
 *   - the program is compiled for x86-64 as ELF systems call functions there, with a size_t of 64 bits.
 * If one is broken, nothing is said any more: the call may write anywhere, answer anything or never return. */
#ifndef MIDICI_PE_H
#define MIDICI_PE_H

#if !defined(__x86_64__) || defined(__ILP32__) || defined(_WIN32) || defined(__APPLE__)
#error "midici_pe: the library is compiled for x86-64 with 64-bit pointers and the calls of ELF systems (Linux, BSD), and for nothing else"
#endif

#include <stddef.h>
#include <stdint.h>

#define MIDICI_PE_VERSION_MAJOR 0
#define MIDICI_PE_VERSION_MINOR 8
#define MIDICI_PE_VERSION_PATCH 0

/* More stack than any call takes (make sizes measures each). */
#define MIDICI_PE_STACK_BYTES 8192

#ifdef __cplusplus
extern "C" {
#endif

/* Why a call was refused. */
enum midici_pe_refusal {
    MIDICI_PE_OK = 0,                      /* not refused */

    MIDICI_PE_BAD_FIELD = 1,               /* a byte above 7F, a number out of range, or bytes left over behind a chunk */
    MIDICI_PE_TRUNCATED = 2,               /* a chunk ends too early */
    MIDICI_PE_BUFFER_TOO_SMALL = 3,        /* `out` or `lengths` is too short */
    MIDICI_PE_HEADER_TOO_LARGE = 4,        /* the header is too long to be cut, or does not fit into the table */
    MIDICI_PE_OVERSIZE = 5,                /* too many chunks, or the body does not fit into the table */
    MIDICI_PE_TOO_MANY_CONCURRENT = 6,     /* the peer has four lists open, none with this request id */
    MIDICI_PE_PEER_TABLE_FULL = 7,         /* every peer record is taken by another peer with a list open */
    MIDICI_PE_INCONSISTENT_CHUNKING = 8,   /* a chunk that does not go with itself or with those before it */
    MIDICI_PE_BAD_MCODED7 = 9,             /* bytes that are no Mcoded7 (no call of this header answers it) */

    MIDICI_PE_CI_TRUNCATED = 21,           /* a message of fewer than 13 bytes */
    MIDICI_PE_CI_NOT_UNIVERSAL_SYSEX = 22, /* a message that does not begin with 7E */
    MIDICI_PE_CI_NOT_MIDI_CI = 23,         /* a message whose third byte is not 0D */
    MIDICI_PE_CI_UNSUPPORTED_SUB_ID2 = 24, /* a kind of message that carries no chunk; `value` is the kind */
    MIDICI_PE_CI_BAD_LENGTH = 25,          /* a CI message lacks bytes (no call of this header answers it) */
    MIDICI_PE_CI_BAD_FIELD = 26,           /* a byte above 7F in a message's source or destination */
    MIDICI_PE_CI_BUFFER_TOO_SMALL = 27,    /* no room for a CI message (no call of this header answers it) */
    MIDICI_PE_CI_INVALID_MUID = 28,        /* a peer, source or destination above 0FFFFFFF */

    MIDICI_PE_CHUNK_OUT_OF_RANGE = 29,     /* no chunk of the list has this number */
    MIDICI_PE_BAD_SHAPE = 30,              /* the shape is out of range, a lent slice is too short for it or for a stage, or
                                            * a list is not within the lent buffer */
    MIDICI_PE_DAMAGED_SLOT = 31,           /* the table's memory holds what no call on it leaves there (see Receiving) */

    MIDICI_PE_SYX_TOO_MANY_MESSAGES = 32,  /* a file has more messages than `places` or `lengths` can hold */

    MIDICI_PE_JSON_HEADER_TOO_LONG = 33,   /* a header that is to be read has more than 4,096 bytes */
    MIDICI_PE_JSON_NOT_FLAT_OBJECT = 34,   /* it is no flat JSON object of the kind that is read (see Headers) */
    MIDICI_PE_JSON_NAME_TWICE = 35,        /* a name stands in it twice */

    /* No call of this header answers these two: the program tape prints them. */
    MIDICI_PE_TAPE_UNKNOWN_COMMAND = 36,   /* a tape has a byte that no command begins with */
    MIDICI_PE_TAPE_CUT_OFF = 37,           /* a tape ends inside a command */

    MIDICI_PE_STAGE_NO_SUCH_PLACE = 38,    /* a stage has no such place: it is above 15 */
    MIDICI_PE_STAGE_PLACE_BUSY = 39        /* the list that is at this place of the stage has not left yet */
};

/* What most calls answer. `value` is the kind of message with refusal 24, else 0. What `count` counts is said at each call;
 * with a refusal it is 0. */
typedef struct midici_pe_answer {
    uint8_t refusal;
    uint8_t value;
    uint64_t count;
} midici_pe_answer;

/* What cutting a whole list answers: how many chunks it has, and how many bytes they have all together. */
typedef struct midici_pe_cut {
    uint8_t refusal;
    uint64_t chunks;
    uint64_t bytes;
} midici_pe_cut;

/* What a turn answers. `handed` is 1 when a chunk was written: then `place` is its list's place, `chunk_num` its number,
 * `num_chunks` how many chunks the list has, and `length` how many bytes the chunk has in the output. Where nobody waits,
 * `handed` and all the others are 0. */
typedef struct midici_pe_turn {
    uint8_t refusal;
    uint8_t handed;
    uint16_t chunk_num;
    uint16_t num_chunks;
    uint64_t place;
    uint64_t length;
} midici_pe_turn;

/* What feeding answers. `whole` is 1 when the list is complete: then `header_len` and `body_len` are its lengths, and the
 * two outputs begin with it. While chunks are missing, `whole` and both lengths are 0. */
typedef struct midici_pe_fed {
    uint8_t refusal;
    uint8_t value;
    uint8_t whole;
    uint64_t header_len;
    uint64_t body_len;
} midici_pe_fed;

/* What a table takes and holds. */
typedef struct midici_pe_stats {
    uint8_t refusal;
    uint8_t value;
    uint64_t reserved_bytes;
    uint64_t active_bytes;
    uint64_t active_slots;
} midici_pe_stats;

/* What reading a file answers: how many messages were listed, and how many are torn. */
typedef struct midici_pe_syx {
    uint8_t refusal;
    uint64_t messages;
    uint64_t torn;
} midici_pe_syx;

/* What a value in a header is. */
enum midici_pe_kind {
    MIDICI_PE_ABSENT = 0, /* the name has no value there */
    MIDICI_PE_STRING = 1,
    MIDICI_PE_NUMBER = 2,
    MIDICI_PE_TRUE = 3,
    MIDICI_PE_FALSE = 4,
    MIDICI_PE_NULL = 5
};

/* What finding a value in a header answers: its kind (enum midici_pe_kind), and where its bytes are in the header. */
typedef struct midici_pe_found {
    uint8_t refusal;
    uint8_t kind;
    uint64_t place;
    uint64_t length;
} midici_pe_found;

/* A request id, and the counter after it. */
typedef struct midici_pe_request_id {
    uint8_t request_id;
    uint8_t counter;
} midici_pe_request_id;

/* ---- Sending ---- */

/* The longest chunk that is cut, and the longest message with such a chunk (F0 and F7 come on top of it). */
#define MIDICI_PE_CHUNK_LEN 16369
#define MIDICI_PE_MESSAGE_LEN 16382

/* The bytes of a CI header. */
#define MIDICI_PE_CI_HEADER_LEN 13

/* The largest MUID. */
#define MIDICI_PE_MUID_MAX 0x0FFFFFFFu

/* Hands out a request id: `request_id` is the counter as it came in, `counter` is the counter for the next call. Start with
 * 1: then the ids are 1 to 127, and 1 again. Any other byte is taken too. From 128 on, the id that is handed out is above
 * 7F, so that the cutter and the writer refuse it (1), and the next counter is one more, cut to seven bits: 200 hands out
 * 200 and gives 73. A counter of 0 is never given back. */
midici_pe_request_id midici_pe_alloc_out_request_id(uint8_t counter);

/* `count` is how many chunks the header and the body are cut into (1 to 16,383). No message with one of them is longer than
 * `max_sysex` bytes, F0 and F7 included; `max_sysex` is taken as 128 if it is less, and as 16,384 if it is more. So
 * name what the receiver says that it takes.
 * Refusals: 1 request_id above 7F, or a byte of the header or the body above 7F; 4 the header is longer than
 * MIDICI_PE_HEADER_BYTES, for which no table has room, or does not fit into the first chunk; 5 more than 16,383 chunks. */
midici_pe_answer midici_pe_chunk_count(uint8_t request_id, const uint8_t *header, size_t header_len, const uint8_t *body,
                                       size_t body_len, uint32_t max_sysex);

/* Writes all chunks of the same list into `out`, one behind the other, chunk 1 first, and their lengths into `lengths`.
 * `chunks` is how many there are, and `bytes` how many bytes they have all together: header_len + body_len + 9 * chunks. So
 * with midici_pe_chunk_count a caller knows how long `out` and `lengths` have to be. Bytes and lengths past the chunks keep
 * their values.
 * Refusals: those of midici_pe_chunk_count; 3 `out` is shorter than all chunks together, or `lengths` has fewer elements
 * than there are chunks. Both are then as they were. */
midici_pe_cut midici_pe_split(uint8_t request_id, const uint8_t *header, size_t header_len, const uint8_t *body,
                              size_t body_len, uint32_t max_sysex, uint8_t *out, size_t out_len, uint16_t *lengths,
                              size_t lengths_len);

/* Writes chunk `chunk_num` (1 is the first) of the same list into `out`. `count` is how many bytes it has: at most 15 less
 * than `max_sysex`, as that is taken, and so at most MIDICI_PE_CHUNK_LEN; the rest of `out` keeps its bytes. With each call
 * all bytes of the body are asked, whichever chunk is written: to cut a list chunk by chunk takes time that grows with the
 * square of the list. midici_pe_split asks them once, so it is the one to call where there is room for all chunks.
 * Refusals: those of midici_pe_chunk_count; 29 chunk_num is 0 or above the count; 3 `out` is too short. `out` is then as it
 * was. */
midici_pe_answer midici_pe_split_chunk(uint8_t request_id, const uint8_t *header, size_t header_len, const uint8_t *body,
                                       size_t body_len, uint32_t max_sysex, uint16_t chunk_num, uint8_t *out,
                                       size_t out_len);

/* Writes a message into `out`: a CI header (device 7F, kind `sub_id2`, version 2, source, destination) and a chunk of the
 * given fields. `count` is how many bytes it has, 22 + header_len + property_len; the rest of `out` keeps its bytes.
 * The kinds that carry a chunk are 34 to 39 and 3F (hexadecimal). num_chunks 0 means that it is not known yet.
 * To send a chunk that was cut, write a message with an empty chunk (1 of 1, no header, no property); behind its first
 * MIDICI_PE_CI_HEADER_LEN bytes put the chunk of midici_pe_split, or let midici_pe_split_chunk write there.
 * Refusals: 28 source or dest above 0FFFFFFF; 24 a kind that carries no chunk; 1 request_id above 7F, header_len,
 * property_len, num_chunks or chunk_num above 16,383, or a byte of the header or the property above 7F; 8 a header with a
 * chunk_num other than 1, or a chunk_num above num_chunks, if that is not 0; 3 `out` is too short. `out` is then as it
 * was. */
midici_pe_answer midici_pe_encode_message(uint8_t sub_id2, uint32_t source, uint32_t dest, uint8_t request_id,
                                          const uint8_t *header, size_t header_len, uint16_t num_chunks,
                                          uint16_t chunk_num, const uint8_t *property, size_t property_len, uint8_t *out,
                                          size_t out_len);

/* ---- Sending by turns ---- */

/* A stage lets up to 16 lists leave by turns, a chunk of each, so that a long list does not block a short one. Each of its
 * places, 0 to 15, holds one list that is being cut, or none. */
#define MIDICI_PE_STAGE_PLACES 16

/* Its memory is one slice of at least so many uint64_t; a longer one is fine, and what is past the length is never touched.
 * midici_pe_stage_new makes a stage in it. From then on only the calls below may write it; you may move or copy a stage
 * between calls.
 *
 * A stage holds no bytes of a list. It notes where they lie in a buffer of yours, which is lent with every join and turn:
 * there a list's header and body have to stand unchanged until its last chunk has left. A turn cuts what it finds there,
 * and cannot see whether that is what joined.
 *
 * Where only joins and turns have changed a stage since it was made, a list that waits is served within 16 turns, whatever
 * joins meanwhile; turns that are refused do not count. Where a list's bytes have stayed besides, its chunks leave complete
 * and in the order of their numbers, and a turn that comes to it is not refused if the list lies within the buffer and
 * `out` has room for its chunk.
 *
 * In memory that something else has written, stored numbers are taken as they are; no call goes beyond the lent slices for
 * it. What helps is midici_pe_stage_new. */
#define MIDICI_PE_STAGE_LEN 113

/* A list that is to leave: its header is the `header_len` bytes of the buffer from byte `header_at` on, counted from 0, its
 * body the `body_len` bytes from `body_at` on. Request id and limit are as for midici_pe_chunk_count. No number is cut
 * short: one that is too large is refused, and a limit above 16,384 is taken as that. */
typedef struct midici_pe_outgoing {
    uint64_t header_at;
    uint64_t header_len;
    uint64_t body_at;
    uint64_t body_len;
    uint64_t request_id;
    uint64_t max_sysex;
} midici_pe_outgoing;

/* Makes an empty stage, of which the first turn asks place 0 first. Called again on the same memory, it makes a new stage,
 * and what waited is gone. `count` is 0.
 * Refusals: 30 `stage` is shorter than MIDICI_PE_STAGE_LEN. It is then as it was. */
midici_pe_answer midici_pe_stage_new(uint64_t *stage, size_t stage_len);

/* A list joins at a place. `count` is how many chunks will leave.
 * Refusals, in the order in which they are asked: 30 `stage` is too short; 38 `place` is above 15; 39 the list at this
 * place has not left yet; 30 the header or the body is not within the buffer, which is also so where its start and its
 * length have a sum above 2^64 - 1; then those of midici_pe_chunk_count. `stage` is then as it was. */
midici_pe_answer midici_pe_stage_join(uint64_t *stage, size_t stage_len, const uint8_t *buffer, size_t buffer_len,
                                      uint64_t place, midici_pe_outgoing list);

/* Writes the next chunk of the next list into `out`. That list is the first that waits, going round from the place behind
 * the one that was served last. The rest of `out` keeps its bytes. With the chunk whose number is the count the list has
 * left, and its place is free. Only where nobody waits is `handed` 0 without a refusal; everything is then as it was. With
 * each turn all bytes of the list are asked, as by midici_pe_split_chunk.
 * Refusals, in the order in which they are asked: 30 `stage` is too short; 30 the next list is not within the buffer; then
 * those of midici_pe_split_chunk. `stage` and `out` are then as they were. So a refused turn does not go on to the next
 * place: the lists behind wait until you mend it, with 3 by a longer `out` (MIDICI_PE_CHUNK_LEN bytes are always enough),
 * with 30, where `stage` is long enough, or 1 by the whole list's bytes back in the buffer, or else by
 * midici_pe_stage_new. */
midici_pe_turn midici_pe_stage_turn(uint64_t *stage, size_t stage_len, const uint8_t *buffer, size_t buffer_len,
                                    uint8_t *out, size_t out_len);

/* ---- Receiving ---- */

/* A table joins the chunks of up to `max_peers` peers, with up to four open lists each. Its shape is four numbers, given
 * again with every call, always the same. */
typedef struct midici_pe_shape {
    size_t max_peers;        /* 0 to 16 */
    size_t header_bytes;     /* room for the header of one list, 0 to 4,096 */
    size_t tx_bytes;         /* room for the body of one list, 0 to 65,536 */
    size_t fragment_records; /* how many chunks one open list can hold, 0 to 2,048 */
} midici_pe_shape;

/* Its memory is four slices of at least the lengths below; longer ones are fine, and what is past the length is never
 * touched. midici_pe_new makes a table in them. From then on only the calls below may write them; you may move or copy a
 * table between calls. Every call is lent just the slices that it needs.
 *
 * A call that names another shape is not one on this table, and what it leaves may be no table of either shape. So it is
 * with memory that was never given to midici_pe_new, or that somebody else wrote. Feeding asks whether the one list that it
 * reaches can be what calls leave, and answers 31 where it cannot (or 7 or 6 before, where every place looks taken). It
 * does not see every such change, and the other calls take what is stored as it is; no call goes beyond the lent slices for
 * it. What helps is midici_pe_new, and nothing else. */
#define MIDICI_PE_NUMBERS_LEN(max_peers) ((size_t)1 + (size_t)38 * (max_peers))                         /* uint64_t */
#define MIDICI_PE_INDEX_LEN(max_peers, fragment_records) ((size_t)4 * (max_peers) * (fragment_records)) /* uint64_t */
#define MIDICI_PE_HEADERS_LEN(max_peers, header_bytes) ((size_t)4 * (max_peers) * (header_bytes))       /* uint8_t */
#define MIDICI_PE_ARENAS_LEN(max_peers, tx_bytes) ((size_t)4 * (max_peers) * (tx_bytes))                /* uint8_t */

/* The least length of each output of a poll and of an open list. */
#define MIDICI_PE_PLACES(max_peers) ((size_t)4 * (max_peers))

/* The full size. */
#define MIDICI_PE_MAX_PEERS 16
#define MIDICI_PE_HEADER_BYTES 4096
#define MIDICI_PE_TX_BYTES 65536
#define MIDICI_PE_FRAGMENT_RECORDS 2048

/* A list that gets no chunk for so many milliseconds is closed by the next poll. */
#define MIDICI_PE_TIMEOUT_MS 3000

/* Makes an empty table. It writes `numbers` and `index`; `headers` and `arenas` are measured and keep their bytes. Called
 * again on the same memory, it makes a new table, and what was open is gone. `count` is 0.
 * Refusals: 30. Everything is then as it was. */
midici_pe_answer midici_pe_new(midici_pe_shape shape, uint64_t *numbers, size_t numbers_len, uint64_t *index,
                               size_t index_len, const uint8_t *headers, size_t headers_len, const uint8_t *arenas,
                               size_t arenas_len);

/* Feeds a chunk that came from a peer at the time `now_ms`, in milliseconds of a clock of yours. The list is complete with
 * the chunk that leaves its count known and each number from 1 to the count held. Then `whole` is 1, the header stands in
 * out_header, the body in out_body, in the order of chunk numbers, and the list is closed. A chunk may leave its count open
 * (0). A stray chunk, numbered above the count, is turned down, and the list goes on. out_header has at least header_bytes
 * elements, out_body at least tx_bytes. Past the list, and with any other answer, both outputs keep their bytes.
 * Refusals that leave everything as it was: 30; 28 peer above 0FFFFFFF; 2, 1 and 8 bytes that are no chunk (1 also for a
 * property byte above 7F, 8 for a header on a chunk other than the first, and for a number above the chunk's own count); 7;
 * 6; 31.
 * Refusals of a chunk that reached its list, in the order in which they are asked; the first no is the answer:
 *   4 a header longer than header_bytes; 8 another header than before; 8 another count than before;
 *   8 a chunk number above the count that is known; 8 a first count below a chunk number that is held;
 *   8 chunk number 0, and the list is closed; 8 a chunk that is there already;
 *   5 no record for another chunk; 5 a body longer than tx_bytes, and the list is closed.
 * The list has then been opened, if it was not open, its time is now_ms, and it may have taken the chunk's header, and its
 * count where that was not refused, but not its bytes. But for the two cases named it stays open and keeps what it holds:
 * so also where a chunk with number 0 has another count or one below a number that is held, or one that makes the body too
 * long is above the count, is there already or finds no record. */
midici_pe_fed midici_pe_feed(midici_pe_shape shape, uint64_t *numbers, size_t numbers_len, uint64_t *index,
                             size_t index_len, uint8_t *headers, size_t headers_len, uint8_t *arenas, size_t arenas_len,
                             uint32_t peer, const uint8_t *raw_chunk, size_t raw_chunk_len, uint64_t now_ms,
                             uint8_t *out_header, size_t out_header_len, uint8_t *out_body, size_t out_body_len);

/* Feeds the chunk of a whole message (without F0 and F7) as one from its source. The destination is not looked at: a
 * message for somebody else is yours to sort out before.
 * Refusals: 30; then 21, 22, 23, 26 and 24 (`value` is the kind), which leave everything as it was; then those of
 * midici_pe_feed, with what they leave, but 28: a source has 28 bits. */
midici_pe_fed midici_pe_feed_message(midici_pe_shape shape, uint64_t *numbers, size_t numbers_len, uint64_t *index,
                                     size_t index_len, uint8_t *headers, size_t headers_len, uint8_t *arenas,
                                     size_t arenas_len, const uint8_t *body, size_t body_len, uint64_t now_ms,
                                     uint8_t *out_header, size_t out_header_len, uint8_t *out_body,
                                     size_t out_body_len);

/* Closes the list that a peer has open with a request id (any byte). `count` is 1 if there was one, else 0.
 * Refusals: 30; 28 peer above 0FFFFFFF. Everything is then as it was. */
midici_pe_answer midici_pe_cancel(midici_pe_shape shape, uint64_t *numbers, size_t numbers_len, uint32_t peer,
                                  uint8_t request_id);

/* Closes all lists of a peer and frees its record. `count` is how many were open.
 * Refusals: 30; 28 peer above 0FFFFFFF. Everything is then as it was. */
midici_pe_answer midici_pe_drop_peer(midici_pe_shape shape, uint64_t *numbers, size_t numbers_len, uint32_t peer);

/* Closes each list that no chunk has reached for MIDICI_PE_TIMEOUT_MS or more. A list whose time lies after now_ms (the
 * clock went back) stays open; the others are judged as ever. `count` is how many are closed. Peer and request id of each
 * stand at the same place of the two outputs, in the order in which their last chunks reached them; refused chunks that
 * reached a list count too. The outputs have at least MIDICI_PE_PLACES(max_peers) elements; places past the count keep
 * their values.
 * Refusals: 30, also for a short output. Everything is then as it was. */
midici_pe_answer midici_pe_poll(midici_pe_shape shape, uint64_t *numbers, size_t numbers_len, uint64_t now_ms,
                                uint64_t *out_peers, size_t out_peers_len, uint64_t *out_request_ids,
                                size_t out_request_ids_len);

/* Lists the open lists, oldest on top: peer, request id and how many chunks it holds stand at the same place of the three
 * outputs. `count` is how many there are. The outputs have at least MIDICI_PE_PLACES(max_peers) elements; places past the
 * count keep their values. The table stays as it is.
 * Their order is lowest tick, then lowest peer, then lowest request id, then place in memory. The tick of a list is set by
 * each chunk that reaches it, also by one that is refused there, to one above the last tick: so the list whose last chunk
 * came first stands on top, whatever times the calls name. Ticks are held at 2^64 - 1, and then peer and request id decide.
 * Place decides only in memory that something else has written: calls leave no two open lists with the same peer and
 * request id.
 * Refusals: 30, also for a short output. Everything is then as it was. */
midici_pe_answer midici_pe_open_list(midici_pe_shape shape, const uint64_t *numbers, size_t numbers_len,
                                     uint64_t *out_peers, size_t out_peers_len, uint64_t *out_request_ids,
                                     size_t out_request_ids_len, uint64_t *out_chunks_held, size_t out_chunks_held_len);

/* What the table takes and holds: reserved_bytes as midici_pe_reserved_bytes counts it; active_bytes, the header and body
 * bytes of all open lists and 8 for each chunk held; active_slots, how many lists are open. Nothing is written.
 * Refusals: 30. */
midici_pe_stats midici_pe_memory_stats(midici_pe_shape shape, const uint64_t *numbers, size_t numbers_len);

/* `count` is how many bytes the rooms of a table take, 4 * max_peers * (header_bytes + tx_bytes + 8 * fragment_records):
 * its index, headers and arenas.
 * Refusals: 30. */
midici_pe_answer midici_pe_reserved_bytes(midici_pe_shape shape);

/* ---- Files ---- */

/* Lists the messages of a .syx file, in the order of the file. `file` is the whole file in memory, of any length. A message
 * is F0, a body of bytes up to 7F (it may be empty), and F7. Message i, counted from 0, is told at element i of the two
 * outputs: places[i] is how many bytes of the file stand before its body, its F0 the last of them, and lengths[i] how many
 * bytes the body has, F0 and F7 not counted. So `file + places[i]` and `lengths[i]` are just what midici_pe_feed_message
 * takes, which refuses a body that is no CI message with a chunk.
 *   - A message that meets the file's end, or a byte above 7F other than F7 (also a real-time byte, F8 to FF), is torn: it
 *     is counted in `torn`, and not listed. If that byte is F0, the next message starts there.
 *   - Bytes outside of messages are dropped: those before the first F0, and those from the end of a message, whole or
 *     torn, to the next F0. An F7 among them is dropped too.
 *   - What stands before an F0 changes nothing of the messages from it on.
 * Each output must hold all messages; the two may have different lengths. A file of n bytes has at most n / 2 messages, for
 * each has an F0 and an F7 of its own: n / 2 elements are always enough. Elements past `messages` keep their values.
 * Refusals: 32 an output is too short. Both outputs are then as they were, and `messages` is 0: a call with short outputs
 * does not tell how many there are. */
midici_pe_syx midici_pe_syx_list(const uint8_t *file, size_t file_len, uint64_t *places, size_t places_len,
                                 uint64_t *lengths, size_t lengths_len);

/* ---- Headers ---- */

/* Finds the value that a header has for a name; that of the name `resource` says which resource a list belongs to. The
 * header, of at most 4,096 bytes, is read as one flat JSON object (RFC 8259): any number of names, each with a value. A
 * name is a string with JSON's escapes. A value is such a string, a whole number from 0 to 65,535 without leading zeros,
 * true, false or null. JSON's white space (20, 09, 0A and 0D) may stand around the object, and around each part of it.
 *   - Where the header has the name, `kind` is its value's kind, and the value is the `length` bytes from `header + place`
 *     on, as the header has them: a string without its quotes (it may be empty), its escapes left as they stand.
 *   - Where it has not, `kind` is MIDICI_PE_ABSENT, and `place` and `length` are 0.
 *   - The header's names are compared as 16-bit units, escapes resolved: "\u0061b" is the name ab. Each \u escape is one
 *     unit, so a surrogate pair is two. Each byte of the given name is a unit as it stands, a backslash too.
 *   - A given name with a byte above 7F is absent, whatever escapes the header has: \u00E9 is not found with the byte E9.
 * Nothing is written.
 * Refusals, in this order, whatever the given name is: 33 the header has more than 4,096 bytes; 34 it is no such object,
 * because of an array or another object as a value, a minus sign, a fraction, an exponent, a number above 65,535, a byte
 * below 20 in a string (7F may stand there), a byte above 7F anywhere, or anything else; 35 a name stands in it twice,
 * escapes resolved. */
midici_pe_found midici_pe_header_find(const uint8_t *header, size_t header_len, const uint8_t *name, size_t name_len);

#ifdef __cplusplus
}
#endif

#endif
