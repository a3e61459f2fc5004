/* What a fuzzer's bytes choose: what is lent, what it holds, and the arguments of calls. */
#ifndef FUZZ_H
#define FUZZ_H

#include "stage.h"

/* What is lent: a table's slices, a stage's, and those of the other calls. */
struct lending {
    struct table table;
    bool is_sound; /* the table was made by midici_pe_new, and nobody but calls has written it since */
    struct stage stage;
    struct lent header, body, out, places, lengths;
};

/* What is left of the fuzzer's bytes. */
struct input {
    const uint8_t *at;
    size_t left;
};

/* The next byte, 0 behind the last one. */
unsigned take(struct input *input);

/* A number of so many bytes. */
uint64_t take_bits(struct input *input, int bytes);

/* A number: most often a small one. */
uint64_t take_number(struct input *input);

/* A limit for messages: most often a small one, or one of two bytes. */
uint32_t take_limit(struct input *input);

/* A MUID: most often one of a few. */
uint32_t take_muid(struct input *input);

/* Puts a byte at one of `len` places: first the place is taken, then the byte. */
void put_any(struct input *input, uint8_t *bytes, size_t len);

/* A shape, and slices for it, filled with known bytes. */
struct lending *choose_lending(struct input *input);

/* Fills the table's memory with anything. */
void fill_table(struct input *input, struct table *table);

/* Any bytes. */
void choose_bytes(struct input *input, struct lent *bytes);

/* A chunk that can mostly be read and mostly goes with others, behind `before` bytes. Strays are among them, and counts
 * that come late. */
void choose_chunk(struct input *input, const struct table *table, struct lent *bytes, size_t before);

/* A header, a body and an output for the cutter and the writer. */
void choose_list(struct input *input, struct lending *lending);

/* Other outputs, for so many chunks of such a list: mostly long enough for all of them together. */
void choose_chunk_room(struct input *input, struct lending *lending, uint64_t chunks);

/* A file of whole and torn messages with dirt between them, in the place of a body, and the two columns for it. */
void choose_file(struct input *input, struct lending *lending);

/* A header that is mostly a flat JSON object, and a name, in the place of a body, that it mostly may have. */
void choose_header(struct input *input, struct lending *lending);

/* A stage, or anything in its place, and a buffer. */
void choose_stage(struct input *input, struct stage *stage);

/* A list that mostly lies within the buffer and can mostly be cut, a place, and an output. */
struct joining choose_joining(struct input *input, struct stage *stage);

/* Something else writes a word of the stage or a byte of the buffer. */
void damage_stage(struct input *input, struct stage *stage);

#endif
