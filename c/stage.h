/* A stage of lent slices, each call on it, and what the model says of each call, for memory of any contents. As with a
 * table (table.h) the model works on the kept copies of the slices. */
#ifndef STAGE_H
#define STAGE_H

#include "table.h"

/* A stage's memory, the buffer that its lists lie in, and the output of its turns. */
enum { STAGE, BUFFER, OUT, STAGE_LENT };

struct stage {
    struct lent lent[STAGE_LENT];
};

/* All slices of a stage at once; `stage_elements` counts uint64_t. */
void stage_make(struct stage *stage, size_t stage_elements, size_t buffer_len, size_t out_len);
void stage_free(struct stage *stage);
void stage_keep(struct stage *stage);
bool stage_same(const struct stage *stage);
bool stage_guarded(const struct stage *stage);

/* ---- The calls ---- */

midici_pe_answer model_stage_new(struct stage *stage);
static inline midici_pe_answer stage_new(struct stage *stage) { return midici_pe_stage_new(WORDS(stage, STAGE)); }

midici_pe_answer model_stage_join(struct stage *stage, uint64_t place, midici_pe_outgoing list);
static inline midici_pe_answer stage_join(struct stage *stage, uint64_t place, midici_pe_outgoing list)
{
    return midici_pe_stage_join(WORDS(stage, STAGE), BYTES(stage, BUFFER), place, list);
}

midici_pe_turn model_stage_turn(struct stage *stage);
static inline midici_pe_turn stage_turn(struct stage *stage)
{
    return midici_pe_stage_turn(WORDS(stage, STAGE), BYTES(stage, BUFFER), BYTES(stage, OUT));
}

/* ---- A row for each call ---- */

/* What joins; the other calls take nothing of it. */
struct joining {
    uint64_t place;
    midici_pe_outgoing list;
};

/* The call and its model, and the slices that it is lent (a bit each). */
struct stage_call {
    const char *name;
    struct told (*made)(struct stage *, const struct joining *);
    struct told (*model)(struct stage *, const struct joining *);
    int lent;
};

enum { STAGE_NEW, STAGE_JOIN, STAGE_TURN, STAGE_CALLS };

extern const struct stage_call stage_calls[STAGE_CALLS];

/* What a turn answers. */
struct told told_turn(midici_pe_turn turn);

#endif
