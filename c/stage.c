/* A stage of lent slices. */
#include "stage.h"

void stage_make(struct stage *stage, size_t stage_elements, size_t buffer_len, size_t out_len)
{
    lent_make(&stage->lent[STAGE], 8 * stage_elements);
    lent_make(&stage->lent[BUFFER], buffer_len);
    lent_make(&stage->lent[OUT], out_len);
}

void stage_free(struct stage *stage)
{
    for (int i = 0; i < STAGE_LENT; i++)
        lent_free(&stage->lent[i]);
}

void stage_keep(struct stage *stage)
{
    for (int i = 0; i < STAGE_LENT; i++)
        lent_keep(&stage->lent[i]);
}

bool stage_same(const struct stage *stage)
{
    for (int i = 0; i < STAGE_LENT; i++)
        if (!lent_same_from(&stage->lent[i], 0))
            return false;
    return true;
}

bool stage_guarded(const struct stage *stage)
{
    for (int i = 0; i < STAGE_LENT; i++)
        if (!lent_guarded(&stage->lent[i]))
            return false;
    return true;
}
