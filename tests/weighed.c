/* weighed.c: see weighed.h. */
#include "weighed.h"

#include "layout.h"
#include "material.h"

#include <string.h>

wb_sheet sheet_by(const uint32_t *words)
{
    wb_sheet sheet = {0};
    memcpy(numbers_of(&sheet) + 1, words, sizeof sheet - 4);
    return sheet;
}

static uint64_t grams_in(const uint32_t *mem, uint32_t slot)
{
    wb_sheet sheet = sheet_by(mem + sheet_at(slot));
    return grams_of(&sheet);
}

uint32_t sheet_at(uint32_t slot)
{
    return slot < WB_HULLS ? HULL_SHEET_AT(slot) : DRAFT_SHEET_AT(slot - WB_HULLS);
}

/* Whether a slot is in use, so that its words are judged. */
static int in_use(const uint32_t *mem, uint32_t slot)
{
    return slot < WB_HULLS ? slot < mem[0] : mem[DESK_AT(slot - WB_HULLS)] == 1;
}

int weights_right(const uint32_t *mem)
{
    for (uint32_t slot = 0; slot < SLOTS; slot++)
        if (in_use(mem, slot) && mem[sheet_at(slot) - 1] != grams_in(mem, slot))
            return 0;
    return 1;
}

void weigh_slot(uint32_t *mem, uint32_t slot)
{
    mem[sheet_at(slot) - 1] = (uint32_t)grams_in(mem, slot);
}
