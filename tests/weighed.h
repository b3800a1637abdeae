/* weighed.h: what boats weigh by the sheets in a register's memory, summed anew, beside the weights that it keeps. */
#ifndef WILLOWBLINK_WEIGHED_H
#define WILLOWBLINK_WEIGHED_H

#include "willowblink.h"

/* The words of a sheet by their names in the header, so that nothing here goes by places of our own. */
wb_sheet sheet_by(const uint32_t *words);

/* Whether every weight that a memory keeps, of its entered hulls and its held drafts, is that of its sheet. */
int weights_right(const uint32_t *mem);

/* The slots of a memory, hulls and then desks, by one number: where the sheet of each stands, after its weight. */
#define SLOTS (WB_HULLS + WB_DESKS)
uint32_t sheet_at(uint32_t slot);

/* Puts the weight of a slot's sheet before it, in 32 bits. */
void weigh_slot(uint32_t *mem, uint32_t slot);

#endif
