/* water.h: a sheet of any water that is wanted, to the last unit of the rules. */
#ifndef WILLOWBLINK_WATER_H
#define WILLOWBLINK_WATER_H

#include "willowblink.h"

/* The rules count grams multiplied by this. */
#define GRAM ((int64_t)180000)

/*
 * Z of the sheet becomes this, from some 5 tonnes below nothing to 11 above, with the motor well and the flooding chambers that it has: by its reference
 * length, stations and aft structure, and by a larger motor well where those cannot make it so little.
 */
void set_water(wb_sheet *sheet, int64_t water);

#endif
