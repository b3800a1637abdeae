/* layout.h: where things stand in a register's memory, as docs/REGISTER.md has it. For tests that change its words, and for the bench. */
#ifndef WILLOWBLINK_LAYOUT_H
#define WILLOWBLINK_LAYOUT_H

/*
 * A hull's words: its edit number, the boat's weight, then its sheet. A desk's: its mark, its draft's hull and opening
 * number, the boat's weight by the draft, then the draft's sheet.
 */
#define HULL_WORDS 94
#define DESK_WORDS 96

#define HULL_AT(hull) (1 + HULL_WORDS * (hull))
#define HULL_WEIGHT_AT(hull) (HULL_AT(hull) + 1)
#define HULL_SHEET_AT(hull) (HULL_AT(hull) + 2)

#define DESK_AT(desk) (1505 + DESK_WORDS * (desk))
#define DRAFT_WEIGHT_AT(desk) (DESK_AT(desk) + 3)
#define DRAFT_SHEET_AT(desk) (DESK_AT(desk) + 4)

/* The weight of a fitting line, 1 to 24, in a sheet, and the count after it; and those of a desk's draft. */
#define WEIGHT_IN_SHEET(line) (44 + 2 * ((line) - 1))
#define WEIGHT_AT(desk, line) (DRAFT_SHEET_AT(desk) + WEIGHT_IN_SHEET(line))
#define COUNT_AT(desk, line) (WEIGHT_AT(desk, line) + 1)

#endif
