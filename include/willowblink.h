/*
 * willowblink.h: the capacity plates of small boats, and the register of hull sheets that they are worked from.
 *
 * Every call takes any numbers, any bytes and any lengths, and gives a settled answer. It refuses what is bad by the number of a wb_refusal and then
 * leaves every byte that it was lent as it stood. It keeps nothing between calls, allocates nothing, and touches nothing but what it is lent; what is
 * lent as const is only read.
 *
 * A slice is a pointer and its length, in elements; the length is no more than what is there. No pointer is null, neither a slice's, also where its
 * length is 0, nor a wb_sheet *, and each is aligned as its type asks. Buffers that are lent to one call must not overlap.
 *
 * A call that may change a register needs it alone; those that only read it, whose mem is const, may run side by side. The caller locks. Between calls
 * the register's words must stay as they are.
 *
 * The archive is for x86-64 Linux. The calls are proved to do what docs/PROMISES.md says; docs/RULES.md has the rules, docs/REGISTER.md the layout of the
 * register's memory. Plates A and U, of a hull and as a trial, take at most 128 bytes of stack, and plate C 160: that is measured, not proved.
 */
#ifndef WILLOWBLINK_H
#define WILLOWBLINK_H

#include <stddef.h>
#include <stdint.h>

#ifdef __cplusplus
extern "C" {
#endif

/*
 * The size of a register's memory, in words of 32 bits. It is that of version 4: registers of versions 2 and 3 had 2249
 * words, those of version 1 had 1673, and both are refused with 1 for their size.
 */
#define WB_REGISTER_WORDS 2273

/* Hulls are numbered 0 to 15 in the order in which they were entered, desks 0 to 7, fitting lines 1 to 24. */
#define WB_HULLS 16
#define WB_DESKS 8
#define WB_FITTINGS 24

/* The most engine rows that there may be, and the longest text that a sheet can have, in bytes. */
#define WB_ENGINE_ROWS 40
#define WB_SHEET_TEXT 658

/* A text of more bytes, of a sheet or of engine rows, is refused with 2 before any of it is read, and its place is 0 and 0. */
#define WB_MOST_TEXT 4096

/*
 * A sheet's text is these lines in this order, with the members of a wb_sheet. One tab, here a space, stands between two fields, one line feed ends each
 * line, the last too, and there is nothing else.
 *
 *     HULL hull
 *     FORM length reference transom_width transom_height flat remote
 *     STN Q b q r s t u v          then R, S and T alike
 *     VOL aft well flooding
 *     MASS bare fuel machinery
 *     PWR outboard declared
 *     SEAT positions tested        tested is written - where it is 0
 *     FIT line weight count        one for each fitting, line 1..24, rising; none where there is no fitting
 *     END
 *
 * A FIT line may also end after its weight: it is then read as one with a count of 1, and written with it. Both kinds may stand in one text.
 *
 * Engine rows are a text of their own: 1 to 40 lines ENG power weight, the powers rising, power 1..200000, weight 0..1000000. A number has 1 to
 * 10 digits, and only 0 itself starts with 0.
 *
 * The first fault from the left and top is answered with its place: the line, and the byte in that line, both counted from 1. Line feeds alone end
 * lines, and each belongs to the line that it ends. At a number the form, with the tab or line feed that must end it, is judged before the limits.
 *
 *     2    the first byte up to and with which no text of such lines begins, whatever its numbers: a digit after a leading 0, an eleventh digit, a
 *          carriage return, the F of a 25th FIT line, whatever follows END's line. Where the text stops early, the place after its last byte, which
 *          after a line feed is byte 1 of the next line
 *     3    the first byte of the number that is outside its limits, or not above the one before; where a fitting's weight times its count is above
 *          500000, that is the count
 */

/* Why a call was refused. */
typedef enum wb_refusal {
    WB_ACCEPTED = 0,
    WB_BAD_MEMORY = 1,      /* the memory: another size, a number that no register has, or a weight not its sheet's */
    WB_BROKEN_LINE = 2,     /* a text breaks the line rules; first and second are the place, or 0 and 0 where it is too long */
    WB_OUTSIDE_LIMITS = 3,  /* a number, or a fitting's weight times its count, is outside its limits; of a text first and second are the place */
    WB_FULL = 4,            /* sixteen hulls are entered */
    WB_NO_HULL = 5,         /* no such hull */
    WB_NO_DESK = 6,         /* a desk above 7 */
    WB_NO_DRAFT = 7,        /* the desk holds no draft */
    WB_EDITED_SINCE = 8,    /* the hull has been saved since the draft was opened */
    WB_EDITS_SPENT = 9,     /* the hull's edit number is 65,535 */
    WB_BAD_ROWS = 10,       /* engine rows: none, more than 40, slices of two lengths, powers that do not rise, or a number outside its limits */
    WB_NO_ROW = 11,         /* no engine row reaches the declared power */
    WB_NO_LOAD = 12,        /* the marked load would be below 1, in kilograms on plates A and C, in pounds on plate U */
    WB_NO_POWER = 13,       /* a flat-bottomed outboard too small for the power table */
    WB_UNTESTED = 14,       /* tested persons are wanted and missing */
    WB_NO_PERSONS = 15,     /* persons would be below 1 */
    WB_NO_ROOM = 16,        /* what is lent to write to is too short */
    WB_EMPTY_LINE = 17      /* there is no fitting on that line */
} wb_refusal;

/*
 * What a call answers: WB_ACCEPTED and the figures that the call names, or a refusal. A refusal 2 or 3 of a text has its place, the line in first and the
 * byte in second. Figures that are not named are 0, and so are those of every other refusal. "Done" names none.
 */
typedef struct wb_answer {
    uint32_t refusal; /* a wb_refusal */
    uint32_t first;
    uint32_t second;
    uint32_t third;
} wb_answer;

/* A station's readings, in millimetres: B, then q r s t u v. */
typedef struct wb_station {
    uint32_t b, q, r, s, t, u, v;
} wb_station;

/* A fitting line: count pieces of weight grams each, which together weigh at most 500000; both are 0 if the line is empty, and neither alone. */
typedef struct wb_fitting {
    uint32_t weight; /* of one piece, 1..500000 */
    uint32_t count;  /* 1..99 */
} wb_fitting;

/* A sheet: its 93 numbers in the order of its text. In millimetres, grams, cubic centimetres and watts. */
typedef struct wb_sheet {
    uint32_t hull;               /* 0..15 */
    uint32_t length;             /* 2000..6000 */
    uint32_t reference;          /* 2000..6000, not above length */
    uint32_t transom_width;      /* 500..3000 */
    uint32_t transom_height;     /* 200..900 */
    uint32_t flat;               /* 0..1; 1: flat bottom with hard chine */
    uint32_t remote;             /* 0..1; 1: remote steering */
    wb_station station[4];       /* Q, R, S, T: B 0..4000, the others 0..2500 */
    uint32_t aft;                /* volume of the aft structure, 0..5000000 */
    uint32_t well;               /* of the motor well, 0..5000000 */
    uint32_t flooding;           /* of the flooding chambers, 0..5000000 */
    uint32_t bare;               /* bare boat, 1..2000000 */
    uint32_t fuel;               /* permanent tanks with fuel, 0..500000 */
    uint32_t machinery;          /* installed machinery, 0..500000 */
    uint32_t outboard;           /* 0..1; 1: outboard, 0: inboard or stern-drive */
    uint32_t declared;           /* declared power, 0..200000 */
    uint32_t positions;          /* designated positions, 1..24 */
    uint32_t tested;             /* persons for which it was tested, 1..24, or 0 for none */
    wb_fitting fitting[WB_FITTINGS]; /* what is on line i + 1 */
} wb_sheet;

/*
 * ---- the register; mem is WB_REGISTER_WORDS words, and any other length is refused with 1 ----
 *
 * Here and below, refusals stand in the order in which they are judged. What a call leaves alone is said of one that is accepted; a refused one leaves
 * everything. No call writes a word besides those that it is said to.
 *
 * Beside every sheet, of a hull and of a draft, the register keeps what the boat weighs by it, in grams: the bare boat
 * and all fittings, each line its weight times its count; tanks, fuel and machinery are not in it. A call that writes a
 * sheet or a line of one writes the weight too. It is in no text and in no wb_sheet. Where a weight that is kept is not
 * that of its sheet, every call but fresh start refuses the memory with 1; in the words of hulls not entered and of
 * desks without a draft, but for the word that says so, anything may stand.
 */

/*
 * Fresh start: no hulls and no drafts. Every word becomes 0, whatever it was; none is left.
 * Answers: done. Refuses: 1 for a wrong size, and nothing else.
 */
wb_answer wb_fresh(uint32_t *mem, size_t mem_len);

/*
 * Enters a hull from the text of a sheet, with edit number 0 and the weight of that sheet. The text's HULL number is
 * judged and then ignored. The other hulls and all drafts are left alone.
 * Answers: first is the hull's number. Refuses: 1; 4; 2 or 3 with the place of the text's first fault.
 */
wb_answer wb_new_hull(uint32_t *mem, size_t mem_len, const uint8_t *text, size_t text_len);

/*
 * Opens a hull at a desk: the desk's draft is then a copy of the hull's sheet and weight. A draft that the desk held is
 * discarded, unless this call is refused. The hulls and the other desks' drafts are left alone.
 * Answers: first is the hull's edit number. Refuses: 1, 6, 5.
 */
wb_answer wb_open(uint32_t *mem, size_t mem_len, uint32_t desk, uint32_t hull);

/*
 * Sets a line of the desk's draft to count pieces of weight grams each, in place of what is there; with weight 0 and
 * count 0 it empties the line. The draft's weight moves by the difference. The rest of the draft, the hulls and the
 * other drafts are left alone.
 * Answers: done. Refuses: 1, 6, 7; 3 for a line outside 1..24, for just one of weight and count being 0, a weight above 500000, a count above 99, or a
 * weight times count above 500000; then 17 for emptying a line that is empty.
 */
wb_answer wb_set_fitting(uint32_t *mem, size_t mem_len, uint32_t desk, uint32_t line, uint32_t weight, uint32_t count);

/*
 * Makes the desk's draft the sheet of a text, with the weight of that sheet. The text's HULL number is judged and then
 * ignored: the draft is of the hull that it was of, opened at the edit number that it was. The hulls and the other
 * drafts are left alone.
 * Answers: done. Refuses: 1, 6, 7; 2 or 3 with the place of the text's first fault.
 */
wb_answer wb_replace(uint32_t *mem, size_t mem_len, uint32_t desk, const uint8_t *text, size_t text_len);

/*
 * Plate A of the desk's draft, as a trial. The memory is only read.
 * Answers: first is the load in kilograms, second the power in watts, 0 for an inboard. Refuses: 1, 6, 7; 12, 13.
 */
wb_answer wb_trial_a(const uint32_t *mem, size_t mem_len, uint32_t desk);

/*
 * Plate C of the desk's draft, as a trial, with engine rows in two slices of equal length, which are judged whether or not there is an engine to weigh.
 * The memory is only read.
 * Answers: first is the load in kilograms, second the persons. Refuses: 1, 6, 7; 10, 12, 11, 14, 15.
 */
wb_answer wb_trial_c(const uint32_t *mem, size_t mem_len, uint32_t desk, const uint32_t *powers, size_t powers_len, const uint32_t *weights,
                     size_t weights_len);

/*
 * Plate U of the desk's draft, as a trial. The memory is only read.
 * Answers: first is the load in whole pounds of 453.59237 g. Refuses: 1, 6, 7; 12.
 */
wb_answer wb_trial_u(const uint32_t *mem, size_t mem_len, uint32_t desk);

/*
 * Saves the desk's draft as its hull's sheet and weight, even if nothing differs, and ends the draft; refused, it
 * leaves the draft. The other hulls and the other drafts are left alone, those of the same hull too: their saves are
 * then refused with 8.
 * Answers: first is the hull's edit number, which is one more than before. Refuses: 1, 6, 7; 8, then 9.
 */
wb_answer wb_save(uint32_t *mem, size_t mem_len, uint32_t desk);

/*
 * Ends the desk's draft. The hulls and the other drafts are left alone.
 * Answers: done. Refuses: 1, 6, 7.
 */
wb_answer wb_drop(uint32_t *mem, size_t mem_len, uint32_t desk);

/*
 * Plate A of a hull. The memory is only read.
 * Answers: first is the load in kilograms, second the power in watts, 0 for an inboard. Refuses: 1, 5; 12, 13.
 */
wb_answer wb_plate_a(const uint32_t *mem, size_t mem_len, uint32_t hull);

/*
 * Plate C of a hull, with engine rows in two slices of equal length, which are judged whether or not there is an engine to weigh. The memory is only
 * read.
 * Answers: first is the load in kilograms, second the persons. Refuses: 1, 5; 10, 12, 11, 14, 15.
 */
wb_answer wb_plate_c(const uint32_t *mem, size_t mem_len, uint32_t hull, const uint32_t *powers, size_t powers_len, const uint32_t *weights,
                     size_t weights_len);

/*
 * Plate U of a hull. The memory is only read.
 * Answers: first is the load in whole pounds of 453.59237 g. Refuses: 1, 5; 12.
 */
wb_answer wb_plate_u(const uint32_t *mem, size_t mem_len, uint32_t hull);

/*
 * What a hull's boat weighs, as the register keeps it beside the hull's sheet. A draft counts once it is saved. The
 * memory is only read.
 * Answers: first is the weight in grams, 1..14000000: the bare boat and all fittings. Refuses: 1, 5.
 */
wb_answer wb_weight(const uint32_t *mem, size_t mem_len, uint32_t hull);

/*
 * Writes the text of a hull's sheet, with the register's number, from the start of out. Bytes of out after the text are left alone, and the text is
 * not ended by a 0. WB_SHEET_TEXT bytes are always room enough. The memory is only read.
 * Answers: first is how many bytes were written. Refuses: 1, 5; 16 where out is shorter than the text.
 */
wb_answer wb_write_hull(const uint32_t *mem, size_t mem_len, uint32_t hull, uint8_t *out, size_t out_len);

/* ---- texts, without a register ---- */

/*
 * Reads a sheet from its text, the HULL number too. All 93 numbers of sheet are written; the text is only read.
 * Answers: done. Refuses: 2 or 3 with the place of the text's first fault.
 */
wb_answer wb_read_sheet(const uint8_t *text, size_t text_len, wb_sheet *sheet);

/*
 * Writes a sheet's one text from the start of out, each FIT line with its count. Reading it gives the same sheet. Writing what was read gives the text
 * that was read, with a tab and 1 before the line feed of each FIT line that has no count. Bytes of out after the text are left alone, and the text is
 * not ended by a 0. WB_SHEET_TEXT bytes are always room enough. The sheet is only read.
 * Answers: first is how many bytes were written. Refuses: 3 for a sheet outside the limits; 16 where out is shorter than the text.
 */
wb_answer wb_write_sheet(const wb_sheet *sheet, uint8_t *out, size_t out_len);

/*
 * Reads engine rows from their text into the starts of two slices. Elements after the rows are left alone; WB_ENGINE_ROWS are always room enough. The
 * text is only read.
 * Answers: first is how many rows there are. Refuses: 2 or 3 with the place of the text's first fault; 16 where either slice is shorter than
 * the rows.
 */
wb_answer wb_read_engines(const uint8_t *text, size_t text_len, uint32_t *powers, size_t powers_len, uint32_t *weights, size_t weights_len);

#ifdef __cplusplus
}
#endif

#endif
