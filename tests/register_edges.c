/* register_edges.c: memories with one word changed, wrong sizes, the last edit numbers, the order of the register's refusals, and fitting lines. */
#include "layout.h"
#include "material.h"
#include "memories.h"
#include "parts.h"
#include "random.h"
#include "steps.h"
#include "weighed.h"

#include <string.h>

static uint32_t *const mem = lent[MEMORY].words;

/* ---- one word changed ---- */

/* The place of a word in a sheet's numbers, where the weight stands for HULL and the words before it are below 0. */
static int number_at(uint32_t word)
{
    return (int)word - (int)sheet_at(slot_of(word)) + 1;
}

/* What one word of a memory of build may hold; free words may hold anything. A weight can only be what it is. */
static void limits_of(uint32_t word, uint32_t hulls, uint32_t drafts, uint32_t *low, uint32_t *high)
{
    uint32_t slot = slot_of(word);
    int number = number_at(word), of_hull = slot < WB_HULLS;
    *low = 0;
    if (word == 0)
        *high = WB_HULLS;
    else if (is_mark(word))
        *high = 1;
    else if (of_hull ? slot >= hulls : slot - WB_HULLS >= drafts)
        *high = 0xFFFFFFFF;
    else if (number == -2)
        *high = hulls - 1;
    else if (number == -1)
        *high = of_hull ? 65535 : 3;
    else if (number == 0)
        *low = *high = mem[word];
    else {
        *low = number == TESTED_NUMBER || number >= FIRST_FITTING ? 0 : lowest(number);
        *high = highest(number);
    }
}

/* The words whose limits hang on another word are left out here: how many hulls, edit numbers, lengths, fittings. */
static int alone(uint32_t word)
{
    int number = number_at(word), is_edit = number == -1 && slot_of(word) < WB_HULLS;
    return word != 0 && !is_edit && number != LENGTH_NUMBER && number != REFERENCE_NUMBER && number < FIRST_FITTING;
}

static void change_every_word(uint32_t hulls, uint32_t drafts)
{
    static uint32_t turn;
    build(hulls, drafts);
    lend_good_things();
    for (uint32_t word = 0; word < WB_REGISTER_WORDS; word++) {
        uint32_t low, high;
        limits_of(word, hulls, drafts, &low, &high);
        if (high < 0xFFFFFFFF) {
            spoil_word(word, high + 1);
            change_word(word, 0xFFFFFFFF, 0, turn++);
        }
        if (low > 0)
            spoil_word(word, low - 1);
        /* a desk's mark set to 1 makes a draft of what was free there */
        if ((high < 0xFFFFFFFF && !alone(word)) || (word >= DESK_AT(drafts) && is_mark(word)))
            continue;
        change_word(word, low, 1, turn++);
        change_word(word, high, 1, turn++);
        change_word(word, random_between(low, high), 1, turn++);
    }
}

/* Lengths, edit numbers and counts, against the words that they hang on. */
static void change_bound_words(void)
{
    build(16, 8);
    lend_good_things();
    for (uint32_t slot = 0; slot < SLOTS; slot++) {
        uint32_t length = sheet_at(slot), is = mem[length], reference = mem[length + 1];
        change_word(length + 1, is, 1, slot);
        spoil_word(length + 1, is + 1);
        change_word(length, reference, 1, slot + 2);
        spoil_word(length, reference - 1);
        if (slot >= WB_HULLS)
            continue;
        change_word(HULL_AT(slot), 2, 1, slot + 4);
        change_word(HULL_AT(slot), 1, slot == 0 || slot > 8, slot + 5); /* hulls 1 to 8 have drafts opened at 2 */
        change_word(0, slot, slot > 8, slot + 6);
        change_word(0, WB_HULLS + 1 + slot, 0, slot + 7);
    }
}

/* The two words of a fitting line, which hang on each other, in every slot and on every line. */
static void change_fittings(void)
{
    static const struct {
        uint32_t weight, count;
        int formed;
    } lines[] = {
        {0, 0, 1}, {1, 1, 1}, {1, 99, 1}, {500000, 1, 1}, {250000, 2, 1}, {5050, 99, 1}, {166666, 3, 1}, {0, 1, 0}, {0, 99, 0}, {1, 0, 0},
        {500000, 0, 0}, {1, 100, 0}, {500001, 1, 0}, {500000, 2, 0}, {250001, 2, 0}, {5051, 99, 0}, {166667, 3, 0}, {500000, 99, 0},
        /* products that 32 bits would take for 0, 2, 95 or 1 */
        {65536, 65536, 0}, {0x80000000, 2, 0}, {0x80000001, 2, 0}, {43383509, 99, 0}, {0xFFFFFFFF, 0xFFFFFFFF, 0},
    };
    uint32_t turn = 0;
    build(16, 8);
    lend_good_things();
    for (uint32_t slot = 0; slot < SLOTS; slot++)
        for (uint32_t line = 1; line <= WB_FITTINGS; line++) {
            uint32_t at = sheet_at(slot) + WEIGHT_IN_SHEET(line), is = mem[at];
            for (size_t i = 0; i < sizeof lines / sizeof *lines; i++) {
                mem[at] = lines[i].weight;
                change_word(at + 1, lines[i].count, lines[i].formed, turn++);
            }
            mem[at] = is;
        }
}

/* A seventeenth hull would stand where the desks are. It is refused also where the words of a free desk would make it a good one. */
static void try_seventeen_hulls(void)
{
    build(WB_HULLS, 0);
    lend_good_things();
    memcpy(mem + HULL_AT(WB_HULLS), mem + HULL_AT(0), HULL_WORDS * sizeof *mem);
    mem[HULL_AT(WB_HULLS)] = 0;
    for (uint32_t turn = 0; turn < JUDGING; turn++) {
        change_word(0, WB_HULLS + 1, 0, turn);
        change_word(0, WB_HULLS, 1, turn);
    }
}

/* ---- wrong sizes ---- */

static void try_wrong_sizes(void)
{
    /* 1673 had a register of version 1, and its hulls were the first 1105; 2249 had one of versions 2 and 3, of 1489 */
    static const uint32_t words[] = {0, 1, 2, 1105, 1489, DESK_AT(0) - 1, DESK_AT(0), 1673, 2248, 2249, 2272, 2274,
                                     2275, 4096, 4546};
    begin_part("memories of the wrong size");
    build(16, 8);
    lend_good_things();
    for (size_t i = 0; i < sizeof words / sizeof *words; i++) {
        lent[MEMORY].size = 4 * words[i];
        for (uint32_t turn = 0; turn < JUDGING; turn++)
            expect(attempt(judging_call(turn)), 1, 0, 0);
        expect(attempt((struct call){.kind = FRESH}), 1, 0, 0);
    }
}

/* Lengths of which only the lower half is right, or would do. */
static void try_far_lengths(void)
{
    static const enum buffer slices[][2] = {{POWERS, POWERS}, {WEIGHTS, WEIGHTS}, {POWERS, WEIGHTS}};
    begin_part("lengths above 32 bits at the register");
    build(15, 8);
    lend_good_things();
    for (uint32_t turn = 0; turn < JUDGING; turn++)
        expect_beyond(judging_call(turn), MEMORY, MEMORY, 1, 0);
    expect_beyond((struct call){.kind = FRESH}, MEMORY, MEMORY, 1, 0);
    expect_beyond((struct call){.kind = NEW_HULL}, TEXT, TEXT, 2, 0);
    expect_beyond((struct call){.kind = REPLACE}, TEXT, TEXT, 2, 0);
    for (size_t i = 0; i < sizeof slices / sizeof *slices; i++) {
        expect_beyond((struct call){.kind = PLATE_C}, slices[i][0], slices[i][1], 10, 0);
        expect_beyond((struct call){.kind = TRIAL_C}, slices[i][0], slices[i][1], 10, 0);
    }
    uint32_t size = attempt((struct call){.kind = WRITE_HULL}).first;
    lend_out(size);
    expect_beyond((struct call){.kind = WRITE_HULL}, OUT, OUT, 0, size);
}

/* ---- saves ---- */

static void try_last_edits(void)
{
    begin_part("the last edit numbers");
    build(3, 0);
    mem[HULL_AT(1)] = 65534;
    expect(attempt((struct call){.kind = OPEN, .desk = 4, .hull = 1}), 0, 65534, 0);
    expect(attempt((struct call){.kind = OPEN, .desk = 5, .hull = 1}), 0, 65534, 0);
    expect(attempt((struct call){.kind = SAVE, .desk = 4}), 0, 65535, 0);
    expect(attempt((struct call){.kind = SAVE, .desk = 5}), 8, 0, 0); /* and not 9 */
    expect(attempt((struct call){.kind = OPEN, .desk = 4, .hull = 1}), 0, 65535, 0);
    expect(attempt((struct call){.kind = SET_FITTING, .desk = 4, .line = 1, .weight = 1, .count = 1}), 0, 0, 0);
    expect(attempt((struct call){.kind = SAVE, .desk = 4}), 9, 0, 0);
    expect(attempt((struct call){.kind = SAVE, .desk = 4}), 9, 0, 0);
    expect(attempt((struct call){.kind = WEIGH, .hull = 1}), 0, mem[HULL_WEIGHT_AT(1)], 0);
    expect(attempt((struct call){.kind = DROP, .desk = 4}), 0, 0, 0);
    expect(attempt((struct call){.kind = SAVE, .desk = 4}), 7, 0, 0);
    expect(attempt((struct call){.kind = SAVE, .desk = 5}), 8, 0, 0);
}

/* The words of a draft stay where they are when it ends, but for its mark. */
static void try_ended_drafts(void)
{
    static uint32_t before[WB_REGISTER_WORDS];
    begin_part("drafts that end");
    build(2, 2);
    memcpy(before, mem, sizeof before);
    expect(attempt((struct call){.kind = DROP, .desk = 1}), 0, 0, 0);
    before[DESK_AT(1)] = 0;
    insist(memcmp(before, mem, sizeof before) == 0, "drop changed more than the desk's mark");
    expect(attempt((struct call){.kind = OPEN, .desk = 0, .hull = 1}), 0, 3, 0);
    expect(attempt((struct call){.kind = SET_FITTING, .desk = 0, .line = 24, .weight = 5050, .count = 99}), 0, 0, 0);
    memcpy(before, mem, sizeof before);
    expect(attempt((struct call){.kind = SAVE, .desk = 0}), 0, 4, 0);
    before[DESK_AT(0)] = 0;
    before[HULL_AT(1)] = 4;
    before[HULL_WEIGHT_AT(1)] = before[DRAFT_WEIGHT_AT(0)];
    before[HULL_SHEET_AT(1) + WEIGHT_IN_SHEET(24)] = 5050;
    before[HULL_SHEET_AT(1) + WEIGHT_IN_SHEET(24) + 1] = 99;
    insist(memcmp(before, mem, sizeof before) == 0, "save changed something else than the hull's slot and the desk's mark");
}

/* ---- the order of refusals ---- */

/* The text is empty: where it is refused with 2, that is at line 1, byte 1. */
static void expect_all(const struct call *calls, const uint32_t *refusals, size_t count)
{
    for (size_t i = 0; i < count; i++)
        expect(attempt(calls[i]), refusals[i], refusals[i] == 2, refusals[i] == 2);
}

/* Several things are wrong at once; texts, rows and outputs are all bad. */
static void try_order(void)
{
    static const struct call calls[] = {
        {OPEN, 8, 16, 0, 0, 0}, {OPEN, 0, 16, 0, 0, 0}, {SET_FITTING, 8, 0, 0, 0, 1}, {SET_FITTING, 7, 0, 0, 0, 1}, {SET_FITTING, 0, 0, 0, 1, 1},
        {SET_FITTING, 0, 0, 25, 1, 1}, {SET_FITTING, 0, 0, 1, 0, 1}, {SET_FITTING, 0, 0, 24, 500001, 1}, {SET_FITTING, 0, 0, 1, 1, 0},
        {SET_FITTING, 0, 0, 24, 1, 100}, {SET_FITTING, 0, 0, 1, 250001, 2}, {SET_FITTING, 8, 0, 0, 0, 0}, {SET_FITTING, 7, 0, 0, 0, 0},
        {SET_FITTING, 0, 0, 0, 0, 0}, {SET_FITTING, 0, 0, 25, 0, 0}, {REPLACE, 8, 0, 0, 0, 0}, {REPLACE, 7, 0, 0, 0, 0}, {REPLACE, 0, 0, 0, 0, 0},
        {TRIAL_A, 8, 0, 0, 0, 0}, {TRIAL_A, 7, 0, 0, 0, 0}, {TRIAL_C, 8, 0, 0, 0, 0}, {TRIAL_C, 7, 0, 0, 0, 0}, {TRIAL_C, 0, 0, 0, 0, 0},
        {TRIAL_U, 8, 0, 0, 0, 0}, {TRIAL_U, 7, 0, 0, 0, 0}, {SAVE, 8, 0, 0, 0, 0}, {SAVE, 7, 0, 0, 0, 0}, {SAVE, 0, 0, 0, 0, 0}, {DROP, 8, 0, 0, 0, 0},
        {DROP, 7, 0, 0, 0, 0}, {PLATE_A, 0, 16, 0, 0, 0}, {PLATE_C, 0, 16, 0, 0, 0}, {PLATE_C, 0, 15, 0, 0, 0}, {PLATE_U, 0, 16, 0, 0, 0},
        {WEIGH, 0, 16, 0, 0, 0}, {WRITE_HULL, 0, 16, 0, 0, 0}, {WRITE_HULL, 0, 15, 0, 0, 0},
        {NEW_HULL, 0, 0, 0, 0, 0},
    };
    static const uint32_t refusals[] = {6, 5, 6, 7, 3, 3, 3, 3, 3, 3, 3, 6, 7, 3, 3, 6, 7, 2, 6, 7, 6, 7, 10, 6, 7, 6,
                                        7, 8, 6, 7, 5, 5, 10, 5, 5, 5, 16, 4};
    /* words that are 2 too much: a mark, and weights */
    static const uint32_t spoilt[] = {DESK_AT(7), HULL_WEIGHT_AT(0), HULL_WEIGHT_AT(15), DRAFT_WEIGHT_AT(0),
                                      DRAFT_WEIGHT_AT(6)};
    size_t count = sizeof calls / sizeof *calls;
    uint32_t bad_memory[sizeof calls / sizeof *calls];
    begin_part("order of the register's refusals");
    build(16, 7);
    lend_text("");
    lend_slices(0, 0);
    lend_out(0);
    expect_all(calls, refusals, count);
    for (size_t i = 0; i < count; i++)
        bad_memory[i] = 1;
    for (size_t i = 0; i < sizeof spoilt / sizeof *spoilt; i++) {
        mem[spoilt[i]] += 2;
        expect_all(calls, bad_memory, count);
        mem[spoilt[i]] -= 2;
    }
}

/* Numbers of which only the low bits are those of a desk, a hull, a line, a weight or a count. A line is set, and emptied. */
static void try_high_numbers(void)
{
    static const enum kind by_desk[] = {OPEN, SET_FITTING, REPLACE, TRIAL_A, TRIAL_C, TRIAL_U, SAVE, DROP};
    static const enum kind by_hull[] = {OPEN, PLATE_A, PLATE_C, PLATE_U, WEIGH, WRITE_HULL};
    begin_part("numbers of desks and hulls that are too high");
    build(16, 8);
    lend_good_things();
    for (int bit = 4; bit < 32; bit++) {
        uint32_t top = (uint32_t)1 << bit, high = top | (uint32_t)bit % 8;
        for (uint32_t pieces = 0; pieces < 2; pieces++) {
            for (size_t i = 0; i < sizeof by_desk / sizeof *by_desk; i++) {
                expect(attempt((struct call){by_desk[i], high, 0, 1, pieces, pieces}), 6, 0, 0);
                expect(attempt((struct call){by_desk[i], 8, 0, 1, pieces, pieces}), 6, 0, 0);
            }
            expect(attempt((struct call){SET_FITTING, 0, 0, top | 9, pieces, pieces}), 3, 0, 0);
        }
        for (size_t i = 0; i < sizeof by_hull / sizeof *by_hull; i++)
            expect(attempt((struct call){by_hull[i], 0, high, 1, 1, 1}), 5, 0, 0);
        expect(attempt((struct call){SET_FITTING, 0, 0, 9, top | 9, 1}), bit < 19 ? 0 : 3, 0, 0);
        expect(attempt((struct call){SET_FITTING, 0, 0, 9, 9, top | 9}), bit < 7 ? 0 : 3, 0, 0);
    }
}

/* Writes a hull, and holds the text to that of a sheet with the register's number. */
static void expect_hull(wb_sheet sheet, uint32_t hull)
{
    sheet.hull = hull;
    lend_text_of(&sheet);
    lend_out(WB_SHEET_TEXT);
    expect(attempt((struct call){.kind = WRITE_HULL, .hull = hull}), 0, (uint32_t)lent[TEXT].size, 0);
    insist(memcmp(lent[OUT].words, lent[TEXT].words, lent[TEXT].size) == 0, "the hull does not hold the sheet of its text");
}

/* Texts into the register: their HULL number is judged and then ignored. */
static void try_texts(void)
{
    static const struct call calls[] = {{NEW_HULL, 0, 0, 0, 0, 0}, {REPLACE, 3, 0, 0, 0, 0}};
    begin_part("texts into the register");
    for (uint32_t i = 0; i < 2; i++) {
        wb_sheet sheet = base_hull();
        enter_alone(&sheet);
        lend_text("HULL\t16\n");
        expect(attempt(calls[i]), 3, 1, 6);
        lend_text("HULL\t15\n");
        expect(attempt(calls[i]), 2, 2, 1);
        sheet.hull = 15;
        sheet.fitting[23] = (wb_fitting){7, 12};
        lend_text_of(&sheet);
        expect(attempt(calls[i]), 0, i == 0, 0); /* the new hull is the second, number 1 */
        expect(attempt((struct call){.kind = SAVE, .desk = 3}), 0, 1, 0);
        expect_hull(sheet, i == 0);
    }
}

/* ---- fittings, at desk 3 where no desk is named ---- */

static void insist_line(uint32_t line, uint32_t weight, uint32_t count, const char *what)
{
    insist(mem[WEIGHT_AT(3, line)] == weight && mem[COUNT_AT(3, line)] == count, what);
}

/* Sets a line of a desk's draft; accepted, its two words and the draft's weight and no others have changed. */
static void expect_set_at(uint32_t desk, uint32_t line, uint32_t weight, uint32_t count, uint32_t refusal)
{
    static uint32_t after[WB_REGISTER_WORDS];
    memcpy(after, mem, sizeof after);
    expect(attempt((struct call){SET_FITTING, desk, 0, line, weight, count}), refusal, 0, 0);
    if (refusal == 0) {
        after[WEIGHT_AT(desk, line)] = weight;
        after[COUNT_AT(desk, line)] = count;
        weigh_slot(after, WB_HULLS + desk);
    }
    insist(memcmp(after, mem, sizeof after) == 0, "the line is not what it was set to, both numbers, or something else has changed");
}

static void expect_set(uint32_t line, uint32_t weight, uint32_t count, uint32_t refusal)
{
    expect_set_at(3, line, weight, count, refusal);
}

/* The base hull with a fitting on every line or on none, alone in a register and open at desk 3. */
static void enter_hull(int full)
{
    wb_sheet sheet = base_hull();
    for (uint32_t line = 0; full && line < WB_FITTINGS; line++)
        sheet.fitting[line] = (wb_fitting){120, 12};
    enter_alone(&sheet);
}

/* The same open at every desk, and saved since. */
static void enter_lines(int full)
{
    enter_hull(full);
    for (uint32_t desk = 0; desk < WB_DESKS; desk++)
        expect(attempt((struct call){.kind = OPEN, .desk = desk}), 0, 0, 0);
    mem[HULL_AT(0)] = 1;
}

/* Line by line: empty, set, set to other numbers and to the same ones, emptied. The hull, the other drafts and the lines to come are empty or full. */
static void try_fittings_at(uint32_t desk, int full)
{
    for (uint32_t line = 1; line <= WB_FITTINGS; line++) {
        expect_set_at(desk, line, 0, 0, full ? 0 : 17);
        expect_set_at(desk, line, 0, 0, 17);
        expect_set_at(desk, line, line, 100 - line, 0);
        expect_set_at(desk, line, 500000, 1, 0);
        expect_set_at(desk, line, 120, 12, 0);
        expect_set_at(desk, line, 120, 12, 0);
        expect_set_at(desk, line, 0, 0, 0);
        expect_set_at(desk, line, 0, 0, 17);
        if (!full)
            expect_set_at(desk, line, 500000, 1, 0); /* in the end as heavy as a draft can be */
    }
}

static void try_fittings(void)
{
    begin_part("fittings");
    for (uint32_t desk = 0; desk < WB_DESKS; desk++)
        for (int full = 0; full < 2; full++) {
            enter_lines(full);
            try_fittings_at(desk, full);
        }
}

/* Weights and counts at their limits and beside, one of them 0, and products that 32 bits would take for less. */
static const struct {
    uint32_t weight, count, refusal;
} settings[] = {
    {1, 1, 0}, {12, 12, 0}, {50, 90, 0}, {500000, 1, 0}, {250000, 2, 0}, {166666, 3, 0}, {5050, 99, 0}, {1, 99, 0}, {5102, 98, 0},
    {0, 1, 3}, {0, 99, 3}, {0, 100, 3}, {0, 500, 3}, {0, 0xFFFFFFFF, 3}, {1, 0, 3}, {500000, 0, 3}, {500001, 0, 3}, {0xFFFFFFFF, 0, 3},
    {1, 100, 3}, {5, 100, 3}, {500001, 1, 3}, {500000, 2, 3}, {250001, 2, 3}, {166667, 3, 3}, {5051, 99, 3}, {5103, 98, 3}, {500000, 99, 3},
    {99, 5050, 3}, {2, 250000, 3}, {65536, 65536, 3}, {0x80000000, 2, 3}, {0x80000001, 2, 3}, {2, 0x80000001, 3}, {0x80000000, 0x80000000, 3},
    {43383509, 99, 3}, {500000, 8590, 3}, {0xFFFFFFFF, 1, 3}, {1, 0xFFFFFFFF, 3}, {0xFFFFFFFF, 0xFFFFFFFF, 3},
};

#define SETTINGS (sizeof settings / sizeof *settings)

/* Each of them twice, on lines that are empty and on lines that are full; then line 1 is emptied. */
static void try_pieces(void)
{
    begin_part("weights and counts of fittings");
    for (size_t i = 0; i < SETTINGS; i++)
        for (int full = 0; full < 2; full++) {
            enter_lines(full);
            for (int again = 0; again < 2; again++) {
                expect_set(1, settings[i].weight, settings[i].count, settings[i].refusal);
                expect_set(24, settings[i].weight, settings[i].count, settings[i].refusal);
            }
            expect_set(1, 0, 0, full || settings[i].refusal == 0 ? 0 : 17);
        }
    for (uint32_t count = 1; count <= 99; count++) {
        expect_set(7, heaviest(count), count, 0);
        expect_set(7, heaviest(count) + 1, count, 3);
    }
}

/* A line is full whatever its numbers are: every count, and every bit of a weight alone. */
static void try_emptied_fittings(void)
{
    begin_part("fittings that are emptied");
    enter_lines(0);
    for (uint32_t count = 1; count <= 99; count++) {
        expect_set(7, heaviest(count), count, 0);
        expect_set(7, heaviest(count), 0, 3);
        expect_set(7, 0, count, 3);
        expect_set(7, 0, 0, 0);
    }
    for (uint32_t weight = 1; weight <= 500000; weight *= 2) {
        expect_set(7, weight, 1, 0);
        expect_set(7, 0, 0, 0);
    }
}

/* One number alone is 0, whatever the other is. */
static void try_lone_zero(uint32_t other)
{
    expect_set(1, 0, other, 3);
    expect_set(1, other, 0, 3);
}

static void try_lone_zeros(void)
{
    begin_part("a weight of 0 or a count of 0 alone");
    for (int full = 0; full < 2; full++) {
        enter_lines(full);
        for (uint32_t other = 1; other <= 101; other++)
            try_lone_zero(other);
        for (int bit = 0; bit < 32; bit++) {
            try_lone_zero((uint32_t)1 << bit);
            try_lone_zero(0xFFFFFFFF << bit);
        }
    }
}

/* A line that there is not is refused with 3, whatever it is to be set to, and with 0 and 0 too: what is there is asked after that. */
static void try_other_lines(void)
{
    static const uint32_t lines[] = {0, 25, 26, 27, 28, 29, 30, 31, 32, 256, 257, 65537, 0x7FFFFFFF, 0x80000000, 0x80000001, 0xFFFFFFFF};
    begin_part("fittings on lines that there are not");
    for (int full = 0; full < 2; full++) {
        enter_lines(full);
        for (size_t j = 0; j < sizeof lines / sizeof *lines; j++) {
            expect_set(lines[j], 0, 0, 3);
            for (size_t i = 0; i < SETTINGS; i++)
                expect_set(lines[j], settings[i].weight, settings[i].count, 3);
        }
    }
}

/* At such a desk every line, whatever it is set to, is refused in one way. */
static void expect_no_setting(uint32_t desk, uint32_t refusal)
{
    static const uint32_t lines[] = {0, 1, 24, 25, 0xFFFFFFFF};
    for (size_t j = 0; j < sizeof lines / sizeof *lines; j++) {
        expect(attempt((struct call){SET_FITTING, desk, 0, lines[j], 0, 0}), refusal, 0, 0);
        for (size_t i = 0; i < SETTINGS; i++)
            expect(attempt((struct call){SET_FITTING, desk, 0, lines[j], settings[i].weight, settings[i].count}), refusal, 0, 0);
    }
}

/* The memory, the desk and its draft are judged before the line and what it is set to. Desk 6 has words of 0, desk 4 those of a draft that ended. */
static void try_desks_first(void)
{
    begin_part("fittings at desks without a draft");
    for (int full = 0; full < 2; full++) {
        enter_hull(full);
        expect(attempt((struct call){.kind = OPEN, .desk = 4}), 0, 0, 0);
        expect(attempt((struct call){.kind = DROP, .desk = 4}), 0, 0, 0);
        expect_no_setting(4, 7);
        expect_no_setting(6, 7);
        expect_no_setting(8, 6);
        expect_no_setting(0xFFFFFFFF, 6);
        mem[0] = WB_HULLS + 1;
        for (uint32_t desk = 3; desk <= WB_DESKS; desk++)
            expect_no_setting(desk, 1);
    }
}

/* Nothing is left of a line that a text does not have: in a draft that is replaced or opened over, and in a hull entered where other words were. */
static void try_emptied_lines(void)
{
    wb_sheet sheet = base_hull();
    begin_part("lines that a text empties");
    enter_alone(&sheet);
    for (int opened = 0; opened < 2; opened++) {
        for (uint32_t line = 1; line <= WB_FITTINGS; line++)
            expect_set(line, 120, 12, 0);
        expect(attempt((struct call){.kind = opened ? OPEN : REPLACE, .desk = 3}), 0, 0, 0);
        for (uint32_t line = 1; line <= WB_FITTINGS; line++)
            insist_line(line, 0, 0, "something of a fitting is still in the draft");
    }
    build(1, 0);
    lend_text_of(&sheet);
    expect(attempt((struct call){.kind = NEW_HULL}), 0, 1, 0);
    for (uint32_t word = HULL_SHEET_AT(1) + WEIGHT_IN_SHEET(1); word < HULL_AT(2); word++)
        insist(mem[word] == 0, "a new hull has something on an empty line");
}

static void insist_hull_line(uint32_t hull, uint32_t line, uint32_t weight, uint32_t count)
{
    uint32_t at = HULL_SHEET_AT(hull) + WEIGHT_IN_SHEET(line);
    insist(mem[at] == weight && mem[at + 1] == count, "the hull's line does not have the two numbers that it was given");
}

/* The base hull's text with a fitting on one line, without the count where the line can say it so. */
static void lend_line(uint32_t line, uint32_t weight, uint32_t count)
{
    wb_sheet sheet = base_hull();
    sheet.fitting[line - 1] = (wb_fitting){weight, count};
    lent[TEXT].size = short_text_of(&sheet, (uint32_t)1 << (line - 1), lent_bytes(TEXT));
}

static void expect_save(uint32_t edit)
{
    expect(attempt((struct call){.kind = SAVE, .desk = 3}), 0, edit, 0);
    expect(attempt((struct call){.kind = OPEN, .desk = 3}), 0, edit, 0);
}

/* A line that is filled before and after: set, save, open and replace write both its numbers, also where the weight or the product stays the same. */
static void try_changed_counts(uint32_t line)
{
    wb_sheet sheet = base_hull();
    sheet.fitting[line - 1] = (wb_fitting){120, 12};
    enter_alone(&sheet);
    insist_hull_line(0, line, 120, 12);
    expect_set(line, 120, 3, 0);
    expect_save(1);
    insist_hull_line(0, line, 120, 3);
    expect_set(line, 120, 7, 0);
    expect(attempt((struct call){.kind = OPEN, .desk = 3}), 0, 1, 0);
    insist_line(line, 120, 3, "a draft that was opened over another has something of it");
    expect_set(line, 120, 7, 0);
    lend_line(line, 120, 1);
    expect(attempt((struct call){.kind = REPLACE, .desk = 3}), 0, 0, 0);
    insist_line(line, 120, 1, "a line without a count is not one piece");
    lend_line(line, 120, 5);
    expect(attempt((struct call){.kind = REPLACE, .desk = 3}), 0, 0, 0);
    insist_line(line, 120, 5, "a line with a count does not have it");
    expect_set(line, 120, 12, 0);
    expect_save(2);
    insist_hull_line(0, line, 120, 12);
    expect_set(line, 60, 24, 0);
    expect_save(3);
    insist_hull_line(0, line, 60, 24);
    expect_set(line, 0, 0, 0);
    insist_hull_line(0, line, 60, 24);
    expect_save(4);
    insist_hull_line(0, line, 0, 0);
    expect_set(line, 0, 0, 17);
}

/* New hulls, where every free word that is to be the count of a line is 7. */
static void try_counts_in_free_words(uint32_t line)
{
    start_fresh();
    for (uint32_t hull = 0; hull < 2; hull++) {
        uint32_t count = hull == 0 ? 12 : 1;
        for (uint32_t each = 1; each <= WB_FITTINGS; each++) {
            mem[HULL_SHEET_AT(hull) + WEIGHT_IN_SHEET(each)] = 120;
            mem[HULL_SHEET_AT(hull) + WEIGHT_IN_SHEET(each) + 1] = 7;
        }
        lend_line(line, 120, count);
        expect(attempt((struct call){.kind = NEW_HULL}), 0, hull, 0);
        for (uint32_t each = 1; each <= WB_FITTINGS; each++)
            insist_hull_line(hull, each, each == line ? 120 : 0, each == line ? count : 0);
    }
}

static void try_filled_lines(void)
{
    static const uint32_t lines[] = {1, WB_FITTINGS};
    begin_part("lines that are filled before and after");
    for (size_t i = 0; i < sizeof lines / sizeof *lines; i++) {
        try_changed_counts(lines[i]);
        try_counts_in_free_words(lines[i]);
    }
}

void try_register_edges(void)
{
    begin_part("a memory with one word changed");
    change_every_word(16, 8);
    change_every_word(5, 3);
    change_bound_words();
    change_fittings();
    try_seventeen_hulls();
    try_wrong_sizes();
    try_far_lengths();
    try_last_edits();
    try_ended_drafts();
    try_order();
    try_high_numbers();
    try_texts();
    try_fittings();
    try_pieces();
    try_emptied_fittings();
    try_lone_zeros();
    try_other_lines();
    try_desks_first();
    try_emptied_lines();
    try_filled_lines();
}
