/*
 * weight_edges.c: the boat's weight that is kept beside every sheet: how it follows each call, in figures, and memories
 * that keep another. That every weight is its sheet's is seen after each call besides (compare.h).
 */
#include "layout.h"
#include "material.h"
#include "memories.h"
#include "parts.h"
#include "random.h"
#include "steps.h"
#include "weighed.h"

#include <string.h>

static uint32_t *const mem = lent[MEMORY].words;

/* ---- steps ---- */

static void expect_weight(uint32_t hull, uint32_t grams)
{
    expect(attempt((struct call){.kind = WEIGH, .hull = hull}), 0, grams, 0);
    insist(mem[HULL_WEIGHT_AT(hull)] == grams, "the hull's weight is another one");
}

static void insist_draft(uint32_t desk, uint32_t grams)
{
    insist(mem[DRAFT_WEIGHT_AT(desk)] == grams, "the draft's weight is another one");
}

static void set_line(uint32_t desk, uint32_t line, uint32_t weight, uint32_t count)
{
    expect(attempt((struct call){SET_FITTING, desk, 0, line, weight, count}), 0, 0, 0);
}

static void open_hull(uint32_t desk, uint32_t hull, uint32_t edit)
{
    expect(attempt((struct call){.kind = OPEN, .desk = desk, .hull = hull}), 0, edit, 0);
}

static void save_draft(uint32_t desk, uint32_t edit)
{
    expect(attempt((struct call){.kind = SAVE, .desk = desk}), 0, edit, 0);
}

static void replace_draft(uint32_t desk, const wb_sheet *sheet)
{
    lend_text_of(sheet);
    expect(attempt((struct call){.kind = REPLACE, .desk = desk}), 0, 0, 0);
}

static void enter(const wb_sheet *sheet, uint32_t hull)
{
    lend_text_of(sheet);
    expect(attempt((struct call){.kind = NEW_HULL}), 0, hull, 0);
}

/* The base hull, which weighs 200000 g, with this on a line. */
static wb_sheet base_with(uint32_t line, uint32_t weight, uint32_t count)
{
    wb_sheet sheet = base_hull();
    sheet.fitting[line - 1] = (wb_fitting){weight, count};
    return sheet;
}

/* ---- how it follows the calls ---- */

/* A line of the base hull's draft, set, set again and emptied: the draft's weight moves, and the hull's does not. */
static void try_line(uint32_t line)
{
    static const struct {
        uint32_t weight, count, grams;
    } settings[] = {{5050, 99, 699950}, {5049, 99, 699851}, {5050, 98, 694900}, {2, 3, 200006}, {3, 2, 200006},
                    {2, 4, 200008}, {0, 0, 200000}, {1, 1, 200001}, {500000, 1, 700000}, {250000, 2, 700000},
                    {499999, 1, 699999}, {1, 99, 200099}};
    wb_sheet sheet = base_hull();
    enter_alone(&sheet);
    insist_draft(3, 200000);
    for (size_t i = 0; i < sizeof settings / sizeof *settings; i++) {
        set_line(3, line, settings[i].weight, settings[i].count);
        insist_draft(3, settings[i].grams);
        expect_weight(0, 200000);
    }
    set_line(3, line, 0, 0);
    insist_draft(3, 200000);
}

/* The same of a sheet that the test keeps along. */
static void set_beside(wb_sheet *sheet, uint32_t line, wb_fitting to)
{
    set_line(3, line, to.weight, to.count);
    sheet->fitting[line - 1] = to;
    insist_draft(3, (uint32_t)grams_of(sheet));
}

/* From each of some fittings to each other, on one line after the other, beside full ones. */
static void try_moves(void)
{
    static const wb_fitting fittings[] = {{1, 1}, {5050, 99}, {500000, 1}, {250000, 2},
                                          {120, 12}, {12, 99}, {166666, 3}, {1, 99}};
    wb_sheet sheet = base_hull();
    uint32_t line = 1;
    for (uint32_t i = 0; i < WB_FITTINGS; i++)
        sheet.fitting[i] = (wb_fitting){100 + i, 1 + i};
    enter_alone(&sheet);
    for (size_t i = 0; i < sizeof fittings / sizeof *fittings; i++)
        for (size_t j = 0; j < sizeof fittings / sizeof *fittings; j++) {
            set_beside(&sheet, line, fittings[i]);
            set_beside(&sheet, line, fittings[j]);
            line = line % WB_FITTINGS + 1;
        }
}

/* A refused setting leaves the weight. */
static void try_refused_lines(void)
{
    wb_sheet sheet = base_with(1, 120, 12);
    enter_alone(&sheet);
    expect(attempt((struct call){SET_FITTING, 3, 0, 1, 5051, 99}), 3, 0, 0);
    expect(attempt((struct call){SET_FITTING, 3, 0, 1, 0, 1}), 3, 0, 0);
    expect(attempt((struct call){SET_FITTING, 3, 0, 25, 1, 1}), 3, 0, 0);
    expect(attempt((struct call){SET_FITTING, 3, 0, 2, 0, 0}), 17, 0, 0);
    insist_draft(3, 201440);
    expect_weight(0, 201440);
}

static void try_lines(void)
{
    begin_part("weights when a line is set");
    for (uint32_t line = 1; line <= WB_FITTINGS; line++)
        try_line(line);
    try_moves();
    try_refused_lines();
}

/* The heaviest boat and those a gram below it; the lightest. */
static void try_heaviest(void)
{
    wb_sheet sheet = base_hull();
    begin_part("the heaviest and the lightest boat");
    sheet.bare = 2000000;
    enter_alone(&sheet);
    for (uint32_t line = 1; line <= WB_FITTINGS; line++) {
        set_line(3, line, line % 2 ? 500000 : 250000, line % 2 ? 1 : 2);
        insist_draft(3, 2000000 + 500000 * line);
    }
    save_draft(3, 1);
    expect_weight(0, 14000000);
    open_hull(3, 0, 1);
    set_line(3, 24, 499999, 1);
    save_draft(3, 2);
    expect_weight(0, 13999999);
    sheet = highest_sheet();
    enter(&sheet, 1);
    expect_weight(1, 14000000);
    sheet.bare = 1999999;
    enter(&sheet, 2);
    expect_weight(2, 13999999);
    open_hull(3, 1, 0);
    for (uint32_t line = WB_FITTINGS; line >= 1; line--) {
        set_line(3, line, 0, 0);
        insist_draft(3, 2000000 + 500000 * (line - 1));
    }
    sheet = base_hull();
    sheet.bare = 1;
    enter(&sheet, 3);
    expect_weight(3, 1);
    sheet.fitting[0] = (wb_fitting){1, 1};
    enter(&sheet, 4);
    expect_weight(4, 2);
}

/* From the lightest boat to the heaviest and back, as far as a weight can move, by one sheet in another's place. */
static void try_farthest(void)
{
    wb_sheet lightest = base_hull(), heaviest_boat = highest_sheet();
    begin_part("the farthest that a weight can move");
    lightest.bare = 1;
    enter_alone(&lightest);
    for (uint32_t edit = 1; edit <= 4; edit++) {
        uint32_t grams = edit % 2 ? 14000000 : 1;
        replace_draft(3, edit % 2 ? &heaviest_boat : &lightest);
        insist_draft(3, grams);
        save_draft(3, edit);
        expect_weight(0, grams);
        open_hull(3, 0, edit);
        insist_draft(3, grams);
    }
    heaviest_boat.bare--;
    replace_draft(3, &heaviest_boat);
    insist_draft(3, 13999999);
}

/* A sheet in place of a draft, heavier or lighter than it, as heavy or the same; then it is saved. */
static void try_replaced(void)
{
    static const uint32_t weights[] = {5050, 3, 4, 4, 1};
    wb_sheet sheet = base_hull();
    begin_part("weights of sheets that are replaced");
    enter_alone(&sheet);
    for (uint32_t i = 0; i < 5; i++) {
        uint32_t grams = 200000 + 99 * weights[i], before = mem[HULL_WEIGHT_AT(0)];
        sheet = base_with(1 + i, weights[i], 99);
        replace_draft(3, &sheet);
        insist_draft(3, grams);
        expect_weight(0, before);
        save_draft(3, i + 1);
        expect_weight(0, grams);
        insist_draft(3, grams); /* drop and save leave it there, though the draft has ended */
        open_hull(3, 0, i + 1);
        insist_draft(3, grams);
    }
    sheet = base_hull();
    replace_draft(3, &sheet);
    set_line(3, 9, 2, 3);
    save_draft(3, 6);
    expect_weight(0, 200006);
    open_hull(3, 0, 6);
    sheet.bare = 150000;
    sheet.fuel = 400000;
    sheet.machinery = 300000;
    replace_draft(3, &sheet);
    insist_draft(3, 150000); /* tanks and machinery are not in it */
    lend_text("HULL\t0\n");
    expect(attempt((struct call){.kind = REPLACE, .desk = 3}), 2, 2, 1);
    lend_text("HULL\t16\n");
    expect(attempt((struct call){.kind = REPLACE, .desk = 3}), 3, 1, 6);
    insist_draft(3, 150000);
    expect_weight(0, 200006);
}

/* Plates A, C and U of the base hull, tested for five, at 200000 g and at 699950 g. */
static const struct plates {
    uint32_t load_a, load_c, persons, pounds;
} light_plates = {327, 326, 3, 720}, heavy_plates = {227, 226, 2, 499};

static void expect_trials(uint32_t desk, struct plates plates)
{
    expect(attempt((struct call){.kind = TRIAL_A, .desk = desk}), 0, plates.load_a, 20000);
    expect(attempt((struct call){.kind = TRIAL_C, .desk = desk}), 0, plates.load_c, plates.persons);
    expect(attempt((struct call){.kind = TRIAL_U, .desk = desk}), 0, plates.pounds, 0);
}

static void expect_plates(uint32_t hull, struct plates plates)
{
    expect(attempt((struct call){.kind = PLATE_A, .hull = hull}), 0, plates.load_a, 20000);
    expect(attempt((struct call){.kind = PLATE_C, .hull = hull}), 0, plates.load_c, plates.persons);
    expect(attempt((struct call){.kind = PLATE_U, .hull = hull}), 0, plates.pounds, 0);
}

/* The base hull as these plates are of it, and its engine, of 60000 g. */
static wb_sheet tested_hull(void)
{
    static const uint32_t powers[] = {1500, 20000}, weights[] = {20000, 60000};
    wb_sheet sheet = base_hull();
    lend_rows(powers, weights, 2);
    sheet.tested = 5;
    return sheet;
}

/* Two desks have a hull open, beside another. What the one saves is the hull's, and the other keeps its own weight. */
static void try_two_desks(void)
{
    wb_sheet sheet = tested_hull();
    begin_part("weights at two desks");
    enter_alone(&sheet);
    enter(&sheet, 1);
    open_hull(1, 1, 0);
    open_hull(2, 1, 0);
    set_line(1, 1, 5050, 99);
    expect_trials(1, heavy_plates);
    expect_trials(2, light_plates);
    expect_plates(1, light_plates);
    save_draft(1, 1);
    expect_plates(0, light_plates);
    expect_plates(1, heavy_plates);
    expect_trials(2, light_plates);
    expect_trials(3, light_plates);
    expect(attempt((struct call){.kind = SAVE, .desk = 2}), 8, 0, 0);
    insist_draft(2, 200000);
    expect_weight(0, 200000);
    expect_weight(1, 699950);
}

/* With pieces of 5000 g on it, each of which takes a kilogram off: 326666 2/3 g are a fifth of what it carries bare. */
static struct plates plates_with(uint32_t pieces)
{
    uint32_t load = 326 - pieces, thirds = 980000 - 3000 * pieces;
    uint32_t pounds = (uint32_t)((uint64_t)thirds * 100000 / (3 * (uint64_t)45359237));
    return (struct plates){load + 1, load, (load - 60) / 75, pounds};
}

/* Sixteen hulls of 1, 2, .. such pieces, and at each desk a draft that has 20 or more besides: each has its own. */
static void expect_every_slot(uint32_t first)
{
    for (uint32_t hull = 0; hull < WB_HULLS; hull++) {
        expect_plates(hull, plates_with(1 + hull));
        expect_weight(hull, 205000 + 5000 * hull);
    }
    for (uint32_t desk = 0; desk < WB_DESKS; desk++) {
        expect_trials(desk, plates_with(21 + first + 2 * desk));
        insist_draft(desk, 305000 + 5000 * (first + 2 * desk));
    }
}

/* The drafts are of eight hulls from the first on; then of hulls that were saved as often as can be. */
static void try_every_slot(uint32_t first)
{
    wb_sheet sheet = tested_hull();
    begin_part("plates and weights at every hull and desk");
    start_fresh();
    for (uint32_t hull = 0; hull < WB_HULLS; hull++) {
        sheet.fitting[0] = (wb_fitting){5000, 1 + hull};
        enter(&sheet, hull);
    }
    for (uint32_t desk = 0; desk < WB_DESKS; desk++) {
        open_hull(desk, first + desk, 0);
        set_line(desk, 2, 5000, 20 + desk);
    }
    expect_every_slot(first);
    for (uint32_t hull = 0; hull < WB_HULLS; hull++)
        mem[HULL_AT(hull)] = 65535;
    expect_every_slot(first);
}

static void expect_first(enum kind kind, uint32_t first)
{
    wb_answer answer = attempt((struct call){.kind = kind, .desk = 3});
    expect(answer, 0, first, answer.second);
}

/*
 * Plates of the heaviest boats, by so many grams less than 14000000. The highest sheet holds 50000000 g of water, and
 * its tanks and machinery weigh 500000 g each: A and C mark a kilogram for 5000 g, U a pound for 2267.96185.
 */
static void try_heaviest_plates(uint32_t less, uint32_t edit)
{
    uint32_t load_a = 7000 + (less + 2500) / 5000, load_c = 7000 + less / 5000;
    uint32_t pounds = (uint32_t)((35500000 + (uint64_t)less) * 100000 / (5 * (uint64_t)45359237));
    set_line(3, 24, 500000 - less, 1);
    insist_draft(3, 14000000 - less);
    expect_first(TRIAL_A, load_a);
    expect_first(TRIAL_C, load_c);
    expect_first(TRIAL_U, pounds);
    save_draft(3, edit);
    expect_weight(0, 14000000 - less);
    expect_first(PLATE_A, load_a);
    expect_first(PLATE_C, load_c);
    expect_first(PLATE_U, pounds);
    open_hull(3, 0, edit);
}

static void try_heaviest_boats(void)
{
    static const uint32_t lesses[] = {0, 1, 406, 407, 2499, 2500, 4999, 5000, 7499, 7500, 499999};
    wb_sheet sheet = highest_sheet();
    uint32_t edit = 0;
    begin_part("plates of the heaviest boats");
    lend_good_things();
    enter_alone(&sheet);
    for (size_t i = 0; i < sizeof lesses / sizeof *lesses; i++)
        try_heaviest_plates(lesses[i], ++edit);
    for (uint32_t less = 0; less < 25000; less += 499)
        try_heaviest_plates(less, ++edit);
}

/* The heaviest boat, with so much less water that a gram off the boat marks one more. */
static void try_last_gram(enum kind trial, enum kind plate, uint32_t water, uint32_t load)
{
    wb_sheet sheet = highest_sheet();
    sheet.aft -= water;
    enter_alone(&sheet);
    expect_first(trial, load);
    set_line(3, 24, 499999, 1);
    expect_first(trial, load + 1);
    expect_first(plate, load);
    save_draft(3, 1);
    expect_first(plate, load + 1);
}

static void try_last_grams(void)
{
    begin_part("plates of the heaviest boat, to the gram");
    lend_good_things();
    try_last_gram(TRIAL_A, PLATE_A, 2501, 6999);
    try_last_gram(TRIAL_C, PLATE_C, 1, 6999);
    try_last_gram(TRIAL_U, PLATE_U, 1862, 15651);
}

/* A draft that is refused its save keeps its weight; opened again it has the hull's, and dropped it leaves it there. */
static void try_stale_draft(void)
{
    wb_sheet sheet = base_hull();
    begin_part("weights of a draft that is too late");
    enter_alone(&sheet);
    open_hull(1, 0, 0);
    set_line(1, 1, 5050, 99);
    save_draft(1, 1);
    set_line(3, 2, 2, 3);
    insist_draft(3, 200006);
    expect(attempt((struct call){.kind = SAVE, .desk = 3}), 8, 0, 0);
    insist_draft(3, 200006);
    expect_weight(0, 699950);
    open_hull(3, 0, 1);
    insist_draft(3, 699950);
    set_line(3, 1, 0, 0);
    expect(attempt((struct call){.kind = DROP, .desk = 3}), 0, 0, 0);
    insist_draft(3, 200000);
    expect_weight(0, 699950);
}

/* A hull that is opened brings its weight, whatever the desk's words were: those of another draft, or anything. */
static void try_opened(void)
{
    static const uint32_t stood[] = {0, 1, 200000, 200006, 0xFFFFFFFF};
    wb_sheet light = base_hull(), heavy = base_with(7, 120, 12);
    begin_part("weights of hulls that are opened");
    enter_alone(&light);
    enter(&heavy, 1);
    for (uint32_t desk = 0; desk < WB_DESKS; desk++)
        for (uint32_t hull = 0; hull < 2; hull++) {
            open_hull(desk, 1 - hull, 0);
            set_line(desk, 1 + desk, 5, 5);
            open_hull(desk, hull, 0);
            insist_draft(desk, hull ? 201440 : 200000);
            for (size_t i = 0; i < sizeof stood / sizeof *stood; i++) {
                expect(attempt((struct call){.kind = DROP, .desk = desk}), 0, 0, 0);
                mem[DRAFT_WEIGHT_AT(desk)] = stood[i];
                open_hull(desk, hull, 0);
                insist_draft(desk, hull ? 201440 : 200000);
            }
        }
}

/* Each hull of a full register has its own; a save moves one of them. The words of a hull to come may be anything. */
static void try_full_register(void)
{
    begin_part("weights of a full register");
    start_fresh();
    for (uint32_t hull = 0; hull < WB_HULLS; hull++) {
        wb_sheet sheet = base_with(1 + hull, 10 + hull, 1 + hull);
        expect(attempt((struct call){.kind = WEIGH, .hull = hull}), 5, 0, 0);
        mem[HULL_WEIGHT_AT(hull)] = hull % 2 ? 0xFFFFFFFF : 200000;
        enter(&sheet, hull);
        for (uint32_t each = 0; each <= hull; each++)
            expect_weight(each, 200000 + (10 + each) * (1 + each));
    }
    expect(attempt((struct call){.kind = WEIGH, .hull = WB_HULLS}), 5, 0, 0);
    for (uint32_t hull = 0; hull < WB_HULLS; hull++) {
        uint32_t desk = hull % WB_DESKS;
        open_hull(desk, hull, 0);
        set_line(desk, 24, 1000, 7);
        save_draft(desk, 1);
        for (uint32_t each = 0; each < WB_HULLS; each++)
            expect_weight(each, 200000 + (10 + each) * (1 + each) + (each <= hull ? 7000 : 0));
    }
}

/* Every hull at every desk: opened over another hull's draft, replaced, saved, opened again, and a line of it set. */
static void try_hull_at_desk(uint32_t hull, uint32_t desk, uint32_t *grams)
{
    uint32_t turn = WB_HULLS * desk + hull;
    wb_sheet sheet = base_with(1 + turn % WB_FITTINGS, 1 + turn, 3);
    open_hull(desk, hull, desk);
    insist_draft(desk, grams[hull]);
    replace_draft(desk, &sheet);
    grams[hull] = 200000 + 3 * (1 + turn);
    insist_draft(desk, grams[hull]);
    save_draft(desk, desk + 1);
    for (uint32_t each = 0; each < WB_HULLS; each++)
        expect_weight(each, grams[each]);
    open_hull(desk, hull, desk + 1);
    set_line(desk, 1 + (turn + 1) % WB_FITTINGS, 100, 7);
    insist_draft(desk, grams[hull] + 700);
}

static void try_hulls_at_desks(void)
{
    wb_sheet sheet = base_hull();
    uint32_t grams[WB_HULLS];
    begin_part("weights of every hull at every desk");
    start_fresh();
    for (uint32_t hull = 0; hull < WB_HULLS; hull++) {
        enter(&sheet, hull);
        grams[hull] = 200000;
    }
    for (uint32_t desk = 0; desk < WB_DESKS; desk++)
        for (uint32_t hull = 0; hull < WB_HULLS; hull++)
            try_hull_at_desk(hull, desk, grams);
}

/* A line set and saved, and opened again. */
static void save_line(uint32_t weight, uint32_t edit)
{
    set_line(3, 1, weight, 1);
    save_draft(3, edit);
    expect_weight(0, 200000 + weight);
    open_hull(3, 0, edit);
    insist_draft(3, 200000 + weight);
}

/* The weight follows each of many saves, and the last that a hull can have; after that drafts still have theirs. */
static void try_many_saves(void)
{
    wb_sheet sheet = base_hull();
    begin_part("weights over many saves");
    enter_alone(&sheet);
    for (uint32_t edit = 1; edit <= 600; edit++)
        save_line(1 + edit * 977 % 499979, edit);
    mem[HULL_AT(0)] = 65534;
    open_hull(3, 0, 65534);
    save_line(1234, 65535);
    set_line(3, 1, 5050, 99);
    insist_draft(3, 699950);
    expect(attempt((struct call){.kind = SAVE, .desk = 3}), 9, 0, 0);
    insist_draft(3, 699950);
    replace_draft(3, &sheet);
    insist_draft(3, 200000);
    expect_weight(0, 201234);
    open_hull(3, 0, 65535);
    insist_draft(3, 201234);
}

/* ---- a ledger of differences ---- */

/* Two hulls and three desks, by their sheets as the test knows them from the answers alone. */
enum { LEDGER_HULLS = 2, LEDGER_DESKS = 3 };
static wb_sheet hulls[LEDGER_HULLS];
static int64_t ledger[LEDGER_HULLS]; /* what a hull weighed when entered, and the difference that each save made */
static struct {
    wb_sheet sheet;
    uint32_t hull;
    int64_t opened;
} drafts[LEDGER_DESKS];

static void open_in_ledger(uint32_t desk, uint32_t hull)
{
    if (attempt((struct call){.kind = OPEN, .desk = desk, .hull = hull}).refusal)
        return;
    drafts[desk].sheet = hulls[hull];
    drafts[desk].hull = hull;
    drafts[desk].opened = (int64_t)grams_of(&hulls[hull]);
}

static void set_in_ledger(uint32_t desk, uint32_t line)
{
    wb_fitting fitting = one_in(3) ? (wb_fitting){0, 0} : random_fitting();
    if (!attempt((struct call){SET_FITTING, desk, 0, line, fitting.weight, fitting.count}).refusal)
        drafts[desk].sheet.fitting[line - 1] = fitting;
}

static void replace_in_ledger(uint32_t desk)
{
    wb_sheet sheet = random_sheet();
    lend_text_of(&sheet);
    if (!attempt((struct call){.kind = REPLACE, .desk = desk}).refusal)
        drafts[desk].sheet = sheet;
}

static void save_in_ledger(uint32_t desk)
{
    uint32_t hull = drafts[desk].hull;
    if (attempt((struct call){.kind = SAVE, .desk = desk}).refusal)
        return;
    ledger[hull] += (int64_t)grams_of(&drafts[desk].sheet) - drafts[desk].opened;
    hulls[hull] = drafts[desk].sheet;
}

static void step_in_ledger(void)
{
    uint32_t desk = random_between(0, LEDGER_DESKS - 1);
    switch (random_between(0, 8)) {
    case 0:
    case 1:
        open_in_ledger(desk, random_between(0, LEDGER_HULLS - 1));
        break;
    case 2:
        replace_in_ledger(desk);
        break;
    case 3:
        save_in_ledger(desk);
        break;
    default:
        set_in_ledger(desk, random_between(1, WB_FITTINGS));
    }
}

/* A hull's weight is what it was when entered and the difference that each accepted save made, in their order. */
static void try_ledger(void)
{
    begin_part("weights by a ledger of saves");
    start_fresh();
    for (uint32_t hull = 0; hull < LEDGER_HULLS; hull++) {
        hulls[hull] = random_sheet();
        enter(&hulls[hull], hull);
        ledger[hull] = (int64_t)grams_of(&hulls[hull]);
    }
    for (int step = 0; step < 3000; step++) {
        step_in_ledger();
        expect_weight(0, (uint32_t)ledger[0]);
        expect_weight(1, (uint32_t)ledger[1]);
    }
}

/* ---- memories that keep another weight ---- */

/* A weight in the place of a slot's own; one that is free may be anything. */
static void try_weight(uint32_t slot, int free, uint32_t weight)
{
    uint32_t at = sheet_at(slot) - 1, is = mem[at];
    mem[at] = weight;
    judge_memory(free || weight == is);
    mem[at] = is;
}

/* Other weights than that of a sheet: beside it, far from it, and those that differ from it in one bit. */
static void try_other_weights(uint32_t slot, int free)
{
    uint32_t is = mem[sheet_at(slot) - 1];
    const uint32_t others[] = {is + 1, is - 1, 0, 0xFFFFFFFF, is + 1000, is + 500000, 14000000 - is, 2 * is, 1,
                               13999999, 14000000, 14000001, is + 14000000};
    for (size_t i = 0; i < sizeof others / sizeof *others; i++)
        try_weight(slot, free, others[i]);
    for (uint32_t bit = 0; bit < 32; bit++)
        try_weight(slot, free, is ^ (uint32_t)1 << bit);
}

/* What wrong sums give: the bare boat or the fittings alone, tanks or machinery too, one piece a line, a line less. */
static void try_wrong_sums(uint32_t slot, int free)
{
    wb_sheet sheet = sheet_by(mem + sheet_at(slot));
    const wb_fitting *first = &sheet.fitting[0], *last = &sheet.fitting[WB_FITTINGS - 1];
    uint32_t is = mem[sheet_at(slot) - 1], pieces = sheet.bare;
    for (int i = 0; i < WB_FITTINGS; i++)
        pieces += sheet.fitting[i].weight;
    const uint32_t sums[] = {sheet.bare, is - sheet.bare, is + sheet.fuel, is + sheet.machinery,
                             is + sheet.fuel + sheet.machinery, pieces, is - first->weight * first->count,
                             is - last->weight * last->count};
    for (size_t i = 0; i < sizeof sums / sizeof *sums; i++)
        try_weight(slot, free, sums[i]);
}

/*
 * Entered hulls and held drafts are judged, each by its own sheet; what is free is not. The first hull was not saved
 * yet, the last as often as can be, and the last draft is of it.
 */
static void try_spoilt(uint32_t hulls, uint32_t drafts)
{
    build(hulls, drafts);
    lend_good_things();
    mem[HULL_AT(0)] = 0;
    mem[HULL_AT(hulls - 1)] = 65535;
    mem[DESK_AT(drafts - 1) + 1] = hulls - 1;
    judge_memory(1);
    for (uint32_t slot = 0; slot < SLOTS; slot++) {
        int free = slot < WB_HULLS ? slot >= hulls : slot - WB_HULLS >= drafts;
        try_other_weights(slot, free);
        try_wrong_sums(slot, free);
    }
}

/* A sheet in every slot, with its weight in figures: others are refused, and beside the limits too. */
static void try_spoilt_beside(wb_sheet sheet, uint32_t grams)
{
    build(16, 8);
    lend_good_things();
    for (uint32_t slot = 0; slot < SLOTS; slot++) {
        memcpy(mem + sheet_at(slot), numbers_of(&sheet) + 1, sizeof sheet - 4);
        mem[sheet_at(slot) - 1] = grams;
    }
    judge_memory(1);
    for (uint32_t hull = 0; hull < WB_HULLS; hull++)
        expect_weight(hull, grams);
    for (uint32_t slot = 0; slot < SLOTS; slot++)
        try_other_weights(slot, 0);
}

static void try_spoilt_edges(void)
{
    wb_sheet sheet = base_hull();
    sheet.bare = 1;
    try_spoilt_beside(sheet, 1);
    try_spoilt_beside(highest_sheet(), 14000000);
}

/* However many hulls there are, the weight of each is judged, and that of each draft. */
static void try_spoilt_numbers(void)
{
    for (uint32_t hulls = 1; hulls <= WB_HULLS; hulls++) {
        uint32_t drafts = hulls % (WB_DESKS + 1);
        build(hulls, drafts);
        lend_good_things();
        for (uint32_t slot = 0; slot < SLOTS; slot++)
            try_weight(slot, slot < WB_HULLS ? slot >= hulls : slot - WB_HULLS >= drafts, mem[sheet_at(slot) - 1] + 1);
    }
}

/* A word changed, and the weight left as it is. */
static void spoil_alone(uint32_t word, uint32_t to)
{
    uint32_t is = mem[word];
    mem[word] = to;
    judge_memory(0);
    mem[word] = is;
}

/* The bare boat and both numbers of each line are in the weight; where the sum is the same, so is the weight. */
static void try_other_sheet(uint32_t slot)
{
    uint32_t sheet = sheet_at(slot), bare = sheet + BARE_NUMBER - 1, first = sheet + WEIGHT_IN_SHEET(1);
    for (uint32_t line = 1; line <= WB_FITTINGS; line++) {
        mem[sheet + WEIGHT_IN_SHEET(line)] = 7;
        mem[sheet + WEIGHT_IN_SHEET(line) + 1] = 11;
    }
    mem[bare] = 200000;
    weigh_slot(mem, slot);
    spoil_alone(bare, 200001);
    spoil_alone(bare, 199999);
    for (uint32_t line = 1; line <= WB_FITTINGS; line++) {
        spoil_alone(sheet + WEIGHT_IN_SHEET(line), 8);
        spoil_alone(sheet + WEIGHT_IN_SHEET(line) + 1, 10);
    }
    mem[first] = 11;
    mem[first + 1] = 7;
    judge_memory(1);
    mem[first] = 78;
    mem[first + 1] = 1;
    mem[bare] = 199999;
    judge_memory(1);
}

static void try_other_sheets(void)
{
    build(16, 8);
    lend_good_things();
    for (uint32_t slot = 0; slot < SLOTS; slot++)
        try_other_sheet(slot);
}

/* Weights of a draft and its hull, of two hulls and of two drafts, in each other's place: the sheets are not alike. */
static void try_exchanged(void)
{
    static const uint32_t pairs[][2] = {{HULL_WEIGHT_AT(0), DRAFT_WEIGHT_AT(3)}, {HULL_WEIGHT_AT(0), HULL_WEIGHT_AT(1)},
                                        {DRAFT_WEIGHT_AT(3), DRAFT_WEIGHT_AT(7)}};
    wb_sheet light = base_hull(), heavy = base_with(1, 5050, 99);
    enter_alone(&light);
    enter(&heavy, 1);
    open_hull(7, 1, 0);
    set_line(3, 1, 2, 3);
    lend_good_things();
    for (size_t i = 0; i < sizeof pairs / sizeof *pairs; i++) {
        uint32_t one = mem[pairs[i][0]], other = mem[pairs[i][1]];
        spoil_alone(pairs[i][0], other);
        spoil_alone(pairs[i][1], one);
        mem[pairs[i][0]] = other;
        spoil_alone(pairs[i][1], one);
        mem[pairs[i][0]] = one;
    }
    judge_memory(1);
}

/* The base hull with a gram too much or too little: only fresh start takes it. */
static void try_gram(uint32_t word)
{
    wb_sheet sheet = base_hull();
    enter_alone(&sheet);
    lend_good_things();
    spoil_alone(word, 199999);
    spoil_alone(word, 200001);
    mem[word] = 200001;
    expect(attempt((struct call){.kind = WEIGH}), 1, 0, 0);
    lend_text(""); /* the memory is judged before the text */
    expect(attempt((struct call){.kind = NEW_HULL}), 1, 0, 0);
    expect(attempt((struct call){.kind = REPLACE, .desk = 3}), 1, 0, 0);
    expect(attempt((struct call){.kind = FRESH}), 0, 0, 0);
    expect(attempt((struct call){.kind = WEIGH}), 5, 0, 0);
}

static void try_spoilt_weights(void)
{
    begin_part("memories that keep another weight");
    try_spoilt(16, 8);
    try_spoilt(5, 3);
    try_spoilt_edges();
    try_spoilt_numbers();
    try_other_sheets();
    try_exchanged();
    try_gram(HULL_WEIGHT_AT(0));
    try_gram(DRAFT_WEIGHT_AT(3));
}

void try_weight_edges(void)
{
    try_lines();
    try_heaviest();
    try_farthest();
    try_replaced();
    try_two_desks();
    try_every_slot(0);
    try_every_slot(8);
    try_stale_draft();
    try_heaviest_boats();
    try_last_grams();
    try_opened();
    try_full_register();
    try_hulls_at_desks();
    try_many_saves();
    try_ledger();
    try_spoilt_weights();
}
