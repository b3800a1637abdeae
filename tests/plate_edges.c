/* plate_edges.c: loads, powers, persons and engine rows exactly at the bounds of the rules and as near beside them as a sheet can be. */
#include "material.h"
#include "parts.h"
#include "steps.h"
#include "water.h"

#define KILOGRAM ((int64_t)900000000)  /* of load: 5000 * GRAM */
#define KILOGRAM_LOW_POWER ((int64_t)600000000)

static const uint32_t weightless_powers[] = {200000}, weightless[] = {0};

/* ---- loads ---- */

/* Z - GRAM * (M + factor * (fuel + machinery)) of a sheet becomes net. */
static void set_net(wb_sheet *sheet, int64_t net, int64_t factor)
{
    int64_t boat = (int64_t)grams_of(sheet);
    set_water(sheet, net + GRAM * (boat + factor * ((int64_t)sheet->fuel + sheet->machinery)));
}

static wb_sheet inboard_hull(void)
{
    wb_sheet sheet = base_hull();
    sheet.outboard = 0;
    sheet.fuel = 20000;
    sheet.machinery = 50000;
    return sheet;
}

static void expect_load_at(char plate, wb_sheet sheet, int64_t net, int64_t factor, int64_t load)
{
    sheet.positions = 24;
    sheet.tested = 24;
    set_net(&sheet, net, factor);
    if (load < 1)
        expect_plate(plate, &sheet, 12, 0, 0);
    else if (plate == 'C' && load < 75)
        expect_plate(plate, &sheet, 15, 0, 0);
    else
        expect_load(plate, &sheet, (uint32_t)load);
}

/* At a bound, below which the marked load is one less: there, and one unit and one gram on each side. */
static void expect_step(char plate, wb_sheet sheet, int64_t bound, int64_t factor, int64_t load)
{
    expect_load_at(plate, sheet, bound, factor, load);
    expect_load_at(plate, sheet, bound + 1, factor, load);
    expect_load_at(plate, sheet, bound + GRAM, factor, load);
    expect_load_at(plate, sheet, bound - 1, factor, load - 1);
    expect_load_at(plate, sheet, bound - GRAM, factor, load - 1);
}

static void try_loads(void)
{
    static const int loads[] = {-900, -326, -2, -1, 0, 1, 2, 3, 75, 76, 250, 326, 1000, 1999, 2000};
    wb_sheet outboard = base_hull(), low = base_hull(), inboard = inboard_hull();
    begin_part("loads at halves and whole kilograms");
    lend_rows(weightless_powers, weightless, 1);
    low.declared = 1500;
    for (size_t i = 0; i < sizeof loads / sizeof *loads; i++) {
        expect_step('A', outboard, KILOGRAM * loads[i] - KILOGRAM / 2, 1, loads[i]);
        expect_step('A', inboard, KILOGRAM * loads[i] - KILOGRAM / 2, 5, loads[i]);
        expect_load_at('A', outboard, KILOGRAM * loads[i], 1, loads[i]);
        expect_load_at('A', inboard, KILOGRAM * loads[i] - 1, 5, loads[i]);
        expect_step('C', outboard, KILOGRAM * loads[i], 1, loads[i]);
        expect_step('C', inboard, KILOGRAM * loads[i], 1, loads[i]);
        expect_step('C', low, KILOGRAM_LOW_POWER * loads[i], 1, loads[i]);
    }
}

/* A hull that has every volume and weight, no two alike: a gram of any of them counted a unit too high or too low moves it over a bound. */
static wb_sheet laden_hull(uint32_t outboard, uint32_t declared)
{
    wb_sheet sheet = base_hull();
    sheet.well = 61000;
    sheet.flooding = 303000;
    sheet.bare = 407000;
    sheet.fuel = 500000;
    sheet.machinery = 499000;
    for (uint32_t line = 0; line < WB_FITTINGS; line++)
        sheet.fitting[line] = (wb_fitting){500 + 10 * line, 1 + line % 13};
    sheet.outboard = outboard;
    sheet.declared = declared;
    return sheet;
}

static void try_laden_loads(void)
{
    static const int loads[] = {0, 1, 2, 75, 76, 326, 900};
    wb_sheet outboard = laden_hull(1, 20000), low = laden_hull(1, 1500), inboard = laden_hull(0, 20000), low_inboard = laden_hull(0, 1500);
    begin_part("loads of hulls that have every volume and weight");
    for (size_t i = 0; i < sizeof loads / sizeof *loads; i++) {
        int64_t half = KILOGRAM * loads[i] - KILOGRAM / 2, whole = KILOGRAM * loads[i], whole_low = KILOGRAM_LOW_POWER * loads[i];
        expect_step('A', outboard, half, 1, loads[i]);
        expect_step('A', low, half, 1, loads[i]);
        expect_step('A', inboard, half, 5, loads[i]);
        expect_step('A', low_inboard, half, 5, loads[i]);
        expect_step('C', outboard, whole, 1, loads[i]);
        expect_step('C', inboard, whole, 1, loads[i]);
        expect_step('C', low, whole_low, 1, loads[i]);
        expect_step('C', low_inboard, whole_low, 1, loads[i]);
    }
}

/* Both loads of a sheet, by what they are above those of the base hull, in kilograms. */
static void expect_more(wb_sheet sheet, int a, int c)
{
    expect_load('A', &sheet, (uint32_t)(327 + a));
    sheet.tested = 24;
    expect_load('C', &sheet, (uint32_t)(326 + c));
}

/* What one number of the base hull adds to them. */
static void expect_added(wb_sheet sheet, int number, uint32_t more, int a, int c)
{
    numbers_of(&sheet)[number] += more;
    expect_more(sheet, a, c);
}

/* 50 kg on a line, as one piece and as more. */
static void expect_pieces_added(wb_sheet sheet, int line)
{
    static const wb_fitting pieces[] = {{50000, 1}, {25000, 2}, {5000, 10}, {1000, 50}, {625, 80}};
    for (size_t i = 0; i < sizeof pieces / sizeof *pieces; i++) {
        sheet.fitting[line] = pieces[i];
        expect_more(sheet, -10, -10);
    }
}

/* Every number of the volume and the weights, one at a time. */
static void try_shares(void)
{
    static const int lines[] = {4, 2, 4, 1}, depths[] = {1, 4, 2, 4, 2, 2}, grams[] = {10, -10, -10, -10, -10, -10};
    wb_sheet outboard = base_hull(), inboard = base_hull();
    begin_part("shares of each number in the loads");
    inboard.outboard = 0;
    lend_rows(weightless_powers, weightless, 1);
    expect_added(outboard, REFERENCE_NUMBER, 120, 11, 11);
    for (int station = 0; station < 4; station++) {
        int first = 7 + 7 * station;
        expect_added(outboard, first, 120, 4 * lines[station], 4 * lines[station]);
        for (int depth = 0; depth < 6; depth++)
            expect_added(outboard, first + 1 + depth, 225, depths[depth] * lines[station], depths[depth] * lines[station]);
    }
    for (int i = 0; i < 6; i++) {
        int tanks = i >= 4; /* fuel and machinery */
        expect_added(outboard, 35 + i, 50000, grams[i], grams[i]);
        expect_added(inboard, 35 + i, 50000, tanks ? 5 * grams[i] : grams[i], grams[i]);
    }
    for (int line = 0; line < WB_FITTINGS; line++)
        expect_pieces_added(outboard, line);
}

/* ---- whole boats, with the figures worked out apart ---- */

/* The boat of examples/no-two-alike.sheet. */
static void try_no_two_alike(void)
{
    static const uint32_t power = 48400, weight = 208000;
    wb_sheet sheet = base_hull();
    begin_part("a boat of which no two stations, volumes and weights are alike");
    lend_rows(&power, &weight, 1);
    sheet.length = 5100;
    sheet.reference = 4900;
    sheet.transom_width = 1700;
    sheet.transom_height = 510;
    sheet.remote = 1;
    sheet.station[0] = (wb_station){1210, 560, 498, 421, 333, 221, 79};
    sheet.station[1] = (wb_station){1690, 631, 594, 541, 467, 372, 188};
    sheet.station[2] = (wb_station){1830, 643, 612, 566, 503, 414, 247};
    sheet.station[3] = (wb_station){1750, 602, 583, 547, 494, 419, 271};
    sheet.aft = 52000;
    sheet.well = 18000;
    sheet.flooding = 29000;
    sheet.bare = 431000;
    sheet.fuel = 61000;
    sheet.machinery = 23000;
    sheet.declared = 33000;
    sheet.positions = 7;
    sheet.tested = 5;
    sheet.fitting[4] = (wb_fitting){8600, 1};
    sheet.fitting[23] = (wb_fitting){13700, 1};
    expect_plate('A', &sheet, 0, 536, 75000);
    expect_plate('C', &sheet, 0, 535, 4);
    expect_plate('U', &sheet, 0, 1191, 0);
    sheet.outboard = 0;
    expect_plate('A', &sheet, 0, 468, 0);
    expect_plate('C', &sheet, 0, 535, 5);
    expect_plate('U', &sheet, 0, 1150, 0);
}

/*
 * 24 lines of 99 pieces of 5050 g: with the bare boat they weigh 12198800 g, of 55000000 g of water. The aft structure brings plate A to a half and
 * plate C to a whole kilogram.
 */
static void try_dozens(void)
{
    static const struct {
        uint32_t aft, a, c;
    } loads[] = {{0, 8560, 8560}, {1299, 8560, 8560}, {1300, 8561, 8560}, {3799, 8561, 8560}, {3800, 8561, 8561}};
    begin_part("24 lines of 99 pieces");
    lend_rows(weightless_powers, weightless, 1);
    for (size_t i = 0; i < sizeof loads / sizeof *loads; i++) {
        wb_sheet sheet = base_hull();
        sheet.length = sheet.reference = 6000;
        for (int number = FIRST_READING; number < AFT_NUMBER; number++)
            numbers_of(&sheet)[number] = highest(number);
        for (int line = 0; line < WB_FITTINGS; line++)
            sheet.fitting[line] = (wb_fitting){5050, 99};
        sheet.aft = loads[i].aft;
        expect_load('A', &sheet, loads[i].a);
        expect_load('C', &sheet, loads[i].c);
    }
}

/* Every number at its highest, the most that can be marked, and the least. */
static void try_ends(void)
{
    static const uint32_t power = 200000, weight = 1000000;
    wb_sheet sheet = highest_sheet();
    begin_part("the most and the least on plates A and C");
    lend_rows(&power, &weight, 1);
    expect_plate('A', &sheet, 0, 7000, 225000);
    expect_plate('C', &sheet, 0, 7000, 24);
    sheet.outboard = 0;
    expect_plate('A', &sheet, 0, 6200, 0);
    sheet.well = sheet.flooding = sheet.fuel = sheet.machinery = 0;
    for (int line = 0; line < WB_FITTINGS; line++)
        sheet.fitting[line] = (wb_fitting){0, 0};
    sheet.bare = 1;
    sheet.declared = 1500;
    expect_plate('A', &sheet, 0, 12000, 0);
    expect_plate('C', &sheet, 0, 17999, 24);
    for (int number = FIRST_READING; number < FIRST_FITTING; number++)
        numbers_of(&sheet)[number] = number > AFT_NUMBER && number <= MACHINERY_NUMBER ? highest(number) : lowest(number);
    for (int line = 0; line < WB_FITTINGS; line++)
        sheet.fitting[line] = (wb_fitting){250000, 2};
    expect_plate('A', &sheet, 12, 0, 0);
    expect_plate('C', &sheet, 12, 0, 0);
}

/* ---- powers ---- */

/* The length and width of which the product is the nearest one not above, or not below, a number. The product is the answer. */
static uint32_t set_product(wb_sheet *sheet, uint32_t wanted, int above)
{
    uint32_t best = 0;
    for (uint32_t length = 2000; length <= 6000; length++) {
        uint32_t width = above ? (wanted + length - 1) / length : wanted / length, product = length * width;
        if (width < 500 || width > 3000 || (best && (above ? product >= best : product <= best)))
            continue;
        best = product;
        sheet->length = length;
        sheet->transom_width = width;
    }
    insist(best > 0, "the test's power factor has no length and width");
    return best;
}

/* The power of an outboard; 0 watts stand for refusal 13. */
static void expect_outboard_power(const wb_sheet *sheet, uint32_t watts)
{
    if (watts)
        expect_power(sheet, watts);
    else
        expect_plate('A', sheet, 13, 0, 0);
}

static void expect_power_at(uint32_t p, int above, uint32_t flat, uint32_t watts)
{
    wb_sheet sheet = base_hull();
    sheet.reference = 2000;
    sheet.flat = flat;
    set_product(&sheet, p, above);
    for (sheet.remote = 0; sheet.remote < 2; sheet.remote++)
        for (sheet.transom_height = 499; sheet.transom_height <= 500; sheet.transom_height++)
            expect_outboard_power(&sheet, watts);
    sheet.remote = 0;
    sheet.outboard = 0;
    expect_power(&sheet, 0);
}

static void try_power_rows(void)
{
    static const uint32_t bounds[] = {2250000, 3300000, 3600000, 3900000, 4200000, 5000000};
    static const uint32_t watts[] = {0, 1500, 3000, 4000, 5250, 7500, 12000};
    wb_sheet sheet;
    begin_part("power rows");
    for (int row = 0; row < 6; row++) {
        insist(set_product(&sheet, bounds[row], 1) == bounds[row], "no length and width give a row's bound exactly");
        expect_power_at(bounds[row], 1, 0, watts[row + 1]);
        expect_power_at(bounds[row], 1, 1, watts[row]);
        expect_power_at(bounds[row] - 1, 0, 0, watts[row + 1]);
        expect_power_at(bounds[row] - 1, 0, 1, watts[row]);
        if (row < 5) {
            expect_power_at(bounds[row] + 1, 1, 0, watts[row + 2]);
            expect_power_at(bounds[row] + 1, 1, 1, watts[row + 1]);
        }
    }
}

/* A flat bottom takes the row before its own to the end of the table, there too, and not above it. */
static void try_flat_line(void)
{
    static const struct {
        uint32_t length, width, flat, remote, height, watts;
    } hulls[] = {
        {2250, 1000, 1, 0, 500, 0},     {2251, 1000, 1, 0, 500, 1500},  {3300, 1000, 1, 0, 500, 1500},  {3301, 1000, 1, 0, 500, 3000},
        {4200, 1000, 1, 0, 500, 5250},  {4201, 1000, 1, 0, 500, 7500},  {4999, 1000, 1, 0, 500, 7500},  {5000, 1000, 1, 0, 500, 7500},
        {4000, 1250, 1, 0, 500, 7500},  {5001, 1000, 1, 0, 500, 10000}, {5000, 1000, 1, 1, 499, 7500},  {5001, 1000, 1, 1, 499, 10000},
        {4999, 1000, 1, 1, 500, 7500},  {5000, 1000, 1, 1, 500, 7500},  {5001, 1000, 1, 1, 500, 15000}, {5000, 1000, 1, 1, 900, 7500},
        {5000, 1000, 1, 0, 200, 7500},  {5000, 1000, 0, 0, 500, 12000}, {5000, 1000, 0, 1, 500, 12000}, {5001, 1000, 0, 0, 500, 15000},
        {5001, 1000, 0, 1, 500, 15000},
    };
    begin_part("flat bottoms about the end of the power table");
    for (size_t i = 0; i < sizeof hulls / sizeof *hulls; i++) {
        wb_sheet sheet = base_hull();
        sheet.reference = 2000;
        sheet.length = hulls[i].length;
        sheet.transom_width = hulls[i].width;
        sheet.flat = hulls[i].flat;
        sheet.remote = hulls[i].remote;
        sheet.transom_height = hulls[i].height;
        expect_outboard_power(&sheet, hulls[i].watts);
    }
}

/* One formula, factor * P/2000 - off: the last product that gives a multiple of 5000 watts, and the next, which gives the multiple after it. */
static void try_formula(wb_sheet sheet, uint32_t factor, uint32_t off)
{
    int exact = 0;
    for (uint32_t multiple = 0; multiple < 300000; multiple += 5000) {
        uint64_t bound = (uint64_t)2000 * (multiple + off);
        uint32_t p = (uint32_t)(bound / factor);
        if (p > 18000000 || p < 5000000)
            continue;
        exact += set_product(&sheet, p, 0) == p && bound % factor == 0;
        if (p > 5000000)
            expect_power(&sheet, multiple);
        if (p == 18000000)
            continue;
        set_product(&sheet, p + 1, 1);
        expect_power(&sheet, multiple + 5000);
    }
    insist(exact > 0, "no power formula was tried at an exact multiple");
}

static void try_formulas(void)
{
    wb_sheet sheet = base_hull();
    begin_part("power formulas");
    sheet.reference = 2000;
    for (sheet.flat = 0; sheet.flat < 2; sheet.flat++) {
        uint32_t factor = sheet.flat ? 8 : 13, off = sheet.flat ? 11000 : 20000;
        sheet.remote = 0;
        sheet.transom_height = 500;
        try_formula(sheet, factor, off);
        sheet.remote = 1;
        try_formula(sheet, 32, 67000);
        sheet.transom_height = 499;
        try_formula(sheet, factor, off);
    }
    /* just above the last row, where it is the formulas' turn */
    set_product(&sheet, 5000001, 1);
    sheet.flat = 0;
    expect_power(&sheet, 15000);
    sheet.flat = 1;
    expect_power(&sheet, 10000);
}

/* ---- persons ---- */

/* A live load is made of a marked load and an engine that weighs the rest. */
static wb_answer persons_at(int64_t live, uint32_t positions, uint32_t tested)
{
    wb_sheet sheet = base_hull();
    uint32_t power = 20000, load = live > 0 ? (uint32_t)(live / 1000 + 8) : 1, weight = (uint32_t)(1000 * (int64_t)load - live);
    sheet.positions = positions;
    sheet.tested = tested;
    set_net(&sheet, KILOGRAM * load, 1);
    lend_rows(&power, &weight, 1);
    enter_alone(&sheet);
    wb_answer trial = attempt((struct call){.kind = TRIAL_C, .desk = 3}), answer = attempt((struct call){.kind = PLATE_C});
    expect(trial, answer.refusal, answer.first, answer.second);
    insist(answer.refusal || answer.first == load, "the marked load is not the one that the test made");
    return answer;
}

static void expect_persons(int64_t live, uint32_t positions, uint32_t tested, uint32_t persons)
{
    wb_answer answer = persons_at(live, positions, tested);
    expect(answer, persons ? 0 : 15, answer.first, persons);
}

static void try_persons(void)
{
    begin_part("live loads");
    for (uint32_t count = 0; count <= 26; count++) {
        uint32_t capped = count < 24 ? count : 24, one_less = count > 25 ? 24 : count > 0 ? count - 1 : 0;
        expect_persons(75000 * (int64_t)count, 24, 24, capped);
        expect_persons(75000 * (int64_t)count + 1, 24, 24, capped);
        expect_persons(75000 * (int64_t)count - 1, 24, 24, one_less);
        expect_persons(75000 * (int64_t)count, 24, 1, count > 0);
        expect_persons(75000 * (int64_t)count, 1, 24, count > 0);
        expect_persons(75000 * (int64_t)count, 24, 3, count < 3 ? count : 3);
        expect_persons(75000 * (int64_t)count, 4, 24, count < 4 ? count : 4);
        if (count >= 4)
            expect_persons(75000 * (int64_t)count, 24, 0, capped);
    }
    expect_persons(250000, 24, 0, 3);
    expect_persons(250001, 2, 0, 2);
    expect_persons(249999, 24, 1, 1);
    expect(persons_at(249999, 24, 0), 14, 0, 0);
    expect(persons_at(75000, 24, 0), 14, 0, 0);
    for (int64_t live = -1; live > -1000000; live -= 74999) {
        expect(persons_at(live, 24, 0), 14, 0, 0);
        expect(persons_at(live, 24, 24), 15, 0, 0);
    }
}

/* ---- engine rows ---- */

/* Rows at the declared power and beside it, of which the weights leave 12, 8 or 4 persons of a load of 1000. */
static void try_reaching_rows(void)
{
    static const uint32_t weights[] = {100000, 400000, 700000}, persons[] = {12, 8, 4}, declared[] = {2, 1500, 1501, 20000, 199999};
    begin_part("engine rows and the declared power");
    for (size_t i = 0; i < sizeof declared / sizeof *declared; i++) {
        wb_sheet sheet = base_hull();
        uint32_t powers[3] = {declared[i] - 1, declared[i], declared[i] + 1};
        sheet.positions = 24;
        sheet.declared = declared[i];
        set_net(&sheet, (declared[i] > 1500 ? KILOGRAM : KILOGRAM_LOW_POWER) * 1000, 1);
        for (size_t first = 0; first < 3; first++)
            for (size_t count = 1; first + count <= 3; count++) {
                size_t reaching = first > 0 ? first : 1;
                lend_rows(powers + first, weights + first, count);
                if (first + count <= 1)
                    expect_plate('C', &sheet, 11, 0, 0);
                else
                    expect_plate('C', &sheet, 0, 1000, persons[reaching]);
            }
        sheet.outboard = 0;
        lend_rows(powers, weights, 1);
        expect_plate('C', &sheet, 0, 1000, 13);
    }
}

static void try_no_declared_power(void)
{
    static const uint32_t power = 1, weight = 1000000, top = 200000;
    wb_sheet sheet = base_hull();
    sheet.positions = 24;
    sheet.declared = 0;
    set_net(&sheet, KILOGRAM_LOW_POWER * 1000, 1);
    lend_rows(&power, &weight, 1);
    expect_plate('C', &sheet, 0, 1000, 13);
    sheet.declared = 1;
    sheet.tested = 1;
    expect_plate('C', &sheet, 15, 0, 0);
    sheet.declared = 200000;
    set_net(&sheet, KILOGRAM * 1075, 1);
    expect_plate('C', &sheet, 11, 0, 0);
    lend_rows(&top, &weight, 1);
    expect_plate('C', &sheet, 0, 1075, 1);
}

/* A number of the rows changed, and what plate C then answers of a hull that it would otherwise accept. */
static void expect_rows(size_t rows, enum buffer buffer, size_t at, uint32_t number, uint32_t refusal)
{
    uint32_t powers[41], weights[41];
    for (uint32_t i = 0; i < rows; i++) {
        powers[i] = 199000 + 10 * i;
        weights[i] = 1000 * i;
    }
    (buffer == POWERS ? powers : weights)[at] = number;
    lend_rows(powers, weights, rows);
    wb_answer plate = attempt((struct call){.kind = PLATE_C}), trial = attempt((struct call){.kind = TRIAL_C, .desk = 3});
    expect(plate, refusal, plate.first, plate.second);
    expect(trial, refusal, plate.first, plate.second);
}

static void try_bad_rows(void)
{
    wb_sheet sheet = base_hull();
    begin_part("engine rows, right and wrong");
    sheet.outboard = 0; /* the rows are judged where they are not needed too */
    enter_alone(&sheet);
    for (uint32_t rows = 1; rows <= 41; rows++) {
        uint32_t last = rows - 1, over = rows > 40 ? 10 : 0;
        expect_rows(rows, WEIGHTS, last, 1000000, over);
        expect_rows(rows, WEIGHTS, last, 1000001, 10);
        expect_rows(rows, WEIGHTS, 0, 0xFFFFFFFF, 10);
        expect_rows(rows, POWERS, last, 200000, over);
        expect_rows(rows, POWERS, last, 200001, 10);
        expect_rows(rows, POWERS, last, 0xFFFFFFFF, 10);
        expect_rows(rows, POWERS, 0, 0, 10);
        expect_rows(rows, POWERS, 0, 1, over);
        if (rows == 1)
            continue;
        expect_rows(rows, POWERS, last, 199000 + 10 * (last - 1), 10);
        expect_rows(rows, POWERS, last, 199000 + 10 * (last - 1) + 1, over);
        expect_rows(rows, POWERS, rows / 2, 199000 + 10 * (rows / 2) - 10, 10);
    }
}

static void try_unequal_rows(void)
{
    static const size_t sizes[][2] = {{0, 0}, {0, 1}, {1, 0}, {1, 2}, {2, 1}, {40, 39}, {39, 40}, {41, 40}, {40, 41}, {41, 41}, {64, 64}, {40, 0}};
    for (size_t i = 0; i < sizeof sizes / sizeof *sizes; i++) {
        lend_slices(sizes[i][0], sizes[i][1]);
        for (uint32_t j = 0; j < 64; j++) {
            lent[POWERS].words[j] = 1000 + j;
            lent[WEIGHTS].words[j] = j;
        }
        expect(attempt((struct call){.kind = PLATE_C}), 10, 0, 0);
        expect(attempt((struct call){.kind = TRIAL_C, .desk = 3}), 10, 0, 0);
    }
}

/* ---- the order of the plates' refusals, two at a time ---- */

static void try_plate_order(void)
{
    static const uint32_t power = 19999, weight = 1000000;
    wb_sheet sheet = base_hull();
    begin_part("order of the plates' refusals");
    sheet.flat = 1;
    sheet.length = sheet.reference = 2000;
    sheet.transom_width = 1000;
    sheet.bare = 2000000;
    sheet.tested = 0;
    lend_slices(0, 0);
    expect_plate('A', &sheet, 12, 0, 0); /* and not 13 */
    expect_plate('C', &sheet, 10, 0, 0); /* and not 12 */
    lend_rows(&power, &weight, 1);
    expect_plate('C', &sheet, 12, 0, 0); /* and not 11 */
    sheet.bare = 1;
    expect_plate('A', &sheet, 13, 0, 0);
    expect_plate('C', &sheet, 11, 0, 0); /* and not 14 */
    sheet.declared = 19999;
    expect_plate('C', &sheet, 14, 0, 0); /* and not 15 */
    sheet.tested = 1;
    expect_plate('C', &sheet, 15, 0, 0);
}

void try_plate_edges(void)
{
    try_loads();
    try_laden_loads();
    try_shares();
    try_no_two_alike();
    try_dozens();
    try_ends();
    try_power_rows();
    try_flat_line();
    try_formulas();
    try_persons();
    try_reaching_rows();
    try_no_declared_power();
    try_bad_rows();
    try_unequal_rows();
    try_plate_order();
}
