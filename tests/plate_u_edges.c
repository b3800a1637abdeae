/*
 * plate_u_edges.c: plate U at the bounds of its rules and one gram beside them: the declared power, whole pounds of its four figures, the two figures
 * of an inboard. The pounds of each sheet were worked out apart, as fractions, and stand here in figures, but for the bounds of whole pounds, which are worked
 * out from the pound.
 */
#include "material.h"
#include "parts.h"
#include "steps.h"
#include "water.h"

/* 0 pounds and below stand for refusal 12. */
static void expect_pounds(const wb_sheet *sheet, int64_t pounds)
{
    expect_plate('U', sheet, pounds < 1 ? 12 : 0, pounds < 1 ? 0 : (uint32_t)pounds, 0);
}

/* ---- the base hull ---- */

static void try_base_hull(void)
{
    static const struct {
        uint32_t outboard, declared, bare, fuel, machinery, pounds;
    } hulls[] = {
        {1, 20000, 200000, 0, 0, 720}, {1, 200000, 200000, 0, 0, 720}, {1, 1501, 200000, 0, 0, 720}, {1, 1500, 200000, 0, 0, 720},
        {1, 1492, 200000, 0, 0, 720}, {1, 1491, 200000, 0, 0, 1080}, {1, 1490, 200000, 0, 0, 1080}, {1, 1, 200000, 0, 0, 1080},
        {1, 0, 200000, 0, 0, 1080},
        /* tanks count above 1491 W and machinery never */
        {1, 20000, 200000, 20000, 0, 711}, {1, 20000, 200000, 20812, 0, 711}, {1, 20000, 200000, 20813, 0, 710}, {1, 1491, 200000, 20000, 0, 1080},
        {1, 20000, 200000, 500000, 0, 499}, {1, 0, 200000, 500000, 0, 1080}, {1, 20000, 200000, 0, 500000, 720}, {1, 1491, 200000, 0, 500000, 1080},
        /* an inboard, whatever its power */
        {0, 20000, 200000, 0, 0, 720}, {0, 1491, 200000, 0, 0, 720}, {0, 0, 200000, 0, 0, 720}, {0, 20000, 200000, 0, 50000, 631},
        {0, 1492, 200000, 0, 50000, 631}, {0, 1491, 200000, 0, 50000, 631}, {0, 1000, 200000, 0, 50000, 631}, {0, 0, 200000, 0, 50000, 631},
        {0, 20000, 200000, 0, 50562, 631}, {0, 20000, 200000, 0, 50563, 630}, {0, 20000, 200000, 0, 116333, 515}, {0, 20000, 200000, 0, 116334, 514},
        {0, 20000, 200000, 0, 500000, 514}, {0, 0, 200000, 0, 500000, 514}, {0, 20000, 200000, 20000, 50000, 623},
        {0, 20000, 200000, 20000, 500000, 508}, {0, 0, 200000, 20000, 500000, 508}, {0, 20000, 201307, 0, 500000, 514},
        {0, 20000, 201308, 0, 500000, 513},
        /* the last gram of a pound, the next, and a boat heavier than its water */
        {1, 20000, 1831065, 0, 0, 1}, {1, 20000, 1831066, 0, 0, 0}, {1, 1491, 1831821, 0, 0, 1}, {1, 1491, 1831822, 0, 0, 0},
        {0, 20000, 1831065, 0, 0, 1}, {0, 20000, 1831066, 0, 0, 0}, {0, 20000, 1830665, 0, 100, 1}, {0, 20000, 1830666, 0, 100, 0},
        {0, 20000, 1830158, 0, 500000, 1}, {0, 20000, 1830159, 0, 500000, 0}, {1, 20000, 2000000, 0, 0, 0}, {1, 0, 2000000, 0, 0, 0},
        {0, 20000, 2000000, 0, 500000, 0},
    };
    begin_part("plate U of the base hull");
    for (size_t i = 0; i < sizeof hulls / sizeof *hulls; i++) {
        wb_sheet sheet = base_hull();
        sheet.outboard = hulls[i].outboard;
        sheet.declared = hulls[i].declared;
        sheet.bare = hulls[i].bare;
        sheet.fuel = hulls[i].fuel;
        sheet.machinery = hulls[i].machinery;
        expect_pounds(&sheet, hulls[i].pounds);
    }
}

/* Every number of the volume and the weights, one at a time. */
static void try_water_shares(void)
{
    static const uint32_t stations[4][7] = {{755, 728, 755, 737, 755, 737, 737}, {737, 724, 737, 728, 737, 728, 728},
                                            {755, 728, 755, 737, 755, 737, 737}, {728, 722, 728, 724, 728, 724, 724}};
    wb_sheet sheet = base_hull();
    begin_part("shares of each number of the volume in plate U");
    sheet.reference = 4120;
    expect_pounds(&sheet, 744);
    for (int station = 0; station < 4; station++)
        for (int reading = 0; reading < 7; reading++) {
            sheet = base_hull();
            numbers_of(&sheet)[FIRST_READING + 7 * station + reading] += reading == 0 ? 120 : 225;
            expect_pounds(&sheet, stations[station][reading]);
        }
}

/* 50 kg more of each number from the aft structure to the machinery, then of a fitting on each line, by one piece and by forty. */
static void try_weight_shares(void)
{
    static const struct {
        uint32_t outboard, declared, machinery, pounds[6], fitting;
    } hulls[] = {
        {1, 20000, 0, {742, 698, 698, 698, 698, 720}, 698},
        {1, 1491, 0, {1113, 1047, 1047, 1047, 1080, 1080}, 1047},
        {0, 20000, 50000, {654, 609, 609, 609, 609, 543}, 609},
        {0, 20000, 400000, {530, 498, 498, 498, 498, 514}, 498},
    };
    begin_part("shares of each weight in plate U");
    for (size_t i = 0; i < sizeof hulls / sizeof *hulls; i++) {
        wb_sheet hull = base_hull();
        hull.outboard = hulls[i].outboard;
        hull.declared = hulls[i].declared;
        hull.machinery = hulls[i].machinery;
        for (int number = AFT_NUMBER; number <= MACHINERY_NUMBER; number++) {
            wb_sheet sheet = hull;
            numbers_of(&sheet)[number] += 50000;
            expect_pounds(&sheet, hulls[i].pounds[number - AFT_NUMBER]);
        }
        for (int line = 0; line < WB_FITTINGS; line++) {
            wb_sheet sheet = hull;
            sheet.fitting[line] = (wb_fitting){50000, 1};
            expect_pounds(&sheet, hulls[i].fitting);
            sheet.fitting[line] = (wb_fitting){1250, 40};
            expect_pounds(&sheet, hulls[i].fitting);
        }
    }
}

/* ---- a boat of which no two stations, volumes or weights are alike ---- */

/* Its water is 3,722,071 g, its fittings weigh 62,400 g. */
static wb_sheet launch(void)
{
    wb_sheet sheet = base_hull();
    sheet.length = 5400;
    sheet.reference = 5250;
    sheet.station[0] = (wb_station){1180, 640, 566, 472, 360, 232, 70};
    sheet.station[1] = (wb_station){1720, 742, 690, 612, 508, 372, 160};
    sheet.station[2] = (wb_station){1880, 748, 706, 640, 548, 420, 214};
    sheet.station[3] = (wb_station){1620, 650, 622, 574, 506, 402, 237};
    sheet.aft = 46000;
    sheet.well = 71000;
    sheet.flooding = 30500;
    sheet.bare = 612000;
    sheet.fuel = 42000;
    sheet.machinery = 138000;
    sheet.fitting[0] = (wb_fitting){3700, 4};
    sheet.fitting[1] = (wb_fitting){5400, 3};
    sheet.fitting[12] = (wb_fitting){22000, 1};
    sheet.fitting[23] = (wb_fitting){940, 10};
    return sheet;
}

/* Each number that moves a figure at its last gram or cubic centimetre of so many pounds, and at the next; one that does not move it, at its most. */
static void try_last_grams(void)
{
    static const struct {
        uint32_t outboard, declared, machinery, pounds, last[7]; /* of the aft structure to the machinery, then a fitting; 0: it moves nothing */
    } forms[] = {
        {1, 20000, 138000, 1325, {47646, 71621, 31121, 612621, 42621, 0, 22621}},
        {1, 1491, 138000, 2015, {46469, 72042, 31542, 613042, 0, 0, 23042}},
        {0, 20000, 138000, 1081, {46263, 73004, 32504, 614004, 44004, 138501, 24004}},
        {0, 20000, 320000, 946, {47192, 72982, 32482, 613982, 43982, 0, 23982}},
    };
    begin_part("last grams on plate U");
    for (size_t form = 0; form < sizeof forms / sizeof *forms; form++)
        for (int i = 0; i < 7; i++) {
            wb_sheet sheet = launch();
            uint32_t *number = i < 6 ? &numbers_of(&sheet)[AFT_NUMBER + i] : &sheet.fitting[12].weight;
            uint32_t last = forms[form].last[i], pounds = forms[form].pounds;
            sheet.outboard = forms[form].outboard;
            sheet.declared = forms[form].declared;
            sheet.machinery = forms[form].machinery;
            expect_pounds(&sheet, pounds);
            *number = last ? last : 500000;
            expect_pounds(&sheet, pounds);
            *number += last ? 1 : 0;
            expect_pounds(&sheet, last == 0 ? pounds : i == 0 ? pounds + 1 : pounds - 1);
        }
}

/* Both figures of an inboard equal, then the machinery and the boat one gram lighter and heavier. */
static void try_equal_figures(void)
{
    static const struct {
        uint32_t bare, machinery, pounds;
    } boats[] = {
        {1515725, 150139, 661}, /* both 661.9997 */
        {1515725, 150138, 662}, /* by the fifth alone */
        {1515725, 150140, 661},
        {1515724, 150139, 662}, /* by the fifth alone */
        {1515726, 150139, 661},
        {1388717, 159211, 702}, /* both 702.0003 */
        {1388717, 159210, 702},
        {1388717, 159212, 702}, /* by the seventh alone */
        {1388716, 159211, 702},
        {1388718, 159211, 702}, /* by the seventh alone */
    };
    begin_part("the two figures of an inboard");
    for (size_t i = 0; i < sizeof boats / sizeof *boats; i++) {
        wb_sheet sheet = launch();
        sheet.outboard = 0;
        sheet.bare = boats[i].bare;
        sheet.machinery = boats[i].machinery;
        expect_pounds(&sheet, boats[i].pounds);
    }
}

/* The same by the last unit: 14 times the machinery, where the two are equal, and so many 180000ths of a gram more. */
static void try_nearly_equal_figures(void)
{
    static const struct {
        uint32_t machinery;
        int64_t units;
        uint32_t pounds;
    } boats[] = {
        {225889, 0, 995}, {225889, 467, 995},
        {225889, 468, 996}, {225889, 654, 996}, /* by the fifth alone */
        {416171, 0, 1835}, {416171, -945, 1835},
        {416171, -946, 1835}, {416171, -1323, 1835}, /* by the seventh alone */
        {416171, -1324, 1834},
    };
    for (size_t i = 0; i < sizeof boats / sizeof *boats; i++) {
        wb_sheet sheet = base_hull();
        sheet.outboard = 0;
        sheet.machinery = boats[i].machinery;
        set_water(&sheet, GRAM * (14 * (int64_t)boats[i].machinery + 200000) + boats[i].units);
        expect_pounds(&sheet, boats[i].pounds);
    }
}

/* ---- whole pounds ---- */

/* A sheet whose figure is a whole number of pounds exactly, and then one gram heavier and lighter. */
static void expect_exact(wb_sheet sheet, uint32_t pounds)
{
    expect_pounds(&sheet, pounds);
    sheet.bare++;
    expect_pounds(&sheet, pounds - 1);
    sheet.bare -= 2;
    expect_pounds(&sheet, pounds);
    sheet.fitting[6] = (wb_fitting){1, 1};
    expect_pounds(&sheet, pounds);
    sheet.fitting[6].count++; /* a second piece of a gram */
    expect_pounds(&sheet, pounds - 1);
    sheet.aft++;
    expect_pounds(&sheet, pounds);
    sheet.well++;
    expect_pounds(&sheet, pounds - 1);
}

static void try_exact_sheets(void)
{
    static const struct {
        uint32_t reference, t_b, t_q, outboard, declared, bare, fuel, machinery, fitting, pounds;
    } boats[] = {
        {4200, 1241, 507, 1, 20000, 500000, 20000, 300000, 9452, 600},
        {4200, 1241, 507, 1, 1491, 520000, 20000, 300000, 9452, 900},
        {4200, 1241, 507, 0, 20000, 420000, 20000, 20000, 9452, 600},
        {4203, 1265, 524, 0, 20000, 280000, 20000, 150000, 7926, 500},
    };
    wb_sheet sheet = base_hull();
    begin_part("whole pounds of a sheet");
    sheet.length = 6000;
    sheet.reference = 4065;
    sheet.station[3] = (wb_station){9, 501, 500, 500, 500, 500, 500};
    sheet.bare = 5643;
    expect_exact(sheet, 745);
    for (size_t i = 0; i < sizeof boats / sizeof *boats; i++) {
        sheet = base_hull();
        sheet.reference = boats[i].reference;
        sheet.station[0] = (wb_station){900, 520, 462, 386, 296, 190, 58};
        sheet.station[1] = (wb_station){1340, 600, 558, 494, 410, 300, 130};
        sheet.station[2] = (wb_station){1460, 604, 570, 516, 442, 338, 172};
        sheet.station[3] = (wb_station){boats[i].t_b, boats[i].t_q, 502, 462, 408, 324, 190};
        sheet.outboard = boats[i].outboard;
        sheet.declared = boats[i].declared;
        sheet.bare = boats[i].bare;
        sheet.fuel = boats[i].fuel;
        sheet.machinery = boats[i].machinery;
        sheet.fitting[23] = (wb_fitting){boats[i].fitting / 2, 2};
        expect_exact(sheet, boats[i].pounds);
    }
}

/* A pound of each figure, in the rules' grams times 180000: 5, 10/3 and 7 times 453.59237 g. Of a seventh only five pounds are a whole number. */
#define FIFTH_POUND ((int64_t)408233133)
#define THREE_TENTHS_POUND ((int64_t)272155422)
#define SEVENTH_FIVE_POUNDS ((int64_t)2857631931)

static int64_t seventh_pounds(int64_t pounds)
{
    int64_t fifths = SEVENTH_FIVE_POUNDS * pounds;
    return (fifths + (fifths > 0 ? 4 : 0)) / 5; /* the first whole number that is not less */
}

/* The water is so much more than the grams that come off it: at a bound, below which it is a pound less, and one unit and one gram on each side. */
static void expect_step(wb_sheet sheet, int64_t off, int64_t bound, int64_t pounds)
{
    static const int64_t beside[] = {0, 1, GRAM, -1, -GRAM};
    for (size_t i = 0; i < sizeof beside / sizeof *beside; i++) {
        set_water(&sheet, GRAM * off + bound + beside[i]);
        expect_pounds(&sheet, beside[i] < 0 ? pounds - 1 : pounds);
    }
}

/* An inboard of so many pounds, on both sides of 226.8 g of machinery to a pound, where its two figures are equal; below 0 the seventh is the greater. */
static void try_inboard_pounds(wb_sheet sheet, int64_t with_tanks, int pounds)
{
    sheet.outboard = 0;
    sheet.machinery = pounds > 0 ? 200 * (uint32_t)pounds : 0;
    if (pounds > 0)
        expect_step(sheet, with_tanks + 4 * (int64_t)sheet.machinery, FIFTH_POUND * pounds, pounds);
    else
        expect_step(sheet, with_tanks, seventh_pounds(pounds), pounds);
    sheet.machinery = pounds > 0 ? 230 * (uint32_t)pounds : 7;
    expect_step(sheet, with_tanks, seventh_pounds(pounds), pounds);
}

/* Hulls that have every volume and weight. */
static void try_whole_pounds(void)
{
    static const int counts[] = {-900, -2, -1, 0, 1, 2, 3, 4, 5, 75, 720, 1000, 1999, 2000};
    wb_sheet high = base_hull();
    begin_part("whole pounds of each figure");
    high.well = 765;
    high.flooding = 4321;
    high.fuel = 12345;
    high.machinery = 98765;
    for (uint32_t line = 0; line < WB_FITTINGS; line++)
        high.fitting[line] = (wb_fitting){100 + line, 1 + line % 11};
    int64_t boat = (int64_t)grams_of(&high), with_tanks = boat + high.fuel;
    wb_sheet low = high;
    low.declared = 1491;
    for (size_t i = 0; i < sizeof counts / sizeof *counts; i++) {
        expect_step(high, with_tanks, FIFTH_POUND * counts[i], counts[i]);
        expect_step(low, boat, THREE_TENTHS_POUND * counts[i], counts[i]);
        try_inboard_pounds(high, with_tanks, counts[i]);
        try_inboard_pounds(low, with_tanks, counts[i]);
    }
}

/* ---- the ends of the limits ---- */

static void try_ends(void)
{
    static const struct {
        uint32_t outboard, declared, fuel, machinery, most;
    } forms[] = {
        {1, 1491, 0, 0, 39683}, {1, 0, 500000, 500000, 39683}, {1, 1492, 0, 0, 26455}, {1, 200000, 0, 500000, 26455}, {0, 200000, 0, 0, 26455},
        {0, 200000, 0, 500000, 25573},
    };
    begin_part("the most and the least on plate U");
    for (size_t i = 0; i < sizeof forms / sizeof *forms; i++) {
        wb_sheet sheet = base_hull();
        sheet.length = sheet.reference = 6000;
        for (int number = FIRST_READING; number < AFT_NUMBER; number++)
            numbers_of(&sheet)[number] = highest(number);
        sheet.aft = 5000000;
        sheet.bare = 1;
        sheet.outboard = forms[i].outboard;
        sheet.declared = forms[i].declared;
        sheet.fuel = forms[i].fuel;
        sheet.machinery = forms[i].machinery;
        expect_pounds(&sheet, forms[i].most);
        for (int number = FIRST_READING; number <= AFT_NUMBER; number++)
            numbers_of(&sheet)[number] = 0;
        for (int line = 0; line < WB_FITTINGS; line++)
            sheet.fitting[line] = (wb_fitting){500000, 1};
        sheet.well = sheet.flooding = 5000000;
        sheet.bare = 2000000;
        sheet.fuel = sheet.machinery = 500000;
        expect_pounds(&sheet, 0);
    }
    /* the most by the seventh: the heaviest machinery, where the two are equal */
    wb_sheet sheet = base_hull();
    sheet.outboard = 0;
    sheet.machinery = 500000;
    set_water(&sheet, GRAM * (7000000 + 200000));
    expect_pounds(&sheet, 2204);
}

/* 24 lines of 99 pieces of 5050 g: with the bare boat they weigh 12198800 g, of 55000000 g of water. */
static void try_dozens(void)
{
    wb_sheet sheet = base_hull();
    begin_part("24 lines of 99 pieces on plate U");
    sheet.length = sheet.reference = 6000;
    for (int number = FIRST_READING; number < AFT_NUMBER; number++)
        numbers_of(&sheet)[number] = highest(number);
    for (int line = 0; line < WB_FITTINGS; line++)
        sheet.fitting[line] = (wb_fitting){5050, 99};
    sheet.aft = 2043;
    expect_pounds(&sheet, 18872);
    sheet.aft = 2044;
    expect_pounds(&sheet, 18873);
}

/* ---- what the other plates ask and plate U does not ---- */

/* A flat bottom too small for a power, no engine rows, one seat: 13 on plate A, 10 on plate C. */
static void try_other_plates(void)
{
    wb_sheet sheet = base_hull();
    begin_part("plate U of a hull that the other plates refuse");
    sheet.length = sheet.reference = 2000;
    sheet.transom_width = 1000;
    sheet.flat = 1;
    sheet.positions = 1;
    lend_slices(0, 0);
    expect_plate('A', &sheet, 13, 0, 0);
    expect_plate('C', &sheet, 10, 0, 0);
    expect_pounds(&sheet, 315);
}

/* ---- each hull and each draft its own ---- */

static void try_full_register(void)
{
    static const uint32_t hulls[WB_HULLS] = {720, 698, 676, 654, 631, 609, 587, 565, 543, 521, 499, 477, 455, 433, 411, 389};
    static const uint32_t drafts[WB_DESKS] = {654, 609, 565, 521, 477, 433, 389, 345};
    begin_part("plate U of sixteen hulls and eight drafts");
    start_fresh();
    for (uint32_t hull = 0; hull < WB_HULLS; hull++) {
        wb_sheet sheet = base_hull();
        sheet.bare += 50000 * hull;
        lend_text_of(&sheet);
        expect(attempt((struct call){.kind = NEW_HULL}), 0, hull, 0);
    }
    for (uint32_t desk = 0; desk < WB_DESKS; desk++) {
        expect(attempt((struct call){.kind = OPEN, .desk = desk, .hull = 2 * desk + 1}), 0, 0, 0);
        expect(attempt((struct call){.kind = SET_FITTING, .desk = desk, .line = desk + 1, .weight = 25000, .count = 4}), 0, 0, 0);
    }
    for (uint32_t hull = 0; hull < WB_HULLS; hull++)
        expect(attempt((struct call){.kind = PLATE_U, .hull = hull}), 0, hulls[hull], 0);
    for (uint32_t desk = 0; desk < WB_DESKS; desk++)
        expect(attempt((struct call){.kind = TRIAL_U, .desk = desk}), 0, drafts[desk], 0);
}

void try_plate_u_edges(void)
{
    try_base_hull();
    try_water_shares();
    try_weight_shares();
    try_last_grams();
    try_equal_figures();
    try_nearly_equal_figures();
    try_exact_sheets();
    try_whole_pounds();
    try_ends();
    try_dozens();
    try_other_plates();
    try_full_register();
}
