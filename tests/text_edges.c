/* text_edges.c: texts at the bounds of the rules, texts whose answer the rules give in figures, and outputs that just do or just do not have room. */
#include "material.h"
#include "parts.h"
#include "random.h"
#include "steps.h"

#include <string.h>

#define LONGEST_TEXT 4096

static void lend_sheet(const wb_sheet *sheet)
{
    memcpy(lend(SHEET, sizeof *sheet), sheet, sizeof *sheet);
}

static void expect_read(uint32_t refusal, uint32_t line, uint32_t byte)
{
    expect(read_sheet(), refusal, line, byte);
}

/* ---- limits ---- */

/* The field of a sheet's number, where a fitting is on the only line of them; tags and stations' letters are fields too. */
static size_t field_of(int number)
{
    static const int first[] = {0, 1, 7, 14, 21, 28, 35, 38, 41, 43, FIRST_FITTING}, tags[] = {1, 1, 2, 2, 2, 2, 1, 1, 1, 1, 2};
    size_t field = (size_t)(number < FIRST_FITTING ? number : FIRST_FITTING + (number - FIRST_FITTING) % 2);
    for (size_t line = 0; line < sizeof first / sizeof *first && first[line] <= number; line++)
        field += (size_t)tags[line];
    return field;
}

/* A sheet as text and as a sheet to be written: both are judged alike, but for what a text cannot say. */
static void expect_within(wb_sheet sheet)
{
    lend_text_of(&sheet);
    expect_read(0, 0, 0);
    insist(memcmp(lent[SHEET].words, &sheet, sizeof sheet) == 0, "the sheet that was read is not the one that the text was made of");
    lend_sheet(&sheet);
    lend_out(WB_SHEET_TEXT);
    expect(attempt((struct call){.kind = WRITE_SHEET}), 0, (uint32_t)lent[TEXT].size, 0);
    insist(memcmp(lent[OUT].words, lent[TEXT].words, lent[TEXT].size) == 0, "the text that was written is not the sheet's one text");
}

/* One of its numbers is outside its limits: of a text that is a place, of a sheet to be written the number alone. */
static void expect_outside(wb_sheet sheet, int number)
{
    lend_text_of(&sheet);
    expect_at_field(read_sheet(), 3, field_of(number), 0);
    lend_sheet(&sheet);
    lend_out(WB_SHEET_TEXT);
    expect(attempt((struct call){.kind = WRITE_SHEET}), 3, 0, 0);
}

/* One piece of a gram where the number is a fitting's: neither of the two may be 0 alone. */
static void fill_line(wb_sheet *sheet, int number)
{
    if (number >= FIRST_FITTING)
        sheet->fitting[(number - FIRST_FITTING) / 2] = (wb_fitting){1, 1};
}

static void try_limits(void)
{
    begin_part("limits of every number");
    for (int number = 0; number < SHEET_NUMBERS; number++) {
        uint32_t low = number == TESTED_NUMBER ? 0 : lowest(number), high = highest(number);
        const uint32_t within[] = {low, low + 1, high, high - 1}, outside[] = {high + 1, high + 256, high + 65536, 0xFFFFFFFF, low - 1};
        wb_sheet sheet = base_hull();
        sheet.length = 6000;
        sheet.reference = 2000;
        fill_line(&sheet, number);
        for (size_t i = 0; i < sizeof within / sizeof *within; i++) {
            numbers_of(&sheet)[number] = within[i];
            expect_within(sheet);
        }
        for (size_t i = 0; i < sizeof outside / sizeof *outside; i++) {
            numbers_of(&sheet)[number] = outside[i];
            expect_outside(sheet, number);
        }
    }
    for (uint32_t length = 2000; length <= 6000; length += 500) {
        wb_sheet sheet = base_hull();
        sheet.length = sheet.reference = length;
        expect_within(sheet);
        sheet.reference++;
        expect_outside(sheet, REFERENCE_NUMBER);
    }
}

/* What all pieces of a line weigh, each number within limits of its own: it is judged at the count. */
static void try_products(void)
{
    /* products that 32 bits would take for 1 to 500000 */
    static const wb_fitting wrapping[] = {{0x80000001, 2}, {43383509, 99}, {2, 0x80000001}, {500000, 8590}, {0xFFFFFFFF, 0xFFFFFFFF}};
    begin_part("weight of one times count");
    for (uint32_t count = 1; count <= 99; count++)
        for (int line = 0; line < WB_FITTINGS; line += 23) {
            int number = FIRST_FITTING + 2 * line + (count > 1); /* of one piece alone it is the weight that is outside */
            wb_sheet sheet = base_hull();
            sheet.fitting[line] = (wb_fitting){heaviest(count), count};
            expect_within(sheet);
            sheet.fitting[line].weight++;
            expect_outside(sheet, number);
            sheet.fitting[line] = (wb_fitting){500000, count};
            if (count > 1)
                expect_outside(sheet, number);
        }
    for (size_t i = 0; i < sizeof wrapping / sizeof *wrapping; i++) {
        wb_sheet sheet = base_hull();
        sheet.fitting[i] = wrapping[i];
        expect_outside(sheet, FIRST_FITTING + 2 * (int)i + (wrapping[i].weight <= 500000));
    }
}

/* ---- texts whose answer the rules give in figures ---- */

struct figures {
    const char *text;
    uint32_t refusal, line, byte;
};

/* The first lines, and texts that are no sheet at all. */
static void try_first_lines(void)
{
    static const struct figures tried[] = {
        {"", 2, 1, 1}, {"\n", 2, 1, 1}, {"\t", 2, 1, 1}, {"x", 2, 1, 1}, {"hull\t1\n", 2, 1, 1}, {"\xEF\xBB\xBFHULL\t1\n", 2, 1, 1},
        {" HULL\t1\n", 2, 1, 1}, {"END\n", 2, 1, 1}, {"ENG\t1\t1\n", 2, 1, 1}, {"H", 2, 1, 2}, {"HUL", 2, 1, 4}, {"HULL", 2, 1, 5},
        {"HULL 1\n", 2, 1, 5}, {"HULL\n", 2, 1, 5}, {"HULL\t", 2, 1, 6}, {"HULL\t\n", 2, 1, 6}, {"HULL\t\t1\n", 2, 1, 6}, {"HULL\t-\n", 2, 1, 6},
        {"HULL\t+1\n", 2, 1, 6}, {"HULL\tx", 2, 1, 6}, {"HULL\t01", 2, 1, 7}, {"HULL\t01\n", 2, 1, 7}, {"HULL\t00\n", 2, 1, 7},
        {"HULL\t016\n", 2, 1, 7}, {"HULL\t0", 2, 1, 7}, {"HULL\t12345678901", 2, 1, 16}, {"HULL\t12345678901\n", 2, 1, 16},
        {"HULL\t123456789012\n", 2, 1, 16}, {"HULL\t1234567890", 2, 1, 16}, {"HULL\t1234567890\n", 3, 1, 6}, {"HULL\t1234567890\t", 2, 1, 16},
        {"HULL\t16\n", 3, 1, 6}, {"HULL\t16", 2, 1, 8}, {"HULL\t16 \n", 2, 1, 8}, {"HULL\t16\t\n", 2, 1, 8}, {"HULL\t16\nx", 3, 1, 6},
        {"HULL\t1", 2, 1, 7}, {"HULL\t1\n", 2, 2, 1}, {"HULL\t1\n\n", 2, 2, 1}, {"HULL\t1\r\n", 2, 1, 7}, {"HULL\t1\r", 2, 1, 7},
        {"HULL\t1\rFORM", 2, 1, 7}, {"HULL\t1\nHULL\t1\n", 2, 2, 1}, {"HULL\t1\nFOR", 2, 2, 4}, {"HULL\t1\nFORM\t4500\t4501\t", 3, 2, 11},
        {"HULL\t1\nFORM\t4500\t4501\n", 2, 2, 15}, {"HULL\t1\nFORM\t4500\t4501", 2, 2, 15}, {"HULL\t1\nFORM\t4500\t4501\tx", 3, 2, 11},
        {"HULL\t1\nFORM\t4500\t1999\t", 3, 2, 11}, {"HULL\t1\nFORM\t6001\t", 3, 2, 6}, {"HULL\t1\nFORM\t6001\n", 2, 2, 10},
        {"HULL\t1\nFORM\t4500\t04501\t", 2, 2, 12}, {"HULL\t1\nFORM\t4500\t4000.5\t", 2, 2, 15},
    };
    begin_part("the first lines");
    for (size_t i = 0; i < sizeof tried / sizeof *tried; i++) {
        lend_text(tried[i].text);
        expect_read(tried[i].refusal, tried[i].line, tried[i].byte);
    }
}

/* Fills the text that is lent up to a size. */
static void fill_to(size_t size)
{
    for (size_t at = lent[TEXT].size; at < size; at++)
        lent_bytes(TEXT)[at] = 'x';
    lent[TEXT].size = size;
}

static void try_sizes(void)
{
    begin_part("texts of 4,096 bytes and more");
    for (size_t size = LONGEST_TEXT - 1; size <= LONGEST_TEXT + 2; size++) {
        int over = size > LONGEST_TEXT;
        lend_text("HULL\t16\n");
        fill_to(size);
        expect_read(over ? 2 : 3, over ? 0 : 1, over ? 0 : 6);
        lend_text("ENG\t0\t1\n");
        fill_to(size);
        expect(read_engines(40, 40), over ? 2 : 3, over ? 0 : 1, over ? 0 : 5);
        lend_text("");
        fill_to(size);
        expect_read(2, !over, !over); /* at its first byte, and not too long */
        expect(read_engines(40, 40), 2, !over, !over);
    }
    lend_text("");
    expect_read(2, 1, 1);
    expect(read_engines(40, 40), 2, 1, 1);
    expect(read_engines(0, 0), 2, 1, 1);
}

/* A sheet's text without its END, then other lines. */
static void lend_text_with(const wb_sheet *sheet, const char *lines)
{
    lend_text_of(sheet);
    lent[TEXT].size -= strlen("END\n");
    lent[TEXT].size = insert_bytes(lent_bytes(TEXT), lent[TEXT].size, lent[TEXT].size, lines);
}

static void expect_with(const wb_sheet *sheet, const struct figures *tried, size_t count)
{
    for (size_t i = 0; i < count; i++) {
        lend_text_with(sheet, tried[i].text);
        expect_read(tried[i].refusal, tried[i].line, tried[i].byte);
    }
}

/* Ten lines come before these. */
static void try_fit_lines(void)
{
    static const struct figures tried[] = {
        {"END\n", 0, 0, 0}, {"", 2, 11, 1}, {"END", 2, 11, 4}, {"END\t\n", 2, 11, 4}, {"END \n", 2, 11, 4}, {"END\r\n", 2, 11, 4},
        {"END\n\n", 2, 12, 1}, {"END\nEND\n", 2, 12, 1}, {"END\n\x1A", 2, 12, 1}, {"end\n", 2, 11, 1}, {"\nEND\n", 2, 11, 1},
        {"SEAT\t5\t-\n", 2, 11, 1}, {"-\n", 2, 11, 1}, {"E", 2, 11, 2}, {"EN", 2, 11, 3}, {"ENG\t1\t1\n", 2, 11, 3}, {"F", 2, 11, 2},
        {"FIN\n", 2, 11, 3}, {"FIT", 2, 11, 4}, {"FIT\n", 2, 11, 4}, {"FIT\t", 2, 11, 5}, {"FIT\t1", 2, 11, 6}, {"FIT\t1\t", 2, 11, 7},
        {"FIT\t1\t1", 2, 11, 8}, {"FIT\t1\t1\n", 2, 12, 1}, {"FIT\t1\t1\nEND\n", 0, 0, 0}, {"FIT\t24\t500000\nEND\n", 0, 0, 0},
        {"FIT\t0\t1\nEND\n", 3, 11, 5}, {"FIT\t25\t1\nEND\n", 3, 11, 5}, {"FIT\t1\t0\nEND\n", 3, 11, 7}, {"FIT\t1\t500001\nEND\n", 3, 11, 7},
        {"FIT\t2\t1\nFIT\t2\t1\nEND\n", 3, 12, 5}, {"FIT\t2\t1\nFIT\t1\t1\nEND\n", 3, 12, 5}, {"FIT\t2\t1\nFIT\t3\t1\nEND\n", 0, 0, 0},
        {"FIT\t2\t1\nFIT\t2\tx\nEND\n", 3, 12, 5}, {"FIT\t0\tx\nEND\n", 3, 11, 5}, {"FIT\t0\t0\nEND\n", 3, 11, 5},
        {"FIT\t2\t1\nFIT\t2x\t1\nEND\n", 2, 12, 6}, {"FIT\t1\t-\nEND\n", 2, 11, 7}, {"FIT\t-\t1\nEND\n", 2, 11, 5}, {"FIT\t01\t1\nEND\n", 2, 11, 6},
        {"FIT\t1\t1\t\nEND\n", 2, 11, 9}, {"FIT\t\t1\t1\nEND\n", 2, 11, 5}, {"FIT\t25\t01\nEND\n", 3, 11, 5},
        {"FIT\t9999999999\t1\nEND\n", 3, 11, 5}, {"FIT\t10000000000\t1\nEND\n", 2, 11, 15}, {"FIT\t1\t4294967297\nEND\n", 3, 11, 7},
        {"FIT\t1\n1\nEND\n", 2, 11, 6},
    };
    wb_sheet sheet = base_hull();
    begin_part("FIT lines and END");
    expect_with(&sheet, tried, sizeof tried / sizeof *tried);
}

/* The count, after a weight that a tab or a line feed may end. */
static void try_counts(void)
{
    static const struct figures tried[] = {
        {"FIT\t1\t3334\t1\nEND\n", 0, 0, 0}, {"FIT\t24\t500000\t1\nEND\n", 0, 0, 0}, {"FIT\t1\t5\t99\nEND\n", 0, 0, 0},
        {"FIT\t1\t5\t0\nEND\n", 3, 11, 9}, {"FIT\t1\t5\t100\nEND\n", 3, 11, 9}, {"FIT\t1\t5\t257\nEND\n", 3, 11, 9},
        {"FIT\t1\t5", 2, 11, 8}, {"FIT\t1\t5\t", 2, 11, 9}, {"FIT\t1\t5\t\n", 2, 11, 9}, {"FIT\t1\t5\t\t7\n", 2, 11, 9}, {"FIT\t1\t5\t7", 2, 11, 10},
        {"FIT\t1\t5\t7\n", 2, 12, 1}, {"FIT\t1\t5\n7\nEND\n", 2, 12, 1}, {"FIT\t1\t5x\t7\n", 2, 11, 8}, {"FIT\t1\t5 \t7\n", 2, 11, 8},
        {"FIT\t1\t5\r\n", 2, 11, 8}, {"FIT\t1\t5\r\t7\n", 2, 11, 8}, {"FIT\t1\t05\t7\n", 2, 11, 8}, {"FIT\t1\t\t7\n", 2, 11, 7},
        {"FIT\t1\t5\tx\n", 2, 11, 9}, {"FIT\t1\t5\t-\n", 2, 11, 9}, {"FIT\t1\t5\t+7\n", 2, 11, 9}, {"FIT\t1\t5\t00\n", 2, 11, 10},
        {"FIT\t1\t5\t07\n", 2, 11, 10}, {"FIT\t1\t5\t7 \n", 2, 11, 10}, {"FIT\t1\t5\t7\r\n", 2, 11, 10}, {"FIT\t1\t5\t7\t\n", 2, 11, 10},
        {"FIT\t1\t5\t7\t7\n", 2, 11, 10}, {"FIT\t1\t5\t7END\n", 2, 11, 10}, {"FIT\t1\t5\t9999999999\n", 3, 11, 9},
        {"FIT\t1\t5\t10000000000\n", 2, 11, 19}, {"FIT\t1\t5\t4294967297\n", 3, 11, 9},
        /* the form before the limits, with what ends the count; and the weight before the count */
        {"FIT\t1\t5\t100", 2, 11, 12}, {"FIT\t1\t5\t100x\n", 2, 11, 12}, {"FIT\t1\t5\t100\t\n", 2, 11, 12}, {"FIT\t1\t5\t0x\n", 2, 11, 10},
        {"FIT\t1\t5\t0\n", 3, 11, 9}, {"FIT\t1\t5\t100\nx", 3, 11, 9}, {"FIT\t1\t500001\t0\nEND\n", 3, 11, 7}, {"FIT\t1\t500001\tx\n", 3, 11, 7},
        {"FIT\t1\t500001\t", 3, 11, 7}, {"FIT\t1\t500001\n", 3, 11, 7}, {"FIT\t1\t500001", 2, 11, 13}, {"FIT\t1\t0\t1\n", 3, 11, 7},
        {"FIT\t1\t0\t0\n", 3, 11, 7}, {"FIT\t1\t4294967297\t1\n", 3, 11, 7}, {"FIT\t0\t500001\t100\n", 3, 11, 5},
        /* what all pieces weigh */
        {"FIT\t1\t5050\t99\nEND\n", 0, 0, 0}, {"FIT\t1\t5051\t99\nEND\n", 3, 11, 12}, {"FIT\t1\t250000\t2\nEND\n", 0, 0, 0},
        {"FIT\t1\t250001\t2\nEND\n", 3, 11, 14}, {"FIT\t1\t500000\t2\nEND\n", 3, 11, 14}, {"FIT\t1\t500000\t2\n", 3, 11, 14},
        {"FIT\t1\t500000\t2\t\nEND\n", 2, 11, 15}, {"FIT\t1\t500000\t2", 2, 11, 15}, {"FIT\t1\t500000\t2x\n", 2, 11, 15},
        {"FIT\t1\t65536\t65536\n", 3, 11, 13}, {"FIT\t1\t500000\t8590\n", 3, 11, 14}, {"FIT\t1\t500000\t0\n", 3, 11, 14},
        /* lines with a count and without */
        {"FIT\t1\t5\nFIT\t2\t5\t7\nFIT\t3\t5\nEND\n", 0, 0, 0}, {"FIT\t1\t5\t7\nFIT\t2\t5\nFIT\t3\t5\t1\nEND\n", 0, 0, 0},
        {"FIT\t1\t5\t7\nFIT\t1\t5\nEND\n", 3, 12, 5}, {"FIT\t1\t5\nFIT\t2\t5051\t99\nEND\n", 3, 12, 12},
        {"FIT\t1\t5\t7\nFIT\t2\n", 2, 12, 6},
    };
    wb_sheet sheet = base_hull();
    begin_part("counts of FIT lines");
    expect_with(&sheet, tried, sizeof tried / sizeof *tried);
}

/* Lines without a count: read, entered and put in a draft's place they are the sheet that has a 1 there, and with the 1 they are written. */
static void expect_filled_up(wb_sheet sheet, uint32_t lines)
{
    uint8_t full[WB_SHEET_TEXT];
    size_t size = text_of(&sheet, full);
    lent[TEXT].size = short_text_of(&sheet, lines, lent_bytes(TEXT));
    expect_read(0, 0, 0);
    insist(memcmp(lent[SHEET].words, &sheet, sizeof sheet) == 0, "a FIT line without a count was not read as one piece");
    lend_out(WB_SHEET_TEXT);
    expect(attempt((struct call){.kind = WRITE_SHEET}), 0, (uint32_t)size, 0);
    insist(memcmp(lent[OUT].words, full, size) == 0, "a sheet that was read was not written with every count");
    expect(attempt((struct call){.kind = NEW_HULL}), 0, 1, 0);
    expect(attempt((struct call){.kind = SAVE, .desk = 3}), 0, 1, 0);
    for (uint32_t hull = 0; hull < 2; hull++) {
        sheet.hull = hull;
        size = text_of(&sheet, full);
        expect(attempt((struct call){.kind = WRITE_HULL, .hull = hull}), 0, (uint32_t)size, 0);
        insist(memcmp(lent[OUT].words, full, size) == 0, "a hull was not written with every count");
    }
}

static void try_short_lines(void)
{
    static const wb_fitting fittings[] = {{3334, 1}, {120, 12}, {500000, 1}, {5050, 99}, {1, 1}, {0, 0}, {250000, 2}};
    static const uint32_t lines[] = {0, 1, 0x800000, 0x555555, 0xAAAAAA, 0xFFFFFF};
    begin_part("FIT lines without a count");
    for (size_t turn = 0; turn < sizeof fittings / sizeof *fittings; turn++)
        for (size_t i = 0; i < sizeof lines / sizeof *lines; i++) {
            wb_sheet sheet = base_hull();
            for (size_t line = 0; line < WB_FITTINGS; line++)
                sheet.fitting[line] = fittings[(line + turn) % (sizeof fittings / sizeof *fittings)];
            expect_filled_up(sheet, lines[i]);
        }
    for (int i = 0; i < 300; i++)
        expect_filled_up(random_sheet(), random_word());
}

/* All 24 FIT lines, or one less, and then other lines: the 24th is line 34. */
static void try_fit_counts(void)
{
    static const struct figures tried[] = {
        {"END\n", 0, 0, 0}, {"", 2, 35, 1}, {"FIT\t25\t1\nEND\n", 2, 35, 1}, {"FIT\t24\t1\nEND\n", 2, 35, 1}, {"FIT\t1\tx\nEND\n", 2, 35, 1},
        {"FIT\t24\t1\t1\nEND\n", 2, 35, 1}, {"FIT\t", 2, 35, 1}, {"F", 2, 35, 1}, {"X", 2, 35, 1}, {"\n", 2, 35, 1}, {"E", 2, 35, 2},
        {"EIT\t", 2, 35, 2}, {"END", 2, 35, 4}, {"END\nF", 2, 36, 1}, {"END\nEND\n", 2, 36, 1},
    };
    static const struct figures with_one_less[] = {
        {"END\n", 0, 0, 0}, {"", 2, 34, 1}, {"F", 2, 34, 2}, {"FIT\t", 2, 34, 5}, {"X", 2, 34, 1}, {"FIT\t23\t1\n", 3, 34, 5},
        {"FIT\t24\t0\n", 3, 34, 8}, {"FIT\t24\t1\nFIT\t25\t1\n", 2, 35, 1}, {"END\n\n", 2, 35, 1}, {"FIT\t24\t1\t0\n", 3, 34, 10},
        {"FIT\t24\t1\t1\nFIT\t25\t1\t1\n", 2, 35, 1},
    };
    wb_sheet sheet = base_hull();
    for (int i = 0; i < WB_FITTINGS; i++)
        sheet.fitting[i] = (wb_fitting){1, 1};
    expect_with(&sheet, tried, sizeof tried / sizeof *tried);
    sheet.fitting[WB_FITTINGS - 1] = (wb_fitting){0, 0};
    expect_with(&sheet, with_one_less, sizeof with_one_less / sizeof *with_one_less);
}

static void spoil_field(size_t field, const char *by)
{
    lent[TEXT].size = replace_field(lent_bytes(TEXT), lent[TEXT].size, field, by);
}

/* A fault further down or to the right is not the one that is answered. */
static void try_first_fault(void)
{
    static const struct {
        size_t field;
        const char *by;
        uint32_t refusal, bytes;
    } tried[] = {{1, "16", 3, 0}, {1, "x", 2, 0}, {3, "6001", 3, 0}, {3, "06000", 2, 1}, {4, "4501", 3, 0}, {4, "04501", 2, 1}, {10, "R", 2, 0},
                 {11, "4001", 3, 0}, {12, "2501", 3, 0}, {12, "2501x", 2, 4}};
    begin_part("the first of two faults");
    for (size_t i = 0; i < sizeof tried / sizeof *tried; i++)
        for (int later = 0; later < 2; later++) {
            wb_sheet sheet = base_hull();
            lend_text_of(&sheet);
            spoil_field(field_of(AFT_NUMBER), later ? "5000001" : "x");
            spoil_field(tried[i].field, tried[i].by);
            expect_at_field(read_sheet(), tried[i].refusal, tried[i].field, tried[i].bytes);
        }
}

/* A number outside its limits and, as near after it as can be, broken form: the number is the first fault. And the other way round. */
static void expect_first(int number, uint32_t outside)
{
    wb_sheet sheet = base_hull();
    numbers_of(&sheet)[number] = outside;
    lend_text_of(&sheet);
    spoil_field(field_of(number) + 1, "x");
    expect_at_field(read_sheet(), 3, field_of(number), 0);
    lend_text_of(&sheet);
    spoil_field(field_of(number) - 1, "x");
    expect_at_field(read_sheet(), 2, field_of(number) - 1, 0);
}

static void try_next_fault(void)
{
    for (int number = 0; number < FIRST_FITTING; number++) {
        expect_first(number, highest(number) + 1);
        if (lowest(number) > 0 && number != TESTED_NUMBER) /* a text cannot say 0 tested persons */
            expect_first(number, lowest(number) - 1);
    }
}

/* The tested persons, on line 10: SEAT, a tab, 5 and a tab come before them. */
static void try_tested(void)
{
    static const struct figures tried[] = {
        {"-", 0, 0, 0}, {"0", 3, 10, 8}, {"1", 0, 0, 0}, {"24", 0, 0, 0}, {"25", 3, 10, 8}, {"--", 2, 10, 9}, {"-1", 2, 10, 9}, {"", 2, 10, 8},
        {"-\t", 2, 10, 9}, {"01", 2, 10, 9}, {"0-", 2, 10, 9}, {"1-", 2, 10, 9}, {"-\r", 2, 10, 9}, {" -", 2, 10, 8}, {"25 ", 2, 10, 10},
        {"12345678901", 2, 10, 18}, {"1234567890", 3, 10, 8},
    };
    wb_sheet sheet = base_hull();
    for (size_t i = 0; i < sizeof tried / sizeof *tried; i++) {
        lend_text_of(&sheet);
        spoil_field(field_of(TESTED_NUMBER), tried[i].text);
        expect_read(tried[i].refusal, tried[i].line, tried[i].byte);
    }
    lend_text_of(&sheet);
    lent[TEXT].size -= strlen("\nEND\n"); /* stops after the dash */
    expect_read(2, 10, 9);
}

/* ---- engine rows ---- */

static void lend_engine_rows(size_t rows)
{
    uint32_t powers[64], weights[64];
    for (uint32_t i = 0; i < rows; i++) {
        powers[i] = i + 1;
        weights[i] = i;
    }
    lent[TEXT].size = text_of_rows(powers, weights, rows, lent_bytes(TEXT));
}

static void try_engine_counts(void)
{
    begin_part("engine rows into slices");
    for (size_t rows = 1; rows <= 42; rows++) {
        int over = rows > WB_ENGINE_ROWS;
        uint32_t no_room = over ? 2 : 16, line = over ? 41 : 0, byte = over; /* too many are at fault at the first byte of the 41st */
        lend_engine_rows(rows);
        expect(read_engines(rows, rows), over ? 2 : 0, over ? line : (uint32_t)rows, byte);
        expect(read_engines(rows + 5, rows + 9), over ? 2 : 0, over ? line : (uint32_t)rows, byte);
        insist_untouched(POWERS, over ? 0 : 4 * rows);
        insist_untouched(WEIGHTS, over ? 0 : 4 * rows);
        expect(read_engines(rows - 1, rows), no_room, line, byte);
        expect(read_engines(rows, rows - 1), no_room, line, byte);
        expect(read_engines(0, 64), no_room, line, byte);
        expect(read_engines(64, 0), no_room, line, byte);
    }
}

static void try_engine_lines(void)
{
    static const struct figures tried[] = {
        {"ENG\t1\t0\n", 16, 0, 0}, {"ENG\t0\t1\n", 3, 1, 5}, {"ENG\t200001\t0\n", 3, 1, 5}, {"ENG\t1\t1000001\n", 3, 1, 7},
        {"ENG\t1\t1000001", 2, 1, 14}, {"ENG\t2\t1\nENG\t2\t1\n", 3, 2, 5}, {"ENG\t2\t1\nENG\t1\t1\n", 3, 2, 5},
        {"ENG\t2\t1\nENG\t02\t1\n", 2, 2, 6}, {"ENG\t2\t1\nENG\t2\tx\n", 3, 2, 5}, {"ENG\t2\t1\nENG\t2", 2, 2, 6}, {"ENG\t0\tx\n", 3, 1, 5},
        {"ENG\t200001\tx\n", 3, 1, 5}, {"ENG\t2\t1\n\n", 2, 2, 1}, {"ENG\t2\t1\n\x1A", 2, 2, 1}, {"ENG\t2\t1", 2, 1, 8}, {"ENG\t2\t1\r\n", 2, 1, 8},
        {"ENG\t2\t1 \n", 2, 1, 8}, {"ENG\t2\t1\nEND\n", 2, 2, 3}, {"ENG\t2\t1\nE", 2, 2, 2}, {"ENG\t1\t-\n", 2, 1, 7}, {"ENG\t-\t1\n", 2, 1, 5},
        {"ENG\t9999999999\t1\n", 3, 1, 5}, {"ENG\t10000000000\t1\n", 2, 1, 15}, {"ENG\t1\t10000000000\n", 2, 1, 17}, {"ENG\t1\t1\t1\n", 2, 1, 8},
        {"ENG\t1\n", 2, 1, 6}, {"eng\t1\t1\n", 2, 1, 1}, {"END\n", 2, 1, 3}, {"\n", 2, 1, 1}, {"HULL\t1\n", 2, 1, 1},
        {"\xEF\xBB\xBF" "ENG\t1\t1\n", 2, 1, 1}, {"ENG 1\t1\n", 2, 1, 4},
    };
    for (size_t i = 0; i < sizeof tried / sizeof *tried; i++) {
        lend_text(tried[i].text);
        expect(read_engines(0, 0), tried[i].refusal, tried[i].line, tried[i].byte); /* also: 16 comes after every fault of the text */
    }
    lend_engine_rows(41);
    spoil_field(121, "0"); /* the 41st row's first byte is judged before its power */
    expect(read_engines(64, 64), 2, 41, 1);
    lend_engine_rows(41);
    spoil_field(118, "0"); /* and the 40th row's power before that */
    expect(read_engines(64, 64), 3, 40, 5);
    lend_engine_rows(40);
    lent[TEXT].size = insert_bytes(lent_bytes(TEXT), lent[TEXT].size, lent[TEXT].size, "\n");
    expect(read_engines(64, 64), 2, 41, 1);
}

/* ---- outputs ---- */

/* Writing a sheet, alone and as hull 0, to outputs that do and do not have room. */
static void expect_written(wb_sheet sheet)
{
    sheet.hull = 0;
    enter_alone(&sheet);
    size_t size = lent[TEXT].size, sizes[] = {size, size - 1, 0, 1, size / 2, size + 1, WB_SHEET_TEXT, 4096};
    for (size_t i = 0; i < sizeof sizes / sizeof *sizes; i++)
        for (int hull = 0; hull < 2; hull++) {
            lend_sheet(&sheet);
            lend_out(sizes[i]);
            wb_answer answer = attempt((struct call){.kind = hull ? WRITE_HULL : WRITE_SHEET});
            expect(answer, sizes[i] < size ? 16 : 0, sizes[i] < size ? 0 : (uint32_t)size, 0);
            if (answer.refusal == 0)
                insist(memcmp(lent[OUT].words, lent[TEXT].words, size) == 0, "the text that was written is not the sheet's one text");
            insist_untouched(OUT, answer.first);
        }
    expect_within(sheet);
}

static void try_outputs(void)
{
    wb_sheet longest = highest_sheet(), shortest;
    begin_part("outputs with just room enough");
    for (int number = 0; number < SHEET_NUMBERS; number++)
        numbers_of(&shortest)[number] = number < FIRST_FITTING ? lowest(number) : 0;
    lend_text_of(&longest);
    insist(lent[TEXT].size == WB_SHEET_TEXT, "WB_SHEET_TEXT is not the size of the longest text");
    expect_within(longest);
    expect_written(longest);
    expect_written(shortest);
    shortest.bare = 0;
    lend_sheet(&shortest);
    lend_out(0);
    expect(attempt((struct call){.kind = WRITE_SHEET}), 3, 0, 0); /* and not 16 */
    for (int i = 0; i < 300; i++)
        expect_written(random_sheet());
}

/* Texts, outputs and slices of which only the lower half of the length is right, or just room enough. */
static void try_far_lengths(void)
{
    wb_sheet sheet = base_hull();
    begin_part("lengths above 32 bits");
    lend_text_of(&sheet);
    expect_read(0, 0, 0);
    expect_beyond((struct call){.kind = READ_SHEET}, TEXT, TEXT, 2, 0);
    lend_text("HULL\t16\n");
    expect_beyond((struct call){.kind = READ_SHEET}, TEXT, TEXT, 2, 0); /* and not 3 */
    lend_text("");
    expect_beyond((struct call){.kind = READ_SHEET}, TEXT, TEXT, 2, 0);
    lend_text_of(&sheet);
    lend_sheet(&sheet);
    lend_out(lent[TEXT].size);
    expect_beyond((struct call){.kind = WRITE_SHEET}, OUT, OUT, 0, (uint32_t)lent[TEXT].size);
    lend_engine_rows(40);
    lend_slices(40, 40);
    expect_beyond((struct call){.kind = READ_ENGINES}, POWERS, POWERS, 0, 40);
    expect_beyond((struct call){.kind = READ_ENGINES}, WEIGHTS, WEIGHTS, 0, 40);
    expect_beyond((struct call){.kind = READ_ENGINES}, POWERS, WEIGHTS, 0, 40);
    expect_beyond((struct call){.kind = READ_ENGINES}, TEXT, TEXT, 2, 0);
    lend_slices(40, 39);
    expect_beyond((struct call){.kind = READ_ENGINES}, POWERS, POWERS, 16, 0);
    lend_slices(39, 40);
    expect_beyond((struct call){.kind = READ_ENGINES}, WEIGHTS, WEIGHTS, 16, 0);
}

void try_text_edges(void)
{
    try_limits();
    try_products();
    try_first_lines();
    try_sizes();
    try_fit_lines();
    try_counts();
    try_short_lines();
    try_fit_counts();
    try_first_fault();
    try_next_fault();
    try_tested();
    try_engine_counts();
    try_engine_lines();
    try_outputs();
    try_far_lengths();
}
