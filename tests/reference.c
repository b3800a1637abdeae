/*
 * reference.c: a second opinion on the eighteen calls, in plain C. The rules are docs/RULES.md, the layout of the
 * memory docs/REGISTER.md.
 *
 * Nothing of the library is used, and nothing is clever: each part stands in the order of the rules, so that the two can be read side by side.
 */
#include "reference.h"

#include <string.h>

/* ---- the sheet: 92 words in the order of the text, without the HULL number ---- */

enum { LENGTH, REFERENCE, WIDTH, HEIGHT, FLAT, REMOTE, STATIONS, AFT = STATIONS + 4 * 7, WELL, FLOODING, BARE, FUEL, MACHINERY, OUTBOARD, DECLARED,
       POSITIONS, TESTED, FITTINGS, SHEET_WORDS = FITTINGS + 2 * WB_FITTINGS };

#define HIGHEST_HULL 15

/* A fitting line: the weight of one piece and how many there are, both 0 where the line is empty. */
enum { WEIGHT, COUNT, FITTING_WORDS };
#define HEAVIEST_FITTING 500000 /* all its pieces together */
#define MOST_PIECES 99

/* Where the weight on a line, 1 to 24, stands in a sheet; its count comes next. */
static size_t fitting_at(uint32_t line)
{
    return FITTINGS + (size_t)FITTING_WORDS * (line - 1);
}

struct limits {
    uint32_t low, high;
};

#define STATION_LIMITS {0, 4000}, {0, 2500}, {0, 2500}, {0, 2500}, {0, 2500}, {0, 2500}, {0, 2500}

static const struct limits sheet_limits[FITTINGS] = {
    {2000, 6000}, {2000, 6000}, {500, 3000}, {200, 900}, {0, 1}, {0, 1},
    STATION_LIMITS, STATION_LIMITS, STATION_LIMITS, STATION_LIMITS,
    {0, 5000000}, {0, 5000000}, {0, 5000000},
    {1, 2000000}, {0, 500000}, {0, 500000},
    {0, 1}, {0, 200000},
    {1, 24}, {0, 24}, /* 0 stands for not tested; a text may not have it as a number */
};

/* The lines from FORM to SEAT. */
static const struct {
    const char *tag;
    int fields;
} lines[] = {
    {"FORM\t", 6}, {"STN\tQ\t", 7}, {"STN\tR\t", 7}, {"STN\tS\t", 7}, {"STN\tT\t", 7}, {"VOL\t", 3}, {"MASS\t", 3}, {"PWR\t", 2}, {"SEAT\t", 2},
};

#define LINES (sizeof lines / sizeof *lines)

static int is_weight(uint32_t weight)
{
    return weight >= 1 && weight <= HEAVIEST_FITTING;
}

/* Whether there may be so many pieces of a weight. The product is worked in 64 bits, where that of any two numbers fits. */
static int is_count(uint32_t weight, uint32_t count)
{
    return count >= 1 && count <= MOST_PIECES && (uint64_t)weight * count <= HEAVIEST_FITTING;
}

static int is_fitting(uint32_t weight, uint32_t count)
{
    return is_weight(weight) && is_count(weight, count);
}

static int is_empty(const uint32_t *fitting)
{
    return fitting[WEIGHT] == 0 && fitting[COUNT] == 0;
}

/* What the boat weighs by the sheet, bare boat and fittings, is summed on the way, of lines that are judged already. */
static int sheet_within_limits(const uint32_t *sheet, uint32_t *grams)
{
    for (int i = 0; i < FITTINGS; i++)
        if (sheet[i] < sheet_limits[i].low || sheet[i] > sheet_limits[i].high)
            return 0;
    *grams = sheet[BARE];
    for (uint32_t line = 1; line <= WB_FITTINGS; line++) {
        const uint32_t *fitting = sheet + fitting_at(line);
        if (!is_empty(fitting) && !is_fitting(fitting[WEIGHT], fitting[COUNT]))
            return 0;
        *grams += fitting[WEIGHT] * fitting[COUNT];
    }
    return sheet[REFERENCE] <= sheet[LENGTH];
}

/* ---- answers ---- */

static wb_answer refused(uint32_t number)
{
    wb_answer answer = {number, 0, 0, 0};
    return answer;
}

static wb_answer accepted(uint32_t first, uint32_t second)
{
    wb_answer answer = {WB_ACCEPTED, first, second, 0};
    return answer;
}

/* ---- reading texts ---- */

#define LONGEST_TEXT 4096
#define MOST_DIGITS 10

/* A text that is read from its start, with the line that it has come to. A text at fault is read to the place of the fault and no further. */
struct reader {
    const uint8_t *at, *end;
    const uint8_t *line_start;
    uint32_t line;
};

static struct reader start_of(const uint8_t *bytes, size_t size)
{
    struct reader text = {bytes, bytes + size, bytes, 1};
    return text;
}

static wb_answer refused_at(uint32_t number, const struct reader *text)
{
    wb_answer answer = {number, text->line, (uint32_t)(text->at - text->line_start) + 1, 0};
    return answer;
}

static int next_is(const struct reader *text, uint8_t byte)
{
    return text->at < text->end && *text->at == byte;
}

static int next_is_digit(const struct reader *text)
{
    return text->at < text->end && *text->at >= '0' && *text->at <= '9';
}

static void pass(struct reader *text)
{
    if (*text->at++ == '\n') {
        text->line_start = text->at;
        text->line++;
    }
}

static int read_tag(struct reader *text, const char *tag)
{
    for (; *tag; tag++) {
        if (!next_is(text, (uint8_t)*tag))
            return 0;
        pass(text);
    }
    return 1;
}

/* A number that one of two bytes must end: its form is judged before its limits. After a 0 or ten digits there is only what ends it. */
static uint32_t read_ended(struct reader *text, uint8_t ender, uint8_t other_ender, uint32_t low, uint32_t high, uint32_t *number)
{
    const uint8_t *first = text->at;
    uint64_t value = 0;
    if (!next_is_digit(text))
        return WB_BROKEN_LINE;
    do
        value = 10 * value + (uint64_t)(*text->at++ - '0');
    while (next_is_digit(text) && value > 0 && text->at - first < MOST_DIGITS);
    if (!next_is(text, ender) && !next_is(text, other_ender))
        return WB_BROKEN_LINE;
    if (value < low || value > high) {
        text->at = first;
        return WB_OUTSIDE_LIMITS;
    }
    pass(text);
    *number = (uint32_t)value;
    return WB_ACCEPTED;
}

static uint32_t read_number(struct reader *text, uint8_t ender, uint32_t low, uint32_t high, uint32_t *number)
{
    return read_ended(text, ender, ender, low, high, number);
}

/* The lines from FORM to SEAT into the first words of a sheet. */
static uint32_t read_lines(struct reader *text, uint32_t *sheet)
{
    int word = 0;
    for (size_t line = 0; line < LINES; line++) {
        if (!read_tag(text, lines[line].tag))
            return WB_BROKEN_LINE;
        for (int field = 1; field <= lines[line].fields; field++, word++) {
            uint8_t ender = field == lines[line].fields ? '\n' : '\t';
            uint32_t low = word == TESTED ? 1 : sheet_limits[word].low;
            uint32_t high = word == REFERENCE ? sheet[LENGTH] : sheet_limits[word].high;
            if (word == TESTED && next_is(text, '-')) {
                sheet[TESTED] = 0;
                return read_tag(text, "-\n") ? WB_ACCEPTED : WB_BROKEN_LINE;
            }
            uint32_t fault = read_number(text, ender, low, high, &sheet[word]);
            if (fault)
                return fault;
        }
    }
    return WB_ACCEPTED;
}

/* The weight of one piece and, unless the line ends there, how many there are; otherwise there is one. What all weigh is judged at the count. */
static uint32_t read_pieces(struct reader *text, uint32_t *fitting)
{
    uint32_t fault = read_ended(text, '\t', '\n', 1, HEAVIEST_FITTING, &fitting[WEIGHT]);
    fitting[COUNT] = 1;
    if (fault || text->at[-1] == '\n')
        return fault;
    struct reader at_count = *text;
    fault = read_number(text, '\n', 1, MOST_PIECES, &fitting[COUNT]);
    if (fault || is_count(fitting[WEIGHT], fitting[COUNT]))
        return fault;
    *text = at_count;
    return WB_OUTSIDE_LIMITS;
}

/* The FIT lines, their numbers rising, then END and nothing more. */
static uint32_t read_fittings(struct reader *text, uint32_t *sheet)
{
    uint32_t line = 0;
    memset(sheet + FITTINGS, 0, (SHEET_WORDS - FITTINGS) * sizeof *sheet);
    for (int lines_read = 0; lines_read < WB_FITTINGS && next_is(text, 'F'); lines_read++) {
        if (!read_tag(text, "FIT\t"))
            return WB_BROKEN_LINE;
        uint32_t fault = read_number(text, '\t', line + 1, WB_FITTINGS, &line);
        if (!fault)
            fault = read_pieces(text, sheet + fitting_at(line));
        if (fault)
            return fault;
    }
    return read_tag(text, "END\n") && text->at == text->end ? WB_ACCEPTED : WB_BROKEN_LINE;
}

/* A whole text into the HULL number and the 92 words after it. */
static wb_answer read_text(const uint8_t *bytes, size_t size, uint32_t *numbers)
{
    if (size > LONGEST_TEXT)
        return refused(WB_BROKEN_LINE);
    struct reader text = start_of(bytes, size);
    uint32_t fault = WB_BROKEN_LINE;
    if (read_tag(&text, "HULL\t"))
        fault = read_number(&text, '\n', 0, HIGHEST_HULL, &numbers[0]);
    if (!fault)
        fault = read_lines(&text, numbers + 1);
    if (!fault)
        fault = read_fittings(&text, numbers + 1);
    return fault ? refused_at(fault, &text) : accepted(0, 0);
}

/* Engine rows, to the end of their text. */
static uint32_t read_rows(struct reader *text, uint32_t *powers, uint32_t *weights, size_t *rows)
{
    uint32_t before = 0;
    *rows = 0;
    do {
        if (*rows == WB_ENGINE_ROWS || !read_tag(text, "ENG\t"))
            return WB_BROKEN_LINE;
        uint32_t fault = read_number(text, '\t', before + 1, 200000, &powers[*rows]);
        if (!fault)
            fault = read_number(text, '\n', 0, 1000000, &weights[*rows]);
        if (fault)
            return fault;
        before = powers[(*rows)++];
    } while (text->at < text->end);
    return WB_ACCEPTED;
}

/* ---- writing texts ---- */

static uint8_t *write_tag(uint8_t *at, const char *tag)
{
    while (*tag)
        *at++ = (uint8_t)*tag++;
    return at;
}

static uint8_t *write_number(uint8_t *at, uint32_t number, uint8_t ender)
{
    uint8_t digits[MOST_DIGITS];
    int count = 0;
    do
        digits[count++] = (uint8_t)('0' + number % 10);
    while ((number /= 10) > 0);
    while (count > 0)
        *at++ = digits[--count];
    *at++ = ender;
    return at;
}

/* The text goes to a buffer of our own first, since an output that is too short must stay as it was. */
static wb_answer write_text(uint32_t hull, const uint32_t *sheet, uint8_t *out, size_t out_len)
{
    uint8_t text[WB_SHEET_TEXT], *at = text;
    int word = 0;
    at = write_number(write_tag(at, "HULL\t"), hull, '\n');
    for (size_t line = 0; line < LINES; line++) {
        at = write_tag(at, lines[line].tag);
        for (int field = 1; field <= lines[line].fields; field++, word++)
            if (word == TESTED && sheet[TESTED] == 0)
                at = write_tag(at, "-\n");
            else
                at = write_number(at, sheet[word], field == lines[line].fields ? '\n' : '\t');
    }
    for (uint32_t line = 1; line <= WB_FITTINGS; line++) {
        const uint32_t *fitting = sheet + fitting_at(line);
        if (is_empty(fitting))
            continue;
        at = write_number(write_tag(at, "FIT\t"), line, '\t');
        at = write_number(write_number(at, fitting[WEIGHT], '\t'), fitting[COUNT], '\n');
    }
    at = write_tag(at, "END\n");
    size_t size = (size_t)(at - text);
    if (out_len < size)
        return refused(WB_NO_ROOM);
    memcpy(out, text, size);
    return accepted((uint32_t)size, 0);
}

/* ---- volume and weights ---- */

/* Every figure stays far within 64 bits: the greatest water is 10,800,000,000,000, and the rest is less. */

static int64_t floor_div(int64_t number, int64_t by)
{
    int64_t quotient = number / by;
    return number % by < 0 ? quotient - 1 : quotient;
}

/* Fifteen times a station's area. */
static int64_t station_product(const uint32_t *station)
{
    const uint32_t *depth = station + 1;
    return (int64_t)station[0] * (depth[0] + 4 * depth[1] + 2 * depth[2] + 4 * depth[3] + 2 * depth[4] + 2 * depth[5]);
}

/* Z: grams of water multiplied by 180000. */
static int64_t water(const uint32_t *sheet)
{
    int64_t q = station_product(sheet + STATIONS), r = station_product(sheet + STATIONS + 7);
    int64_t s = station_product(sheet + STATIONS + 14), t = station_product(sheet + STATIONS + 21);
    int64_t n = sheet[REFERENCE] * (4 * q + 2 * r + 4 * s + t);
    return n + 180000 * ((int64_t)sheet[AFT] - sheet[WELL] - sheet[FLOODING]);
}

/* M of a sheet that was read: bare boat and fittings, each line all its pieces. The plates take it as it is kept. */
static uint32_t boat(const uint32_t *sheet)
{
    uint32_t grams = sheet[BARE];
    for (uint32_t line = 1; line <= WB_FITTINGS; line++)
        grams += sheet[fitting_at(line) + WEIGHT] * sheet[fitting_at(line) + COUNT];
    return grams;
}

static int64_t tanks_and_machinery(const uint32_t *sheet)
{
    return (int64_t)sheet[FUEL] + sheet[MACHINERY];
}

/* ---- plate A ---- */

static int64_t load_a(const uint32_t *sheet, int64_t m)
{
    int64_t tanks_factor = sheet[OUTBOARD] ? 180000 : 900000;
    int64_t load = water(sheet) - 180000 * m - tanks_factor * tanks_and_machinery(sheet);
    return floor_div(load + 450000000, 900000000); /* the nearest, a half upward */
}

/* Above a power factor of 5000000: worked in parts of 1/2000 watt, so that 6.5 P/1000 is whole, and raised to 5000 watts. */
static uint32_t formula_power(const uint32_t *sheet, int64_t p)
{
    int64_t parts;
    if (sheet[REMOTE] && sheet[HEIGHT] >= 500)
        parts = 32 * p - 2000 * 67000;
    else if (sheet[FLAT])
        parts = 8 * p - 2000 * 11000;
    else
        parts = 13 * p - 2000 * 20000;
    int64_t step = 2000 * 5000;
    return (uint32_t)((parts + step - 1) / step * 5000);
}

static uint32_t power_a(const uint32_t *sheet, uint32_t *watts)
{
    static const struct {
        uint32_t up_to, watts;
    } rows[] = {{2250000, 1500}, {3300000, 3000}, {3600000, 4000}, {3900000, 5250}, {4200000, 7500}, {5000000, 12000}};
    uint32_t p = sheet[LENGTH] * sheet[WIDTH];
    int row = 0;
    *watts = 0; /* an inboard's power is set by a trial */
    if (!sheet[OUTBOARD])
        return WB_ACCEPTED;
    if (p > 5000000) {
        *watts = formula_power(sheet, p);
        return WB_ACCEPTED;
    }
    while (p > rows[row].up_to)
        row++;
    if (sheet[FLAT])
        row--;
    if (row < 0)
        return WB_NO_POWER;
    *watts = rows[row].watts;
    return WB_ACCEPTED;
}

static wb_answer plate_a(const uint32_t *sheet, uint32_t m)
{
    int64_t load = load_a(sheet, m);
    if (load < 1)
        return refused(WB_NO_LOAD);
    uint32_t watts, fault = power_a(sheet, &watts);
    return fault ? refused(fault) : accepted((uint32_t)load, watts);
}

/* ---- plate C ---- */

static int rows_good(const uint32_t *powers, size_t powers_len, const uint32_t *weights, size_t weights_len)
{
    if (powers_len != weights_len || powers_len == 0 || powers_len > WB_ENGINE_ROWS)
        return 0;
    uint32_t before = 0;
    for (size_t i = 0; i < powers_len; i++) {
        if (powers[i] <= before || powers[i] > 200000 || weights[i] > 1000000)
            return 0;
        before = powers[i];
    }
    return 1;
}

static int64_t load_c(const uint32_t *sheet, int64_t m)
{
    int64_t x = water(sheet) - 180000 * (m + tanks_and_machinery(sheet));
    return sheet[DECLARED] > 1500 ? floor_div(x, 900000000) : floor_div(3 * x, 1800000000);
}

static uint32_t engine_weight(const uint32_t *sheet, const uint32_t *powers, const uint32_t *weights, size_t rows, uint32_t *grams)
{
    *grams = 0;
    if (!sheet[OUTBOARD] || sheet[DECLARED] == 0)
        return WB_ACCEPTED;
    for (size_t i = 0; i < rows; i++)
        if (powers[i] >= sheet[DECLARED]) {
            *grams = weights[i];
            return WB_ACCEPTED;
        }
    return WB_NO_ROW;
}

static wb_answer plate_c(const uint32_t *sheet, uint32_t m, const uint32_t *powers, size_t powers_len,
                         const uint32_t *weights, size_t weights_len)
{
    if (!rows_good(powers, powers_len, weights, weights_len))
        return refused(WB_BAD_ROWS);
    int64_t load = load_c(sheet, m);
    if (load < 1)
        return refused(WB_NO_LOAD);
    uint32_t engine, fault = engine_weight(sheet, powers, weights, powers_len, &engine);
    if (fault)
        return refused(fault);
    int64_t live = 1000 * load - engine;
    if (live < 250000 && sheet[TESTED] == 0)
        return refused(WB_UNTESTED);
    int64_t persons = floor_div(live, 75000);
    if (persons > sheet[POSITIONS])
        persons = sheet[POSITIONS];
    if (sheet[TESTED] > 0 && persons > sheet[TESTED])
        persons = sheet[TESTED];
    return persons < 1 ? refused(WB_NO_PERSONS) : accepted((uint32_t)load, (uint32_t)persons);
}

/* ---- plate U ---- */

/* A load as it is, before any rounding: this many 180000ths of a gram, divided by a small number. */
struct load {
    int64_t parts, by;
};

/* By 33 CFR 183.35 an outboard's tanks count, up to two horsepower by 183.37 they do not; by 183.33 an inboard has the greater of two loads. */
static struct load load_u(const uint32_t *sheet, int64_t m)
{
    int64_t less_boat = water(sheet) - 180000 * m, less_tanks = less_boat - 180000 * (int64_t)sheet[FUEL];
    struct load fifth = {less_tanks, 5}, seventh = {less_tanks, 7}, three_tenths = {3 * less_boat, 10};
    if (sheet[OUTBOARD])
        return sheet[DECLARED] > 1491 ? fifth : three_tenths;
    fifth.parts -= 4 * 180000 * (int64_t)sheet[MACHINERY];
    return fifth.parts * seventh.by > seventh.parts * fifth.by ? fifth : seventh;
}

/*
 * The one load that is marked, rounded down once. A pound is 45359237/100000 g. Parts are at most 3 * 10,800,000,000,000, and 100000 times that is
 * some third of what 63 bits hold; what they are divided by is at most 180000 * 10 * 45359237, less still.
 */
static wb_answer plate_u(const uint32_t *sheet, uint32_t m)
{
    struct load load = load_u(sheet, m);
    int64_t pounds = floor_div(100000 * load.parts, 180000 * load.by * 45359237);
    return pounds < 1 ? refused(WB_NO_LOAD) : accepted((uint32_t)pounds, 0);
}

/* ---- the register's memory ---- */

#define HIGHEST_EDIT 65535

/*
 * A hull's slot: its edit number, the boat's weight, then its sheet. A desk's slot: its mark, hull and opening number,
 * the boat's weight by the draft, then the draft's sheet.
 */
enum { EDIT, HULL_WEIGHT, HULL_SHEET, HULL_SLOT = HULL_SHEET + SHEET_WORDS };
enum { HELD, DRAFT_HULL, OPENING, DRAFT_WEIGHT, DRAFT_SHEET, DESK_SLOT = DRAFT_SHEET + SHEET_WORDS };

static size_t hull_at(uint32_t hull)
{
    return 1 + (size_t)HULL_SLOT * hull;
}

static size_t desk_at(uint32_t desk)
{
    return hull_at(WB_HULLS) + (size_t)DESK_SLOT * desk;
}

/* A sheet within the limits, and the weight that is kept beside it is what the boat weighs by it. */
static int weighed(const uint32_t *sheet, uint32_t weight)
{
    uint32_t grams;
    return sheet_within_limits(sheet, &grams) && weight == grams;
}

static int hull_formed(const uint32_t *hull)
{
    return hull[EDIT] <= HIGHEST_EDIT && weighed(hull + HULL_SHEET, hull[HULL_WEIGHT]);
}

static int draft_formed(const uint32_t *mem, const uint32_t *draft)
{
    return draft[DRAFT_HULL] < mem[0] && draft[OPENING] <= mem[hull_at(draft[DRAFT_HULL]) + EDIT] &&
           weighed(draft + DRAFT_SHEET, draft[DRAFT_WEIGHT]);
}

static int formed(const uint32_t *mem, size_t mem_len)
{
    if (mem_len != WB_REGISTER_WORDS || mem[0] > WB_HULLS)
        return 0;
    for (uint32_t hull = 0; hull < mem[0]; hull++)
        if (!hull_formed(mem + hull_at(hull)))
            return 0;
    for (uint32_t desk = 0; desk < WB_DESKS; desk++) {
        const uint32_t *slot = mem + desk_at(desk);
        if (slot[HELD] > 1 || (slot[HELD] == 1 && !draft_formed(mem, slot)))
            return 0;
    }
    return 1;
}

/* Refusals 1 and 5. */
static uint32_t judge_hull(const uint32_t *mem, size_t mem_len, uint32_t hull)
{
    if (!formed(mem, mem_len))
        return WB_BAD_MEMORY;
    return hull < mem[0] ? WB_ACCEPTED : WB_NO_HULL;
}

/* Refusals 1, 6 and 7. */
static uint32_t judge_draft(const uint32_t *mem, size_t mem_len, uint32_t desk)
{
    if (!formed(mem, mem_len))
        return WB_BAD_MEMORY;
    if (desk >= WB_DESKS)
        return WB_NO_DESK;
    return mem[desk_at(desk) + HELD] ? WB_ACCEPTED : WB_NO_DRAFT;
}

static int is_line(uint32_t line)
{
    return line >= 1 && line <= WB_FITTINGS;
}

/* ---- the calls ---- */

wb_answer ref_fresh(uint32_t *mem, size_t mem_len)
{
    if (mem_len != WB_REGISTER_WORDS)
        return refused(WB_BAD_MEMORY);
    memset(mem, 0, WB_REGISTER_WORDS * sizeof *mem);
    return accepted(0, 0);
}

wb_answer ref_new_hull(uint32_t *mem, size_t mem_len, const uint8_t *text, size_t text_len)
{
    if (!formed(mem, mem_len))
        return refused(WB_BAD_MEMORY);
    if (mem[0] == WB_HULLS)
        return refused(WB_FULL);
    uint32_t numbers[1 + SHEET_WORDS];
    wb_answer read = read_text(text, text_len, numbers);
    if (read.refusal)
        return read;
    uint32_t hull = mem[0]++, *slot = mem + hull_at(hull);
    slot[EDIT] = 0;
    slot[HULL_WEIGHT] = boat(numbers + 1);
    memcpy(slot + HULL_SHEET, numbers + 1, SHEET_WORDS * sizeof *mem);
    return accepted(hull, 0);
}

wb_answer ref_open(uint32_t *mem, size_t mem_len, uint32_t desk, uint32_t hull)
{
    if (!formed(mem, mem_len))
        return refused(WB_BAD_MEMORY);
    if (desk >= WB_DESKS)
        return refused(WB_NO_DESK);
    if (hull >= mem[0])
        return refused(WB_NO_HULL);
    const uint32_t *from = mem + hull_at(hull);
    uint32_t *draft = mem + desk_at(desk);
    draft[HELD] = 1;
    draft[DRAFT_HULL] = hull;
    draft[OPENING] = from[EDIT];
    draft[DRAFT_WEIGHT] = from[HULL_WEIGHT];
    memcpy(draft + DRAFT_SHEET, from + HULL_SHEET, SHEET_WORDS * sizeof *mem);
    return accepted(from[EDIT], 0);
}

wb_answer ref_set_fitting(uint32_t *mem, size_t mem_len, uint32_t desk, uint32_t line, uint32_t weight, uint32_t count)
{
    uint32_t fault = judge_draft(mem, mem_len, desk);
    if (fault)
        return refused(fault);
    int empties = weight == 0 && count == 0;
    if (!is_line(line) || !(empties || is_fitting(weight, count)))
        return refused(WB_OUTSIDE_LIMITS);
    uint32_t *draft = mem + desk_at(desk), *fitting = draft + DRAFT_SHEET + fitting_at(line);
    if (empties && is_empty(fitting))
        return refused(WB_EMPTY_LINE);
    draft[DRAFT_WEIGHT] -= fitting[WEIGHT] * fitting[COUNT];
    draft[DRAFT_WEIGHT] += weight * count;
    fitting[WEIGHT] = weight;
    fitting[COUNT] = count;
    return accepted(0, 0);
}

wb_answer ref_replace(uint32_t *mem, size_t mem_len, uint32_t desk, const uint8_t *text, size_t text_len)
{
    uint32_t numbers[1 + SHEET_WORDS], fault = judge_draft(mem, mem_len, desk);
    wb_answer read = fault ? refused(fault) : read_text(text, text_len, numbers);
    if (read.refusal)
        return read;
    uint32_t *draft = mem + desk_at(desk);
    draft[DRAFT_WEIGHT] = boat(numbers + 1);
    memcpy(draft + DRAFT_SHEET, numbers + 1, SHEET_WORDS * sizeof *mem);
    return read;
}

wb_answer ref_trial_a(const uint32_t *mem, size_t mem_len, uint32_t desk)
{
    uint32_t fault = judge_draft(mem, mem_len, desk);
    if (fault)
        return refused(fault);
    const uint32_t *draft = mem + desk_at(desk);
    return plate_a(draft + DRAFT_SHEET, draft[DRAFT_WEIGHT]);
}

wb_answer ref_trial_c(const uint32_t *mem, size_t mem_len, uint32_t desk, const uint32_t *powers, size_t powers_len, const uint32_t *weights,
                      size_t weights_len)
{
    uint32_t fault = judge_draft(mem, mem_len, desk);
    if (fault)
        return refused(fault);
    const uint32_t *draft = mem + desk_at(desk);
    return plate_c(draft + DRAFT_SHEET, draft[DRAFT_WEIGHT], powers, powers_len, weights, weights_len);
}

wb_answer ref_trial_u(const uint32_t *mem, size_t mem_len, uint32_t desk)
{
    uint32_t fault = judge_draft(mem, mem_len, desk);
    if (fault)
        return refused(fault);
    const uint32_t *draft = mem + desk_at(desk);
    return plate_u(draft + DRAFT_SHEET, draft[DRAFT_WEIGHT]);
}

wb_answer ref_save(uint32_t *mem, size_t mem_len, uint32_t desk)
{
    uint32_t fault = judge_draft(mem, mem_len, desk);
    if (fault)
        return refused(fault);
    uint32_t *draft = mem + desk_at(desk), *hull = mem + hull_at(draft[DRAFT_HULL]);
    if (hull[EDIT] != draft[OPENING])
        return refused(WB_EDITED_SINCE);
    if (hull[EDIT] == HIGHEST_EDIT)
        return refused(WB_EDITS_SPENT);
    hull[EDIT]++;
    hull[HULL_WEIGHT] = draft[DRAFT_WEIGHT];
    memcpy(hull + HULL_SHEET, draft + DRAFT_SHEET, SHEET_WORDS * sizeof *mem);
    draft[HELD] = 0;
    return accepted(hull[EDIT], 0);
}

wb_answer ref_drop(uint32_t *mem, size_t mem_len, uint32_t desk)
{
    uint32_t fault = judge_draft(mem, mem_len, desk);
    if (fault)
        return refused(fault);
    mem[desk_at(desk) + HELD] = 0;
    return accepted(0, 0);
}

wb_answer ref_plate_a(const uint32_t *mem, size_t mem_len, uint32_t hull)
{
    uint32_t fault = judge_hull(mem, mem_len, hull);
    if (fault)
        return refused(fault);
    const uint32_t *slot = mem + hull_at(hull);
    return plate_a(slot + HULL_SHEET, slot[HULL_WEIGHT]);
}

wb_answer ref_plate_c(const uint32_t *mem, size_t mem_len, uint32_t hull, const uint32_t *powers, size_t powers_len, const uint32_t *weights,
                      size_t weights_len)
{
    uint32_t fault = judge_hull(mem, mem_len, hull);
    if (fault)
        return refused(fault);
    const uint32_t *slot = mem + hull_at(hull);
    return plate_c(slot + HULL_SHEET, slot[HULL_WEIGHT], powers, powers_len, weights, weights_len);
}

wb_answer ref_plate_u(const uint32_t *mem, size_t mem_len, uint32_t hull)
{
    uint32_t fault = judge_hull(mem, mem_len, hull);
    if (fault)
        return refused(fault);
    const uint32_t *slot = mem + hull_at(hull);
    return plate_u(slot + HULL_SHEET, slot[HULL_WEIGHT]);
}

wb_answer ref_weight(const uint32_t *mem, size_t mem_len, uint32_t hull)
{
    uint32_t fault = judge_hull(mem, mem_len, hull);
    return fault ? refused(fault) : accepted(mem[hull_at(hull) + HULL_WEIGHT], 0);
}

wb_answer ref_write_hull(const uint32_t *mem, size_t mem_len, uint32_t hull, uint8_t *out, size_t out_len)
{
    uint32_t fault = judge_hull(mem, mem_len, hull);
    return fault ? refused(fault) : write_text(hull, mem + hull_at(hull) + HULL_SHEET, out, out_len);
}

wb_answer ref_read_sheet(const uint8_t *text, size_t text_len, wb_sheet *sheet)
{
    uint32_t numbers[1 + SHEET_WORDS];
    wb_answer read = read_text(text, text_len, numbers);
    if (!read.refusal)
        memcpy(sheet, numbers, sizeof *sheet);
    return read;
}

wb_answer ref_write_sheet(const wb_sheet *sheet, uint8_t *out, size_t out_len)
{
    const uint32_t *numbers = (const uint32_t *)sheet; /* a wb_sheet is its 93 numbers and nothing else */
    uint32_t grams;
    if (numbers[0] > HIGHEST_HULL || !sheet_within_limits(numbers + 1, &grams))
        return refused(WB_OUTSIDE_LIMITS);
    return write_text(numbers[0], numbers + 1, out, out_len);
}

wb_answer ref_read_engines(const uint8_t *text, size_t text_len, uint32_t *powers, size_t powers_len, uint32_t *weights, size_t weights_len)
{
    uint32_t power[WB_ENGINE_ROWS], weight[WB_ENGINE_ROWS];
    size_t rows;
    if (text_len > LONGEST_TEXT)
        return refused(WB_BROKEN_LINE);
    struct reader from = start_of(text, text_len);
    uint32_t fault = read_rows(&from, power, weight, &rows);
    if (fault)
        return refused_at(fault, &from);
    if (powers_len < rows || weights_len < rows)
        return refused(WB_NO_ROOM);
    memcpy(powers, power, rows * sizeof *power);
    memcpy(weights, weight, rows * sizeof *weight);
    return accepted((uint32_t)rows, 0);
}
