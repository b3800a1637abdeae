/* material.c: see material.h. */
#include "material.h"

#include "random.h"

#include <inttypes.h>
#include <stdio.h>
#include <string.h>

/* ---- sheets ---- */

uint32_t *numbers_of(wb_sheet *sheet)
{
    return (uint32_t *)sheet;
}

static int is_breadth(int number)
{
    return (number - 7) % 7 == 0;
}

static int is_count(int number)
{
    return number >= FIRST_FITTING && (number - FIRST_FITTING) % 2 == 1;
}

uint32_t lowest(int number)
{
    static const uint32_t form[] = {0, 2000, 2000, 500, 200, 0, 0}, rest[] = {0, 0, 0, 1, 0, 0, 0, 0, 1, 1};
    if (number < 7)
        return form[number];
    if (number < 35)
        return 0;
    return number < FIRST_FITTING ? rest[number - 35] : 1;
}

uint32_t highest(int number)
{
    static const uint32_t form[] = {15, 6000, 6000, 3000, 900, 1, 1};
    static const uint32_t rest[] = {5000000, 5000000, 5000000, 2000000, 500000, 500000, 1, 200000, 24, 24};
    if (number < 7)
        return form[number];
    if (number < 35)
        return is_breadth(number) ? 4000 : 2500;
    if (number < FIRST_FITTING)
        return rest[number - 35];
    return is_count(number) ? 99 : 500000;
}

uint32_t heaviest(uint32_t count)
{
    return 500000 / count;
}

uint64_t grams_of(const wb_sheet *sheet)
{
    uint64_t grams = sheet->bare;
    for (int i = 0; i < WB_FITTINGS; i++)
        grams += (uint64_t)sheet->fitting[i].weight * sheet->fitting[i].count;
    return grams;
}

wb_sheet base_hull(void)
{
    static const wb_station station = {1000, 500, 500, 500, 500, 500, 500};
    wb_sheet sheet;
    memset(&sheet, 0, sizeof sheet);
    sheet.length = 4500;
    sheet.reference = 4000;
    sheet.transom_width = 1200;
    sheet.transom_height = 500;
    for (int i = 0; i < 4; i++)
        sheet.station[i] = station;
    sheet.bare = 200000;
    sheet.outboard = 1;
    sheet.declared = 20000;
    sheet.positions = 5;
    return sheet;
}

wb_sheet highest_sheet(void)
{
    wb_sheet sheet;
    for (int number = 0; number < SHEET_NUMBERS; number++)
        numbers_of(&sheet)[number] = is_count(number) ? 1 : highest(number);
    return sheet;
}

static uint32_t number_at_limit(int number)
{
    uint32_t low = lowest(number), high = highest(number);
    switch (random_between(0, 4)) {
    case 0:
        return low;
    case 1:
        return high;
    case 2:
        return low + 1;
    case 3:
        return high - 1;
    default:
        return random_between(low, high);
    }
}

wb_fitting random_fitting(void)
{
    wb_fitting fitting = {0, one_in(3) ? 1 : number_at_limit(FIRST_FITTING + 1)};
    uint32_t most = heaviest(fitting.count);
    switch (random_between(0, 3)) {
    case 0:
        fitting.weight = most;
        break;
    case 1:
        fitting.weight = one_in(2) ? 1 : most - 1;
        break;
    case 2:
        fitting.weight = random_between(1, most);
        break;
    default:
        fitting.weight = random_between(1, most < 20000 ? most : 20000);
    }
    return fitting;
}

static void random_fittings(wb_sheet *sheet)
{
    uint32_t gaps = random_between(0, 3);
    for (int i = 0; i < WB_FITTINGS; i++)
        if (gaps == 0 || (gaps < 3 && one_in(4 * gaps)))
            sheet->fitting[i] = random_fitting();
}

/* The length x the transom's width at the end of a row of plate A's power table, or a millimetre of length beside it. */
static void put_on_a_row_end(wb_sheet *sheet)
{
    static const uint32_t lengths[] = {2250, 3300, 3600, 3900, 4200, 5000};
    sheet->length = ONE_OF(lengths) + random_between(0, 2) - 1;
    sheet->transom_width = 1000;
}

/* A boat whose loads are small, so that every refusal of the plates comes near. */
static void make_small(wb_sheet *sheet)
{
    static const uint32_t powers[] = {0, 1, 1490, 1491, 1492, 1499, 1500, 1501, 20000, 199999, 200000};
    sheet->transom_width = random_between(500, 1500);
    sheet->transom_height = random_between(495, 505);
    if (one_in(4))
        put_on_a_row_end(sheet);
    for (int i = 0; i < 4; i++) {
        uint32_t *readings = &sheet->station[i].b;
        readings[0] = random_between(0, 1200);
        for (int j = 1; j < 7; j++)
            readings[j] = random_between(0, 500);
    }
    sheet->aft = random_between(0, 300000);
    sheet->well = random_between(0, 100000);
    sheet->flooding = random_between(0, 100000);
    sheet->bare = random_between(1, 400000);
    sheet->fuel = random_between(0, 50000);
    sheet->machinery = random_between(0, 50000);
    sheet->declared = one_in(2) ? ONE_OF(powers) : random_between(0, 60000);
    memset(sheet->fitting, 0, sizeof sheet->fitting);
    sheet->fitting[random_between(0, 23)] = (wb_fitting){random_between(1, 500), random_between(1, 20)};
}

wb_sheet random_sheet(void)
{
    wb_sheet sheet;
    uint32_t style = random_between(0, 3);
    memset(&sheet, 0, sizeof sheet);
    for (int i = 0; i < FIRST_FITTING; i++)
        numbers_of(&sheet)[i] = style == 0 ? number_at_limit(i) : random_between(lowest(i), highest(i));
    random_fittings(&sheet);
    if (style >= 2)
        make_small(&sheet);
    if (one_in(2))
        sheet.tested = 0;
    if (sheet.reference > sheet.length)
        sheet.reference = one_in(2) ? sheet.length : random_between(2000, sheet.length);
    return sheet;
}

/* ---- texts ---- */

size_t text_of(const wb_sheet *sheet, uint8_t *text)
{
    return short_text_of(sheet, 0, text);
}

static int fit_line(char *at, int line, const wb_fitting *fitting, int is_short)
{
    if (is_short && fitting->count == 1)
        return sprintf(at, "FIT\t%d\t%" PRIu32 "\n", line, fitting->weight);
    return sprintf(at, "FIT\t%d\t%" PRIu32 "\t%" PRIu32 "\n", line, fitting->weight, fitting->count);
}

size_t short_text_of(const wb_sheet *sheet, uint32_t lines, uint8_t *text)
{
    char *start = (char *)text, *at = start;
    at += sprintf(at, "HULL\t%" PRIu32 "\nFORM\t%" PRIu32 "\t%" PRIu32 "\t%" PRIu32 "\t%" PRIu32 "\t%" PRIu32 "\t%" PRIu32 "\n", sheet->hull,
                  sheet->length, sheet->reference, sheet->transom_width, sheet->transom_height, sheet->flat, sheet->remote);
    for (int i = 0; i < 4; i++) {
        const wb_station *n = &sheet->station[i];
        at += sprintf(at, "STN\t%c\t%" PRIu32 "\t%" PRIu32 "\t%" PRIu32 "\t%" PRIu32 "\t%" PRIu32 "\t%" PRIu32 "\t%" PRIu32 "\n", "QRST"[i], n->b,
                      n->q, n->r, n->s, n->t, n->u, n->v);
    }
    at += sprintf(at, "VOL\t%" PRIu32 "\t%" PRIu32 "\t%" PRIu32 "\n", sheet->aft, sheet->well, sheet->flooding);
    at += sprintf(at, "MASS\t%" PRIu32 "\t%" PRIu32 "\t%" PRIu32 "\n", sheet->bare, sheet->fuel, sheet->machinery);
    at += sprintf(at, "PWR\t%" PRIu32 "\t%" PRIu32 "\nSEAT\t%" PRIu32 "\t", sheet->outboard, sheet->declared, sheet->positions);
    at += sheet->tested ? sprintf(at, "%" PRIu32 "\n", sheet->tested) : sprintf(at, "-\n");
    for (int i = 0; i < WB_FITTINGS; i++)
        if (sheet->fitting[i].weight || sheet->fitting[i].count)
            at += fit_line(at, i + 1, &sheet->fitting[i], lines >> i & 1);
    at += sprintf(at, "END\n");
    return (size_t)(at - start);
}

void random_rows(uint32_t *powers, uint32_t *weights, size_t rows)
{
    uint32_t step = one_in(3) ? 1 : 200000 / 41, power = one_in(4) ? 200000 - (uint32_t)rows : 0;
    if (power > 0)
        step = 1;
    for (size_t i = 0; i < rows; i++) {
        power += step == 1 ? 1 : random_between(1, step);
        powers[i] = power;
        weights[i] = one_in(10) ? 0 : one_in(10) ? 1000000 : random_between(0, one_in(4) ? 1000000 : 200000);
    }
}

size_t text_of_rows(const uint32_t *powers, const uint32_t *weights, size_t rows, uint8_t *text)
{
    char *start = (char *)text, *at = start;
    for (size_t i = 0; i < rows; i++)
        at += sprintf(at, "ENG\t%" PRIu32 "\t%" PRIu32 "\n", powers[i], weights[i]);
    return (size_t)(at - start);
}

/* ---- damage ---- */

size_t insert_bytes(uint8_t *text, size_t size, size_t at, const char *bytes)
{
    size_t count = strlen(bytes);
    if (at > size || size + count > TEXT_ROOM)
        return size;
    memmove(text + at + count, text + at, size - at);
    memcpy(text + at, bytes, count);
    return size + count;
}

size_t delete_bytes(uint8_t *text, size_t size, size_t at, size_t count)
{
    if (at >= size)
        return size;
    if (count > size - at)
        count = size - at;
    memmove(text + at, text + at + count, size - at - count);
    return size - count;
}

static size_t ends_field(uint8_t byte)
{
    return byte == '\t' || byte == '\n';
}

size_t count_fields(const uint8_t *text, size_t size)
{
    size_t fields = 0;
    for (size_t i = 0; i < size; i++)
        fields += ends_field(text[i]);
    return fields;
}

size_t field_start(const uint8_t *text, size_t size, size_t field)
{
    size_t at = 0;
    while (field > 0 && at < size)
        field -= ends_field(text[at++]);
    return at;
}

size_t replace_field(uint8_t *text, size_t size, size_t field, const char *by)
{
    size_t start = field_start(text, size, field), end = start;
    while (end < size && !ends_field(text[end]))
        end++;
    return insert_bytes(text, delete_bytes(text, size, start, end - start), start, by);
}

size_t offset_of(const uint8_t *text, size_t size, uint32_t line, uint32_t byte)
{
    size_t at = 0;
    while (line > 1 && at < size)
        line -= text[at++] == '\n';
    for (; byte > 1 && at < size && text[at] != '\n'; at++)
        byte--;
    return line == 1 && byte == 1 ? at : NOWHERE;
}

static size_t random_field_start(const uint8_t *text, size_t size)
{
    size_t fields = count_fields(text, size);
    return fields ? field_start(text, size, random_between(0, (uint32_t)fields - 1)) : 0;
}

/* The first line feed or tab at or after a place chosen at random; the text's end if there is none. */
static size_t random_byte_like(const uint8_t *text, size_t size, uint8_t byte)
{
    size_t at = size ? random_between(0, (uint32_t)size - 1) : 0;
    while (at < size && text[at] != byte)
        at++;
    return at;
}

static size_t odd_field(uint8_t *text, size_t size)
{
    static const char *const odd[] = {"", "0", "00", "01", "-", "--", "-1", "+1", "1.", " 1", "1 ", "16", "25", "24", "1", "2", "99", "100", "2001",
                                      "6001", "1999", "2501", "4001", "5000001", "2000001", "500001", "200001", "1000001", "4294967295", "4294967296",
                                      "4294967297", "4294969296", "9999999999", "0000000001", "10000000000", "12345678901", "18446744073709551617",
                                      "x", "Q", "R", "FIT", "END", "STN", "FORM", "ENG", "HULL", "hull", "\r"};
    size_t fields = count_fields(text, size);
    return fields ? replace_field(text, size, random_between(0, (uint32_t)fields - 1), ONE_OF(odd)) : size;
}

static size_t line_start(const uint8_t *text, size_t at)
{
    while (at > 0 && text[at - 1] != '\n')
        at--;
    return at;
}

/* A whole line taken away, doubled, or put before the one above it. */
static size_t damage_line(uint8_t *text, size_t size)
{
    char line[256];
    size_t end = random_byte_like(text, size, '\n') + 1, start = line_start(text, end - 1), count = end - start;
    if (end > size || count >= sizeof line || memchr(text + start, 0, count))
        return size;
    memcpy(line, text + start, count);
    line[count] = 0;
    switch (random_between(0, 2)) {
    case 0:
        return delete_bytes(text, size, start, count);
    case 1:
        return insert_bytes(text, size, start, line);
    default:
        size = delete_bytes(text, size, start, count);
        return insert_bytes(text, size, start > 0 ? line_start(text, start - 1) : 0, line);
    }
}

static size_t damage_byte(uint8_t *text, size_t size)
{
    static const char *const bytes[] = {"\t", "\n", "\r", "\r\n", "0", "9", "-", " ", "/", ":", "\x7F", "\xFF", "\xB0", "END\n", "\t\t", "A",
                                        "\xEF\xBB\xBF"};
    size_t at = size ? random_between(0, (uint32_t)size - 1) : 0;
    const char *chosen = ONE_OF(bytes);
    switch (random_between(0, 3)) {
    case 0:
        if (size)
            text[at] ^= (uint8_t)(1u << random_between(0, 7));
        return size;
    case 1:
        return delete_bytes(text, size, at, 1);
    case 2:
        return insert_bytes(text, size, one_in(8) ? size : at, chosen);
    default:
        if (size)
            text[at] = one_in(8) ? 0 : (uint8_t)chosen[0];
        return size;
    }
}

/* To a size at the bound for texts, or a little above or below. */
static size_t fill_up(uint8_t *text, size_t size)
{
    size_t to = one_in(8) ? random_between(5000, TEXT_ROOM) : random_between(4094, 4098);
    for (; size < to; size++)
        text[size] = text[size % 7];
    return to;
}

static size_t damage(uint8_t *text, size_t size)
{
    switch (random_between(0, 11)) {
    case 0:
        return random_between(0, (uint32_t)size);
    case 1:
        return insert_bytes(text, size, random_byte_like(text, size, '\t'), "\t");
    case 2:
        return insert_bytes(text, size, random_field_start(text, size), one_in(2) ? "0" : "1");
    case 3:
        return insert_bytes(text, size, random_byte_like(text, size, '\n'), "\r");
    case 4:
        return size > 4 ? size - 4 : 0;
    case 5:
        return insert_bytes(text, size, size, one_in(2) ? "END\n" : one_in(2) ? "\n" : one_in(2) ? "FIT\t24\t1\n" : "FIT\t24\t1\t1\n");
    case 6:
        return damage_line(text, size);
    case 7:
        return fill_up(text, size);
    case 8:
    case 9:
        return odd_field(text, size);
    default:
        return damage_byte(text, size);
    }
}

static size_t perhaps_damaged(uint8_t *text, size_t size)
{
    if (one_in(2))
        return size;
    for (uint32_t times = one_in(4) ? random_between(2, 3) : 1; times > 0; times--)
        size = damage(text, size);
    return size;
}

/* Both numbers are within their limits, and all pieces weigh too much by a gram or more. */
static void make_too_heavy(wb_fitting *fitting)
{
    fitting->count = random_between(2, 99);
    fitting->weight = heaviest(fitting->count) + (one_in(2) ? 1 : random_between(1, 500000 - heaviest(fitting->count)));
}

size_t random_sheet_text(uint8_t *text)
{
    wb_sheet sheet = random_sheet();
    if (one_in(8)) {
        int number = (int)random_between(one_in(2) ? 0 : FIRST_FITTING, SHEET_NUMBERS - 1);
        numbers_of(&sheet)[number] = one_in(2) ? highest(number) + 1 : lowest(number) - (lowest(number) > 0);
    }
    if (one_in(12))
        make_too_heavy(&sheet.fitting[random_between(0, WB_FITTINGS - 1)]);
    return perhaps_damaged(text, short_text_of(&sheet, one_in(2) ? 0 : random_word(), text));
}

size_t random_engine_text(uint8_t *text)
{
    uint32_t powers[64], weights[64];
    static const uint32_t sizes[] = {1, 2, 3, 39, 40, 41, 0};
    size_t rows = one_in(2) ? random_between(1, 40) : ONE_OF(sizes);
    random_rows(powers, weights, rows);
    if (rows > 1 && one_in(6)) {
        size_t row = random_between(1, (uint32_t)rows - 1);
        powers[row] = one_in(2) ? powers[row - 1] : powers[row] + 200000;
    }
    return perhaps_damaged(text, text_of_rows(powers, weights, rows, text));
}

/* ---- numbers ---- */

uint32_t hostile_number(void)
{
    static const uint32_t numbers[] = {0, 1, 2, 7, 8, 15, 16, 17, 24, 25, 98, 99, 100, 255, 256, 257, 1491, 1492, 1500, 65534, 65535, 65536, 500000,
                                       500001, 200000, 200001, 1000000, 1000001, 0x7FFFFFFF, 0x80000000, 0x80000001, 0xFFFFFFFE, 0xFFFFFFFF};
    return one_in(4) ? random_between(0, 15) | (uint32_t)1 << random_between(0, 31) : ONE_OF(numbers);
}
