/* fault_places.c: the fullest texts, spoilt at every byte and in every field, and the place that is told of each fault. */
#include "material.h"
#include "parts.h"
#include "random.h"
#include "steps.h"

#include <string.h>

/* ---- a right text, and where each of its bytes stands ---- */

static uint8_t whole[TEXT_ROOM];
static size_t whole_size;
static int engines; /* it is a text of engine rows */
static struct {
    uint32_t line, byte;
} places[TEXT_ROOM + 1];

static void find_places(void)
{
    uint32_t line = 1, byte = 1;
    for (size_t at = 0; at <= whole_size; at++) {
        places[at].line = line;
        places[at].byte = byte++;
        if (at < whole_size && whole[at] == '\n') {
            line++;
            byte = 1;
        }
    }
}

/* Every line, every number in as many digits as it may have; some lines without a count. */
static void take_sheet(uint32_t short_lines)
{
    wb_sheet sheet = highest_sheet();
    whole_size = short_text_of(&sheet, short_lines, whole);
    engines = 0;
    find_places();
}

static void take_rows(size_t rows)
{
    uint32_t powers[WB_ENGINE_ROWS], weights[WB_ENGINE_ROWS];
    for (uint32_t i = 0; i < rows; i++) {
        powers[i] = 200000 - (uint32_t)rows + 1 + i;
        weights[i] = 1000000 - i;
    }
    whole_size = text_of_rows(powers, weights, rows, whole);
    engines = 1;
    find_places();
}

static void lend_whole(void)
{
    memcpy(lend(TEXT, whole_size), whole, whole_size);
}

static wb_answer read_text(void)
{
    return engines ? read_engines(WB_ENGINE_ROWS, WB_ENGINE_ROWS) : read_sheet();
}

/* What is lent has the bytes of the right text up to a place, and is refused with 2 there. */
static void expect_broken_at(size_t at)
{
    expect(read_text(), 2, places[at].line, places[at].byte);
}

/* ---- faults whose place is plain ---- */

/* Cut off at a byte, a text stops early there; only engine rows may end after any line. */
static void try_cuts(void)
{
    for (size_t at = 0; at < whole_size; at++) {
        lend_whole();
        lent[TEXT].size = at;
        if (engines && at > 0 && whole[at - 1] == '\n')
            expect(read_text(), 0, places[at].line - 1, 0);
        else
            expect_broken_at(at);
    }
}

/* A byte that no text has is at fault wherever it stands, in place of a right one or before it. */
static void try_foreign_bytes(void)
{
    static const char *const foreign[] = {"\r", " ", "+", ".", "/", ":", "x", "h", "\x7F", "\x80", "\xEF\xBB\xBF", "\xFF", "\r\n"};
    for (size_t at = 0; at <= whole_size; at++) {
        for (size_t i = 0; i < sizeof foreign / sizeof *foreign; i++) {
            lend_whole();
            lent[TEXT].size = insert_bytes(lent_bytes(TEXT), whole_size, at, foreign[i]);
            expect_broken_at(at);
        }
        if (at == whole_size)
            break;
        lend_whole();
        lent_bytes(TEXT)[at] = 0;
        expect_broken_at(at);
        lent_bytes(TEXT)[at] = (uint8_t)ONE_OF(foreign)[0];
        expect_broken_at(at);
    }
}

/* Every field made a number that is too high for any, or one that is broken at some byte of it; a tag is then broken at its first byte. */
static void try_fields(void)
{
    static const struct {
        const char *by;
        uint32_t refusal, bytes;
    } odd[] = {{"9999999999", 3, 0}, {"4294967296", 3, 0}, {"4294967297", 3, 0}, {"10000000000", 2, 10}, {"18446744073709551617", 2, 10}, {"", 2, 0},
               {"00", 2, 1}, {"01", 2, 1}, {"0000000001", 2, 1}, {"0x", 2, 1}, {"1 ", 2, 1}, {" 1", 2, 0}, {"1\r", 2, 1}, {"+1", 2, 0}, {"1-", 2, 1},
               {"9999999999x", 2, 10}, {"9999999999\r", 2, 10}};
    for (size_t field = 0; field < count_fields(whole, whole_size); field++)
        for (size_t i = 0; i < sizeof odd / sizeof *odd; i++) {
            size_t start = field_start(whole, whole_size, field);
            int is_tag = whole[start] >= 'A';
            lend_whole();
            lent[TEXT].size = replace_field(lent_bytes(TEXT), whole_size, field, odd[i].by);
            expect(read_text(), is_tag ? 2 : odd[i].refusal, places[start].line, places[start].byte + (is_tag ? 0 : odd[i].bytes));
        }
}

/* ---- faults whose place hangs on the bytes around them ---- */

/*
 * What a place is. With nothing or anything after the byte at fault, or after the byte that ends a number outside its limits, a text is refused alike;
 * without that byte too it is whole, or it only stops early. This holds the library to itself.
 */
static void expect_settled(wb_answer answer)
{
    uint8_t *text = lent_bytes(TEXT);
    size_t size = lent[TEXT].size, at = offset_of(text, size, answer.first, answer.second), end = at;
    if ((answer.refusal != 2 && answer.refusal != 3) || answer.first == 0)
        return;
    while (answer.refusal == 3 && text[end] != '\t' && text[end] != '\n')
        end++;
    lent[TEXT].size = end;
    wb_answer before = read_text();
    insist(before.refusal != 0 || answer.refusal == 2, "a number that nothing ends is accepted");
    if (before.refusal)
        expect(before, 2, answer.first, answer.second + (uint32_t)(end - at));
    if (end == size)
        return;
    lent[TEXT].size = end + 1;
    expect(read_text(), answer.refusal, answer.first, answer.second);
    lent[TEXT].size = size;
    for (size_t i = end + 1; i < size; i++)
        text[i] = one_in(2) ? whole[i] : (uint8_t)random_word();
    expect(read_text(), answer.refusal, answer.first, answer.second);
}

/* Bytes of the rules where they may not stand, or may: in place of every byte; and every byte dropped, or doubled. */
static void try_telling_bytes(void)
{
    static const uint8_t telling[] = {'\t', '\n', '0', '1', '9', '-', 'E', 'F', 'N', 'T'};
    for (size_t at = 0; at < whole_size; at++) {
        const char twice[] = {(char)whole[at], 0};
        for (size_t i = 0; i < sizeof telling; i++) {
            lend_whole();
            lent_bytes(TEXT)[at] = telling[i];
            expect_settled(read_text());
        }
        lend_whole();
        lent[TEXT].size = delete_bytes(lent_bytes(TEXT), whole_size, at, 1);
        expect_settled(read_text());
        lend_whole();
        lent[TEXT].size = insert_bytes(lent_bytes(TEXT), whole_size, at, twice);
        expect_settled(read_text());
    }
}

/* All 256 of them in place of every byte. */
static void try_all_bytes(void)
{
    for (size_t at = 0; at < whole_size; at++)
        for (int byte = 0; byte < 256; byte++) {
            lend_whole();
            lent_bytes(TEXT)[at] = (uint8_t)byte;
            if (engines)
                read_engines(WB_ENGINE_ROWS, WB_ENGINE_ROWS);
            else
                attempt((struct call){.kind = READ_SHEET});
        }
}

static void try_random_texts(void)
{
    for (int i = 0; i < 2000; i++) {
        lent[TEXT].size = engines ? random_engine_text(lent_bytes(TEXT)) : random_sheet_text(lent_bytes(TEXT));
        expect_settled(read_text());
    }
}

void try_fault_places(void)
{
    begin_part("places in the fullest sheet's text");
    take_sheet(0);
    try_cuts();
    try_foreign_bytes();
    try_fields();
    try_telling_bytes();
    try_all_bytes();
    begin_part("places in a sheet's text with counts on every other line");
    take_sheet(0x555555);
    try_cuts();
    try_fields();
    try_telling_bytes();
    begin_part("places in random sheets' texts");
    try_random_texts();
    begin_part("places in the fullest engine text");
    take_rows(WB_ENGINE_ROWS);
    try_cuts();
    try_foreign_bytes();
    try_fields();
    try_telling_bytes();
    begin_part("places in random engine texts");
    try_random_texts();
    begin_part("places in three engine rows");
    take_rows(3);
    try_all_bytes();
}
