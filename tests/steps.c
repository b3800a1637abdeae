/* steps.c: see steps.h. */
#include "steps.h"

#include "layout.h"
#include "material.h"

#include <string.h>

void start_fresh(void)
{
    memset(lend(MEMORY, 4 * WB_REGISTER_WORDS), 0xEE, 4 * WB_REGISTER_WORDS);
    expect(attempt((struct call){.kind = FRESH}), 0, 0, 0);
}

void lend_text(const char *text)
{
    memcpy(lend(TEXT, strlen(text)), text, strlen(text));
}

void lend_text_of(const wb_sheet *sheet)
{
    lent[TEXT].size = text_of(sheet, lent_bytes(TEXT));
}

void lend_out(size_t size)
{
    memset(lend(OUT, size), OTHER_BYTE, size);
}

void lend_slices(size_t powers, size_t weights)
{
    memset(lend(POWERS, 4 * powers), OTHER_BYTE, 4 * powers);
    memset(lend(WEIGHTS, 4 * weights), OTHER_BYTE, 4 * weights);
}

void expect_beyond(struct call call, enum buffer one, enum buffer other, uint32_t refusal, uint32_t first)
{
    for (int bit = 32; bit < 46; bit++) /* no machine has room for more */
        for (size_t less = 0; less < 2; less++) {
            lent[one].beyond = lent[other].beyond = ((size_t)1 << bit) - less;
            expect(attempt(call), refusal, first, 0);
            lent[one].beyond = lent[other].beyond = 0;
        }
}

/* A register with the base hull alone, open at desk 3. */
static void lend_register(void)
{
    wb_sheet sheet = base_hull();
    uint32_t *mem = memset(lend(MEMORY, 4 * WB_REGISTER_WORDS), 0, 4 * WB_REGISTER_WORDS);
    mem[0] = 1;
    mem[HULL_WEIGHT_AT(0)] = sheet.bare;
    memcpy(mem + HULL_SHEET_AT(0), numbers_of(&sheet) + 1, sizeof sheet - 4);
    mem[DESK_AT(3)] = 1;
    mem[DRAFT_WEIGHT_AT(3)] = sheet.bare;
    memcpy(mem + DRAFT_SHEET_AT(3), numbers_of(&sheet) + 1, sizeof sheet - 4);
}

wb_answer read_sheet(void)
{
    memset(lend(SHEET, sizeof(wb_sheet)), 0xD7, sizeof(wb_sheet));
    wb_answer answer = attempt((struct call){.kind = READ_SHEET});
    uint32_t hull = 1; /* the register's second */
    lend_register();
    expect(attempt((struct call){.kind = NEW_HULL}), answer.refusal, answer.refusal ? answer.first : hull, answer.second);
    lend_register();
    expect(attempt((struct call){.kind = REPLACE, .desk = 3}), answer.refusal, answer.first, answer.second);
    return answer;
}

wb_answer read_engines(size_t powers, size_t weights)
{
    lend_slices(powers, weights);
    return attempt((struct call){.kind = READ_ENGINES});
}

void expect_at_field(wb_answer answer, uint32_t refusal, size_t field, uint32_t bytes)
{
    uint32_t line = 1, byte = 1 + bytes;
    const uint8_t *at = lent_bytes(TEXT), *start = at + field_start(at, lent[TEXT].size, field);
    for (; at < start; at++) {
        byte = *at == '\n' ? 1 + bytes : byte + 1;
        line += *at == '\n';
    }
    expect(answer, refusal, line, byte);
}

void lend_rows(const uint32_t *powers, const uint32_t *weights, size_t rows)
{
    memcpy(lend(POWERS, 4 * rows), powers, 4 * rows);
    memcpy(lend(WEIGHTS, 4 * rows), weights, 4 * rows);
}

void enter_alone(const wb_sheet *sheet)
{
    start_fresh();
    lend_text_of(sheet);
    expect(attempt((struct call){.kind = NEW_HULL}), 0, 0, 0);
    expect(attempt((struct call){.kind = OPEN, .desk = 3}), 0, 0, 0);
}

void insist_untouched(enum buffer buffer, size_t from)
{
    for (size_t i = from; i < lent[buffer].size; i++)
        insist(lent_bytes(buffer)[i] == OTHER_BYTE, "a byte after what was to be written was changed");
}

static wb_answer plate(char letter, const wb_sheet *sheet)
{
    enter_alone(sheet);
    wb_answer trial = attempt((struct call){.kind = letter == 'A' ? TRIAL_A : letter == 'C' ? TRIAL_C : TRIAL_U, .desk = 3});
    wb_answer answer = attempt((struct call){.kind = letter == 'A' ? PLATE_A : letter == 'C' ? PLATE_C : PLATE_U});
    expect(trial, answer.refusal, answer.first, answer.second);
    return answer;
}

void expect_plate(char letter, const wb_sheet *sheet, uint32_t refusal, uint32_t first, uint32_t second)
{
    expect(plate(letter, sheet), refusal, first, second);
}

void expect_load(char letter, const wb_sheet *sheet, uint32_t load)
{
    wb_answer answer = plate(letter, sheet);
    expect(answer, 0, load, answer.second);
}

void expect_power(const wb_sheet *sheet, uint32_t watts)
{
    wb_answer answer = plate('A', sheet);
    expect(answer, 0, answer.first, watts);
}
