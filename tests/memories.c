/* memories.c: see memories.h. */
#include "memories.h"

#include "layout.h"
#include "material.h"
#include "random.h"
#include "steps.h"
#include "weighed.h"

#include <string.h>

static uint32_t *const mem = lent[MEMORY].words;

uint32_t slot_of(uint32_t word)
{
    if (word < HULL_AT(1))
        return 0;
    return word < DESK_AT(0) ? (word - HULL_AT(0)) / HULL_WORDS : WB_HULLS + (word - DESK_AT(0)) / DESK_WORDS;
}

int is_mark(uint32_t word)
{
    return word >= DESK_AT(0) && (word - DESK_AT(0)) % DESK_WORDS == 0;
}

void build(uint32_t hulls, uint32_t drafts)
{
    start_fresh();
    for (uint32_t word = 1; word < WB_REGISTER_WORDS; word++)
        if (!is_mark(word))
            mem[word] = random_word();
    for (uint32_t hull = 0; hull < hulls; hull++) {
        wb_sheet sheet = random_sheet();
        lend_text_of(&sheet);
        expect(attempt((struct call){.kind = NEW_HULL}), 0, hull, 0);
        insist(mem[HULL_AT(hull)] == 0, "a new hull's edit number is not 0");
        mem[HULL_AT(hull)] = 3;
    }
    for (uint32_t desk = 0; desk < drafts; desk++) {
        expect(attempt((struct call){.kind = OPEN, .desk = desk, .hull = (desk + 1) % hulls}), 0, 3, 0);
        mem[DESK_AT(desk) + 2] = 2;
    }
}

struct call judging_call(uint32_t turn)
{
    static const enum kind judging[JUDGING] = {SET_FITTING, SET_FITTING, NEW_HULL, OPEN, REPLACE, TRIAL_A, TRIAL_C,
                                               TRIAL_U, SAVE, DROP, PLATE_A, PLATE_C, PLATE_U, WEIGH, WRITE_HULL};
    wb_fitting fitting = turn % JUDGING == 1 ? (wb_fitting){0, 0} : (wb_fitting){5, 12};
    return (struct call){judging[turn % JUDGING], turn % 3, turn % 4, turn % 24 + 1, fitting.weight, fitting.count};
}

void lend_good_things(void)
{
    static const uint32_t power = 200000, weight = 1000;
    wb_sheet sheet = base_hull();
    lend_text_of(&sheet);
    lend_rows(&power, &weight, 1);
    lend_out(WB_SHEET_TEXT);
}

/* Makes one of them on the memory as it is lent, and puts the memory back. */
static void judge_once(int formed, uint32_t turn)
{
    static uint32_t before[WB_REGISTER_WORDS];
    memcpy(before, mem, sizeof before);
    wb_answer answer = attempt(judging_call(turn));
    insist((answer.refusal == 1) == !formed, "a memory is refused with 1 and well formed, or neither");
    memcpy(mem, before, sizeof before);
}

void judge_memory(int formed)
{
    for (uint32_t turn = 0; turn < JUDGING; turn++)
        judge_once(formed, turn);
}

void change_word(uint32_t word, uint32_t number, int formed, uint32_t turn)
{
    uint32_t slot = slot_of(word), at = sheet_at(slot) - 1, is = mem[word], weight = mem[at];
    mem[word] = number;
    if (word != at)
        weigh_slot(mem, slot);
    judge_once(formed, turn);
    mem[at] = weight;
    mem[word] = is;
}

void spoil_word(uint32_t word, uint32_t to)
{
    for (uint32_t turn = 0; turn < JUDGING; turn++)
        change_word(word, to, 0, turn);
}
