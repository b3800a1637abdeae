/*
 * calls.c: the test of the library as C calls it. First what was chosen on purpose, by its parts; then random runs of calls from eight desks.
 * Every call is made of the library and of the reference, and all that they answer and leave must be the same.
 *
 * usage: calls [--seed N] [--calls N]    N calls at random, after those that are chosen
 */
#define _POSIX_C_SOURCE 199309L
#include "compare.h"
#include "layout.h"
#include "material.h"
#include "parts.h"
#include "random.h"
#include "steps.h"
#include "weighed.h"

#include <stdio.h>
#include <stdlib.h>
#include <string.h>
#include <time.h>

#define DEFAULT_SEED 1799
#define DEFAULT_CALLS 400000

static uint32_t *const mem = lent[MEMORY].words;

/* ---- the header ---- */

/* The members of a wb_sheet stand in the order of the text, one word each. */
static void check_header(void)
{
    const size_t offsets[] = {offsetof(wb_sheet, hull), offsetof(wb_sheet, length), offsetof(wb_sheet, reference), offsetof(wb_sheet, transom_width),
                              offsetof(wb_sheet, transom_height), offsetof(wb_sheet, flat), offsetof(wb_sheet, remote), offsetof(wb_sheet, station)};
    const size_t later[] = {offsetof(wb_sheet, aft), offsetof(wb_sheet, well), offsetof(wb_sheet, flooding), offsetof(wb_sheet, bare),
                            offsetof(wb_sheet, fuel), offsetof(wb_sheet, machinery), offsetof(wb_sheet, outboard), offsetof(wb_sheet, declared),
                            offsetof(wb_sheet, positions), offsetof(wb_sheet, tested), offsetof(wb_sheet, fitting)};
    const size_t pieces[] = {offsetof(wb_fitting, weight), offsetof(wb_fitting, count)};
    const size_t readings[] = {offsetof(wb_station, b), offsetof(wb_station, q), offsetof(wb_station, r), offsetof(wb_station, s),
                               offsetof(wb_station, t), offsetof(wb_station, u), offsetof(wb_station, v)};
    begin_part("the header");
    insist(sizeof(wb_sheet) == 372 && sizeof(wb_answer) == 16 && sizeof(wb_station) == 28 && sizeof(wb_fitting) == 8, "the size of a structure");
    for (size_t i = 0; i < sizeof offsets / sizeof *offsets; i++)
        insist(offsets[i] == 4 * i, "the place of a sheet's member before the stations");
    for (size_t i = 0; i < sizeof later / sizeof *later; i++)
        insist(later[i] == 4 * (35 + i), "the place of a sheet's member after the stations");
    for (size_t i = 0; i < sizeof readings / sizeof *readings; i++)
        insist(readings[i] == 4 * i, "the place of a station's member");
    for (size_t i = 0; i < sizeof pieces / sizeof *pieces; i++)
        insist(pieces[i] == 4 * i, "the place of a fitting's member");
    insist(offsetof(wb_answer, refusal) == 0 && offsetof(wb_answer, first) == 4 && offsetof(wb_answer, second) == 8 &&
               offsetof(wb_answer, third) == 12, "the place of an answer's member");
    insist(WB_REGISTER_WORDS == 2273 && WB_ENGINE_ROWS == 40, "a size that the header gives");
    insist(DESK_AT(0) == HULL_AT(WB_HULLS) && DESK_AT(WB_DESKS) == WB_REGISTER_WORDS, "a size that the layout gives");
}

/* ---- what a random call is lent ---- */

static void lend_random_rows(void)
{
    static const uint32_t sizes[] = {0, 1, 2, 39, 40, 41, 64};
    uint32_t rows = one_in(4) ? ONE_OF(sizes) : random_between(1, 40);
    lend_slices(rows, rows);
    random_rows(lent[POWERS].words, lent[WEIGHTS].words, rows > 41 ? 41 : rows);
    if (one_in(10))
        lent[one_in(2) ? POWERS : WEIGHTS].size = 4 * random_between(0, 41);
    if (one_in(6))
        lent[one_in(2) ? POWERS : WEIGHTS].words[random_between(0, rows)] = hostile_number();
    if (one_in(10) && rows > 1)
        lent[POWERS].words[rows - 1] = lent[POWERS].words[rows - 2] + random_between(0, 1);
}

static void lend_random_sheet(void)
{
    wb_sheet sheet = random_sheet();
    sheet.hull = random_between(0, 15);
    if (one_in(3))
        numbers_of(&sheet)[random_between(0, SHEET_NUMBERS - 1)] = hostile_number();
    memcpy(lend(SHEET, sizeof sheet), &sheet, sizeof sheet);
}

static void lend_for(enum kind kind)
{
    static const size_t sizes[] = {0, 1, 200, 300, WB_SHEET_TEXT - 1, WB_SHEET_TEXT, WB_SHEET_TEXT + 1, 4096};
    if (kind == READ_ENGINES) {
        lent[TEXT].size = random_engine_text(lent_bytes(TEXT));
        lend_slices(one_in(3) ? random_between(0, 41) : 40, one_in(3) ? random_between(0, 41) : 40);
    } else if (kind == NEW_HULL || kind == REPLACE || kind == READ_SHEET)
        lent[TEXT].size = random_sheet_text(lent_bytes(TEXT));
    if (kind == TRIAL_C || kind == PLATE_C)
        lend_random_rows();
    if (kind == WRITE_SHEET || kind == READ_SHEET)
        lend_random_sheet();
    if (kind == WRITE_SHEET || kind == WRITE_HULL)
        lend_out(one_in(2) ? WB_SHEET_TEXT : one_in(2) ? random_between(190, WB_SHEET_TEXT) : ONE_OF(sizes));
}

/* ---- the memory, harmed or only changed ---- */

static uint32_t random_poke(uint32_t is)
{
    switch (random_between(0, 4)) {
    case 0:
        return is + 1;
    case 1:
        return is - 1;
    case 2:
        return is ^ (uint32_t)1 << random_between(0, 31);
    case 3:
        return random_word();
    default:
        return hostile_number();
    }
}

/* A word of those that carry most: the count, an edit number, a desk's mark, hull or opening number, or a weight. */
static uint32_t weighty_word(void)
{
    switch (random_between(0, 2)) {
    case 0:
        return 0;
    case 1:
        return HULL_AT(random_between(0, 15)) + random_between(0, 1);
    default:
        return DESK_AT(random_between(0, 7)) + random_between(0, 3);
    }
}

/* The weights mostly follow the sheets, so that it is the other numbers that are judged. */
static void harm_memory(void)
{
    static const uint32_t sizes[] = {0, 1, 1105, DESK_AT(0), 1673, 2249, WB_REGISTER_WORDS - 1, WB_REGISTER_WORDS + 1,
                                     2 * WB_REGISTER_WORDS};
    if (one_in(5)) {
        lent[MEMORY].size = 4 * ONE_OF(sizes);
        return;
    }
    for (uint32_t times = random_between(1, 3); times > 0; times--) {
        uint32_t word = one_in(2) ? weighty_word() : random_between(0, WB_REGISTER_WORDS - 1);
        mem[word] = random_poke(mem[word]);
    }
    if (one_in(3))
        return;
    for (uint32_t slot = 0; slot < SLOTS; slot++)
        weigh_slot(mem, slot);
}

/* Brings an edit number near its end, where the next saves find it. */
static void spend_edits(void)
{
    mem[HULL_AT(random_between(0, 15))] = random_between(65533, 65535);
}

/* ---- a random call ---- */

static uint32_t random_desk(void)
{
    return one_in(12) ? hostile_number() : random_between(0, 7);
}

static uint32_t random_hull(void)
{
    return one_in(10) || mem[0] == 0 || mem[0] > 16 ? hostile_number() : random_between(0, one_in(2) ? mem[0] - 1 : (mem[0] - 1) / 4);
}

static uint32_t zero_or_hostile(void)
{
    return one_in(3) ? 0 : hostile_number();
}

/* What a line is set to: a fitting, nothing, or what is on the line already; then at times another weight or another count. */
static wb_fitting random_setting(uint32_t desk, uint32_t line)
{
    wb_fitting fitting = random_fitting();
    fitting.weight += one_in(8);
    if (one_in(3))
        fitting = (wb_fitting){0, 0};
    else if (one_in(8) && desk < WB_DESKS && line >= 1 && line <= WB_FITTINGS)
        fitting = (wb_fitting){mem[WEIGHT_AT(desk, line)], mem[COUNT_AT(desk, line)]};
    if (one_in(6))
        fitting.weight = zero_or_hostile();
    if (one_in(6))
        fitting.count = zero_or_hostile();
    return fitting;
}

static struct call random_call(void)
{
    static const enum kind often[] = {NEW_HULL, NEW_HULL, OPEN, OPEN, OPEN, OPEN, SET_FITTING, SET_FITTING, SET_FITTING,
                                      REPLACE, REPLACE, TRIAL_A, TRIAL_C, TRIAL_U, SAVE, SAVE, DROP, PLATE_A, PLATE_C,
                                      PLATE_U, WEIGH, WRITE_HULL, READ_SHEET, WRITE_SHEET, READ_ENGINES};
    struct call call;
    call.kind = one_in(400) ? FRESH : ONE_OF(often);
    call.desk = random_desk();
    call.hull = random_hull();
    call.line = one_in(6) ? hostile_number() : random_between(1, 24);
    wb_fitting fitting = random_setting(call.desk, call.line);
    call.weight = fitting.weight;
    call.count = fitting.count;
    return call;
}

/* A memory that was harmed so far that the call refused it is put back; one that is still good goes on. */
static void random_step(void)
{
    static uint32_t before[WB_REGISTER_WORDS];
    int harmed = one_in(12);
    struct call call = random_call();
    lend_for(call.kind);
    memcpy(before, mem, sizeof before);
    if (harmed)
        harm_memory();
    else if (one_in(40))
        spend_edits();
    wb_answer answer = attempt(call);
    if (answer.refusal == 1 || lent[MEMORY].size != 4 * WB_REGISTER_WORDS || (harmed && call.kind >= READ_SHEET)) {
        memcpy(mem, before, sizeof before);
        lent[MEMORY].size = 4 * WB_REGISTER_WORDS;
    }
}

static void try_random_calls(unsigned long count)
{
    begin_part("random calls");
    start_fresh();
    while (count-- > 0)
        random_step();
}

/* ---- the program ---- */

static unsigned long long number_after(int argc, char **argv, const char *option, unsigned long long otherwise)
{
    for (int i = 1; i + 1 < argc; i += 2)
        if (strcmp(argv[i], option) == 0)
            return strtoull(argv[i + 1], NULL, 10);
    return otherwise;
}

/* Digits alone, and few enough for 64 bits: of a word strtoull would make 0, and of more digits its highest number. */
static int is_number(const char *word)
{
    size_t digits = strspn(word, "0123456789");
    return digits > 0 && digits < 20 && word[digits] == '\0';
}

static int usage_wrong(int argc, char **argv)
{
    for (int i = 1; i < argc; i += 2)
        if (i + 1 == argc || (strcmp(argv[i], "--seed") != 0 && strcmp(argv[i], "--calls") != 0) || !is_number(argv[i + 1]))
            return 1;
    return 0;
}

static double seconds(void)
{
    struct timespec now;
    clock_gettime(CLOCK_MONOTONIC, &now);
    return (double)now.tv_sec + (double)now.tv_nsec / 1e9;
}

int main(int argc, char **argv)
{
    if (usage_wrong(argc, argv)) {
        fprintf(stderr, "usage: %s [--seed N] [--calls N]; N is a number of at most 19 digits\n", argv[0]);
        return 2;
    }
    uint64_t seed = number_after(argc, argv, "--seed", DEFAULT_SEED);
    unsigned long count = (unsigned long)number_after(argc, argv, "--calls", DEFAULT_CALLS);
    double start = seconds();
    printf("c tests: seed %llu, %lu random calls after the chosen ones\n", (unsigned long long)seed, count);
    seed_random(seed);
    begin_compare(seed);
    check_header();
    try_samples();
    try_plate_edges();
    try_plate_u_edges();
    try_text_edges();
    try_fault_places();
    try_register_edges();
    try_weight_edges();
    printf("c tests: %lu chosen calls\n", calls_made());
    try_random_calls(count);
    print_answers_seen();
    print_lines_at_fault();
    printf("c tests: %.0f calls a second\n", (double)calls_made() / (seconds() - start + 1e-9));
    printf("c tests: %lu calls, 0 differences\n", calls_made());
    return 0;
}
