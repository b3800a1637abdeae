/*
 * bench: times each call of Willowblink beside the same call of the plain C implementation in tests/reference.c, and measures the stack of both.
 *
 *     bench FILE              a line for each case: nanoseconds of both, their ratio, a bar, bytes of stack of both
 *     bench FILE --markdown   the same as the rows of docs/BENCH.md
 *
 * FILE keeps the best times from one run to the next: where the linker puts a loop moves its time by a tenth or two, so scripts/bench links the program
 * several times, with both implementations in other places, and the best place of each counts.
 *
 * Time. A case is run in batches of some 20 microseconds, one of the library and one of plain C by turns, first the one and then the other, so that a
 * change of the machine's pace meets both; and all cases are gone through again and again, so that a slow spell does not fall on one of them alone. The
 * best batch of each counts: whatever else the machine does can only make a batch slower.
 *
 * Stack. The call is run on a stack of its own that was painted (tests/painted.h), over two runs with two colours.
 *
 * Before it is timed, each case is run once by both on the same memory, and the answers and every byte are compared.
 */
#define _GNU_SOURCE
#include <stdint.h>
#include <stdio.h>
#include <stdlib.h>
#include <string.h>
#include <time.h>

#include "layout.h"
#include "painted.h"
#include "reference.h"
#include "willowblink.h"

enum { PASSES = 20, ROUNDS = 50, BATCH_NS = 20000 };

/* Everything that the calls are lent, in one place, so that both implementations can be held to the same bytes; as every case starts; and kept. */
static struct {
    uint32_t full[WB_REGISTER_WORDS];   /* 16 hulls, 8 drafts */
    uint32_t spare[WB_REGISTER_WORDS];  /* 15 hulls, 7 drafts */
    uint32_t spoilt[WB_REGISTER_WORDS]; /* 16 hulls, 8 drafts, and the very last word, a count, outside its limits */
    uint32_t off[WB_REGISTER_WORDS];    /* 16 hulls, 8 drafts, and the last hull's weight a gram off */
    uint32_t scratch[WB_REGISTER_WORDS];
    uint32_t powers[WB_ENGINE_ROWS], weights[WB_ENGINE_ROWS];
    wb_sheet sheet, longest, heavy, outside, read;
    uint8_t out[WB_SHEET_TEXT];
} lent, start, after;

enum { ROWS = 13 };
static const uint32_t powers[ROWS] = {1500, 2900, 5100, 8100, 17100, 26000, 48400, 70700, 78200, 108000, 145300, 156500, 200000};
static const uint32_t weights[ROWS] = {15000, 20000, 43000, 84000, 106000, 159000, 208000, 285000, 294000, 328000, 346000, 391000, 415000};
static uint32_t falling[ROWS];

static uint8_t text[WB_SHEET_TEXT], long_text[WB_SHEET_TEXT], broken[WB_SHEET_TEXT], long_broken[WB_SHEET_TEXT], beyond[WB_SHEET_TEXT];
static uint8_t heavy_line[WB_SHEET_TEXT], short_lines[WB_SHEET_TEXT];
static size_t text_len, long_len, short_len;
static uint8_t engines[WB_SHEET_TEXT], bad_engines[WB_SHEET_TEXT];
static size_t engines_len;

#define NONE (void)0
#define LEN WB_REGISTER_WORDS
#define OUT lent.out, sizeof lent.out
#define ROOM lent.powers, WB_ENGINE_ROWS, lent.weights, WB_ENGINE_ROWS
#define ENGINES powers, ROWS, weights, ROWS

/*
 * The cases: a name for it, the refusal to come, what it is, the call, what puts the memory back to where the case starts, and what the call is lent.
 * A few words are put back before each call, by both alike: some nanoseconds at most.
 *
 * Nearly all of a call on the register is the judging of the memory. A plate or a weight that is refused with 5, and a
 * trial that is refused with 6, is that alone, on the memory of the accepted one: the difference is the call itself.
 * Of the two refused with 1, the last word is late where the desks are judged after the hulls, as in plain C, and the
 * last hull's weight where they are judged before.
 */
#define FILL_LINE_1 \
    (lent.full[WEIGHT_AT(3, 1)] = 3334, lent.full[COUNT_AT(3, 1)] = 1, \
     lent.full[DRAFT_WEIGHT_AT(3)] = start.full[DRAFT_WEIGHT_AT(3)])
#define CASES(X) \
    X(fresh, 0, "", fresh, NONE, lent.scratch, LEN) \
    X(fresh_1, 1, "wrong size", fresh, NONE, lent.scratch, LEN - 1) \
    X(new, 0, "", new_hull, lent.spare[0] = 15, lent.spare, LEN, text, text_len) \
    X(new_1, 1, "last word spoilt", new_hull, NONE, lent.spoilt, LEN, text, text_len) \
    X(new_2, 2, "END broken", new_hull, lent.spare[0] = 15, lent.spare, LEN, broken, text_len) \
    X(new_4, 4, "", new_hull, NONE, lent.full, LEN, text, text_len) \
    X(open, 0, "", open, NONE, lent.full, LEN, 3, 5) \
    X(open_5, 5, "", open, NONE, lent.full, LEN, 3, 16) \
    X(open_6, 6, "", open, NONE, lent.full, LEN, 8, 5) \
    X(set, 0, "", set_fitting, NONE, lent.full, LEN, 3, 7, 2500, 12) \
    X(set_3, 3, "line", set_fitting, NONE, lent.full, LEN, 3, 25, 2500, 12) \
    X(set_3_heavy, 3, "product", set_fitting, NONE, lent.full, LEN, 3, 7, 250001, 2) \
    X(set_7, 7, "", set_fitting, NONE, lent.spare, LEN, 7, 7, 2500, 12) \
    X(empty, 0, "emptied", set_fitting, FILL_LINE_1, lent.full, LEN, 3, 1, 0, 0) \
    X(empty_17, 17, "", set_fitting, (lent.full[WEIGHT_AT(3, 9)] = 0, lent.full[COUNT_AT(3, 9)] = 0), lent.full, LEN, 3, 9, 0, 0) \
    X(replace, 0, "", replace, NONE, lent.full, LEN, 4, text, text_len) \
    X(replace_3, 3, "last weight", replace, NONE, lent.full, LEN, 4, beyond, text_len) \
    X(trial_a, 0, "", trial_a, NONE, lent.full, LEN, 3) \
    X(trial_a_6, 6, "", trial_a, NONE, lent.full, LEN, 8) \
    X(trial_a_12, 12, "", trial_a, NONE, lent.full, LEN, 6) \
    X(trial_c, 0, "", trial_c, NONE, lent.full, LEN, 3, ENGINES) \
    X(trial_c_6, 6, "", trial_c, NONE, lent.full, LEN, 8, ENGINES) \
    X(trial_c_10, 10, "last row falls", trial_c, NONE, lent.full, LEN, 3, falling, ROWS, weights, ROWS) \
    X(trial_u, 0, "", trial_u, NONE, lent.full, LEN, 3) \
    X(trial_u_6, 6, "", trial_u, NONE, lent.full, LEN, 8) \
    X(trial_u_12, 12, "", trial_u, NONE, lent.full, LEN, 6) \
    X(save, 0, "", save, (lent.full[DESK_AT(2)] = 1, lent.full[HULL_AT(9)] = lent.full[DESK_AT(2) + 2]), lent.full, LEN, 2) \
    X(save_8, 8, "", save, NONE, lent.full, LEN, 1) \
    X(drop, 0, "", drop, lent.full[DESK_AT(5)] = 1, lent.full, LEN, 5) \
    X(drop_7, 7, "", drop, NONE, lent.spare, LEN, 7) \
    X(plate_a, 0, "", plate_a, NONE, lent.full, LEN, 11) \
    X(plate_a_5, 5, "", plate_a, NONE, lent.full, LEN, 16) \
    X(plate_a_12, 12, "", plate_a, NONE, lent.full, LEN, 15) \
    X(plate_c, 0, "", plate_c, NONE, lent.full, LEN, 11, ENGINES) \
    X(plate_c_5, 5, "", plate_c, NONE, lent.full, LEN, 16, ENGINES) \
    X(plate_c_11, 11, "", plate_c, NONE, lent.full, LEN, 11, powers, 4, weights, 4) \
    X(plate_c_1, 1, "last word spoilt", plate_c, NONE, lent.spoilt, LEN, 11, ENGINES) \
    X(plate_u, 0, "", plate_u, NONE, lent.full, LEN, 11) \
    X(plate_u_in, 0, "inboard", plate_u, NONE, lent.full, LEN, 13) \
    X(plate_u_5, 5, "", plate_u, NONE, lent.full, LEN, 16) \
    X(plate_u_12, 12, "", plate_u, NONE, lent.full, LEN, 15) \
    X(weight, 0, "", weight, NONE, lent.full, LEN, 11) \
    X(weight_5, 5, "", weight, NONE, lent.full, LEN, 16) \
    X(weight_1, 1, "last word spoilt", weight, NONE, lent.spoilt, LEN, 11) \
    X(weight_1_off, 1, "last hull off", weight, NONE, lent.off, LEN, 11) \
    X(write, 0, "310 bytes", write_hull, NONE, lent.full, LEN, 11, OUT) \
    X(write_long, 0, "658 bytes", write_hull, NONE, lent.full, LEN, 14, OUT) \
    X(write_16, 16, "", write_hull, NONE, lent.full, LEN, 11, lent.out, text_len - 1) \
    X(read, 0, "310 bytes", read_sheet, NONE, text, text_len, &lent.read) \
    X(read_short, 0, "no counts", read_sheet, NONE, short_lines, short_len, &lent.read) \
    X(read_long, 0, "658 bytes", read_sheet, NONE, long_text, long_len, &lent.read) \
    X(read_2_first, 2, "first byte", read_sheet, NONE, text + 1, text_len - 1, &lent.read) \
    X(read_2, 2, "END broken", read_sheet, NONE, broken, text_len, &lent.read) \
    X(read_2_long, 2, "END of 658 bytes", read_sheet, NONE, long_broken, long_len, &lent.read) \
    X(read_3, 3, "last weight", read_sheet, NONE, beyond, text_len, &lent.read) \
    X(read_3_heavy, 3, "last product", read_sheet, NONE, heavy_line, text_len, &lent.read) \
    X(wsheet, 0, "310 bytes", write_sheet, NONE, &lent.sheet, OUT) \
    X(wsheet_long, 0, "658 bytes", write_sheet, NONE, &lent.longest, OUT) \
    X(wsheet_3, 3, "last product", write_sheet, NONE, &lent.outside, OUT) \
    X(wsheet_16, 16, "", write_sheet, NONE, &lent.sheet, lent.out, text_len - 1) \
    X(rows, 0, "13 rows", read_engines, NONE, engines, engines_len, ROOM) \
    X(rows_2, 2, "last line broken", read_engines, NONE, bad_engines, engines_len, ROOM) \
    X(rows_16, 16, "", read_engines, NONE, engines, engines_len, lent.powers, ROWS, lent.weights, ROWS - 1)

/* Where a call is measured it is made through this, and nothing is known of it when the program is compiled. */
static void (*volatile through)(void) = painted_entry;

/* An answer counts as used. */
#define KEEP(a) __asm__ volatile("" : : "r"((a).refusal), "r"((a).first), "r"((a).second) : "memory")

#define LOOP(side, id, call, reset, ...) \
    static void side##_loop_##id(long n) \
    { \
        while (n-- > 0) { \
            reset; \
            wb_answer a = side##_##call(__VA_ARGS__); \
            KEEP(a); \
        } \
    } \
    static wb_answer side##_once_##id(void) \
    { \
        painted_call = (void (*)(void))side##_##call; \
        reset; \
        return ((__typeof__(&side##_##call))through)(__VA_ARGS__); \
    }
#define BOTH(id, refusal, note, call, reset, ...) \
    LOOP(wb, id, call, reset, __VA_ARGS__) \
    LOOP(ref, id, call, reset, __VA_ARGS__)
CASES(BOTH)

struct side {
    void (*loop)(long n);
    wb_answer (*once)(void);
    double ns; /* of the best batch, 0 before the first */
    long stack;
};

static struct bench_case {
    const char *call;
    uint32_t refusal;
    const char *note;
    struct side wb, ref;
    long n; /* calls to a batch */
} cases[] = {
#define ROW(id, refusal, note, call, reset, ...) \
    {"wb_" #call, refusal, note, {wb_loop_##id, wb_once_##id, 0, 0}, {ref_loop_##id, ref_once_##id, 0, 0}, 1},
    CASES(ROW)
};

enum { COUNT = sizeof cases / sizeof cases[0] };

static void die(const char *why, const char *what)
{
    fprintf(stderr, "bench: %s %s\n", why, what);
    exit(1);
}

/* ---- the inputs ---- */

/* A boat of 4.5 m; i makes each a little different, and one of them an inboard. */
static wb_sheet boat(uint32_t i)
{
    wb_sheet s = {.hull = i, .length = 4500 + 10 * i, .reference = 4000 + 10 * i, .transom_width = 1200 + i, .transom_height = 500, .remote = 1};
    for (uint32_t k = 0; k < 4; k++)
        s.station[k] = (wb_station){1000 + 40 * i + k, 500, 510 + k, 520 + i, 500, 480 + k, 450};
    s.aft = 25000, s.well = 12000, s.flooding = 4000;
    s.bare = 200000 + 1000 * i, s.fuel = 24000, s.machinery = i == 13 ? 90000 : 0;
    s.outboard = i != 13, s.declared = 20000, s.positions = 5, s.tested = 3;
    s.fitting[0] = (wb_fitting){3334, 1}, s.fitting[2] = (wb_fitting){1250, 2}, s.fitting[3] = (wb_fitting){120, 8};
    s.fitting[11] = (wb_fitting){2100, 1}, s.fitting[16] = (wb_fitting){125000, 1};
    return s;
}

/* The sheet with the longest text: every number in as many digits as it may have, and every line. */
static wb_sheet longest(void)
{
    wb_sheet s = {.hull = 14, .length = 6000, .reference = 6000, .transom_width = 3000, .transom_height = 900, .flat = 1, .remote = 1};
    for (uint32_t k = 0; k < 4; k++)
        s.station[k] = (wb_station){4000, 2500, 2400, 2300, 2200, 2100, 1000};
    s.aft = 5000000, s.well = 1000000, s.flooding = 1000001;
    s.bare = 2000000, s.fuel = 500000, s.machinery = 100000;
    s.outboard = 1, s.declared = 200000, s.positions = 24, s.tested = 10;
    for (uint32_t i = 0; i < WB_FITTINGS; i++)
        s.fitting[i] = (wb_fitting){100000 + i, 4};
    return s;
}

static size_t text_of(const wb_sheet *s, uint8_t *out)
{
    wb_answer a = wb_write_sheet(s, out, WB_SHEET_TEXT);
    if (a.refusal != 0)
        die("a sheet was refused in the", "preparation");
    return a.first;
}

static void enter(uint32_t *mem, const wb_sheet *s)
{
    uint8_t t[WB_SHEET_TEXT];
    size_t len = text_of(s, t);
    if (wb_new_hull(mem, LEN, t, len).refusal != 0)
        die("a hull was refused in the", "preparation");
}

/* So many hulls, the last but one the longest sheet and the last too heavy for any load, and so many drafts. */
static void fill(uint32_t *mem, uint32_t hulls, uint32_t drafts)
{
    wb_fresh(mem, LEN);
    for (uint32_t i = 0; i < hulls; i++) {
        wb_sheet s = i == 14 ? lent.longest : i == 15 ? lent.heavy : boat(i);
        enter(mem, &s);
        mem[HULL_AT(i)] = 7 + i;
    }
    static const uint32_t opened[WB_DESKS] = {0, 3, 9, 11, 4, 12, 15, 14};
    for (uint32_t d = 0; d < drafts; d++)
        wb_open(mem, LEN, d, opened[d]);
}

/* The text of the sheet with each fitting as one piece, by lines without a count. */
static void prepare_short_lines(void)
{
    wb_sheet s = lent.sheet;
    memset(s.fitting, 0, sizeof s.fitting);
    char *at = (char *)short_lines + text_of(&s, short_lines) - strlen("END\n");
    for (uint32_t i = 0; i < WB_FITTINGS; i++)
        if (lent.sheet.fitting[i].count > 0)
            at += sprintf(at, "FIT\t%u\t%u\n", (unsigned)i + 1, (unsigned)lent.sheet.fitting[i].weight);
    at += sprintf(at, "END\n");
    short_len = (size_t)(at - (char *)short_lines);
}

static void prepare_texts(void)
{
    text_len = text_of(&lent.sheet, text);
    long_len = text_of(&lent.longest, long_text);
    if (text_len != 310 || long_len != WB_SHEET_TEXT)
        die("the texts have other lengths than", "310 and 658 bytes");
    memcpy(broken, text, text_len);
    broken[text_len - 2] = 'd';
    memcpy(long_broken, long_text, long_len);
    long_broken[long_len - 2] = 'd';
    memcpy(beyond, text, text_len);
    beyond[text_len - strlen("125000\t1\nEND\n")] = '9';
    memcpy(heavy_line, text, text_len);
    heavy_line[text_len - strlen("1\nEND\n")] = '5';
    prepare_short_lines();
    for (int i = 0; i < ROWS; i++)
        engines_len += (size_t)sprintf((char *)engines + engines_len, "ENG\t%u\t%u\n", (unsigned)powers[i], (unsigned)weights[i]);
    memcpy(bad_engines, engines, engines_len);
    bad_engines[engines_len - 1] = '\t';
}

static void prepare(void)
{
    lent.sheet = boat(11);
    lent.longest = longest();
    lent.heavy = boat(15);
    for (uint32_t k = 0; k < 4; k++)
        lent.heavy.station[k].b = 300;
    lent.heavy.bare = 1500000;
    lent.outside = lent.sheet;
    lent.outside.fitting[WB_FITTINGS - 1] = (wb_fitting){5051, 99};
    prepare_texts();
    memcpy(falling, powers, sizeof powers);
    falling[ROWS - 1] = falling[ROWS - 2];
    fill(lent.full, 16, 8);
    fill(lent.spare, 15, 7);
    lent.full[HULL_AT(3)]++; /* saved since desk 1 opened it */
    memcpy(lent.spoilt, lent.full, sizeof lent.full);
    lent.spoilt[LEN - 1] = 100;
    memcpy(lent.off, lent.full, sizeof lent.full);
    lent.off[HULL_WEIGHT_AT(15)]++;
    memcpy(&start, &lent, sizeof lent);
}

/* ---- measuring ---- */

static void start_afresh(void)
{
    memcpy(&lent, &start, sizeof lent);
}

static void see_alike(struct bench_case *c)
{
    start_afresh();
    wb_answer a = c->wb.once();
    memcpy(&after, &lent, sizeof lent);
    start_afresh();
    wb_answer b = c->ref.once();
    if (memcmp(&a, &b, sizeof a) != 0 || memcmp(&lent, &after, sizeof lent) != 0)
        die("the two implementations differ in", c->call);
    if (a.refusal != c->refusal)
        die("another refusal than meant came from", c->call);
}

static double now(void)
{
    struct timespec t;
    clock_gettime(CLOCK_MONOTONIC, &t);
    return 1e9 * (double)t.tv_sec + (double)t.tv_nsec;
}

static double batch(const struct side *s, long n)
{
    double start = now();
    s->loop(n);
    return (now() - start) / (double)n;
}

static void best(struct side *s, long n)
{
    double ns = batch(s, n);
    if (s->ns == 0 || ns < s->ns)
        s->ns = ns;
}

static void size_batch(struct bench_case *c)
{
    while (batch(&c->ref, c->n) * (double)c->n < BATCH_NS)
        c->n *= 2;
}

static void time_case(struct bench_case *c)
{
    start_afresh();
    for (int i = 0; i < ROUNDS; i++) {
        best(i % 2 ? &c->wb : &c->ref, c->n);
        best(i % 2 ? &c->ref : &c->wb, c->n);
    }
}

static wb_answer (*once)(void);

static void make_once(void)
{
    wb_answer a = once();
    KEEP(a);
}

static void measure_stack(struct side *s)
{
    start_afresh();
    once = s->once;
    once(); /* whatever is done at a first call is done */
    long one = painted_depth(make_once, 0xa5), other = painted_depth(make_once, 0x5a);
    s->stack = one > other ? one : other;
}

/* The best times of runs before this one, if there are any, and those of all. */
static void load_best(const char *path)
{
    FILE *f = fopen(path, "r");
    if (f == NULL)
        return;
    for (int i = 0; i < COUNT; i++)
        if (fscanf(f, "%lf %lf", &cases[i].wb.ns, &cases[i].ref.ns) != 2)
            die("other cases are kept in", path);
    fclose(f);
}

static void save_best(const char *path)
{
    FILE *f = fopen(path, "w");
    if (f == NULL)
        die("cannot write", path);
    for (int i = 0; i < COUNT; i++)
        fprintf(f, "%.3f %.3f\n", cases[i].wb.ns, cases[i].ref.ns);
    fclose(f);
}

/* ---- printing ---- */

static void path_of(const struct bench_case *c, char *room)
{
    char refusal[24] = "accepted";
    if (c->refusal != 0)
        sprintf(refusal, "refused %u", (unsigned)c->refusal);
    sprintf(room, "%s%s%s", refusal, *c->note ? ", " : "", c->note);
}

/* A sign for each tenth, and a mark where the two would be equal. */
static void bar_of(double ratio, char *room)
{
    int tenths = (int)(10 * ratio + 0.5), i;
    if (tenths > 30)
        tenths = 30;
    for (i = 0; i < tenths || i < 11; i++)
        room[i] = i == 10 ? '|' : i < tenths ? '#' : ' ';
    room[i] = '\0';
}

static void print_case(const struct bench_case *c, int markdown)
{
    char path[64], bar[40];
    double ratio = c->wb.ns / c->ref.ns;
    path_of(c, path);
    bar_of(ratio, bar);
    if (markdown)
        printf("| `%s` | %s | %.1f | %.1f | %.2f | %ld | %ld |\n", c->call, path, c->wb.ns, c->ref.ns, ratio, c->wb.stack, c->ref.stack);
    else
        printf("%-16s %-28s %8.1f %8.1f %6.2f  %-30s %6ld %6ld\n", c->call, path, c->wb.ns, c->ref.ns, ratio, bar, c->wb.stack, c->ref.stack);
}

static void print_head(int markdown)
{
    if (markdown)
        printf("| call | path | ns | plain C, ns | ratio | stack, bytes | plain C, stack |\n|---|---|---|---|---|---|---|\n");
    else
        printf("%-16s %-28s %8s %8s %6s  %-30s %6s %6s\n", "call", "path", "ns", "plain C", "ratio", "each # a tenth", "stack", "plain C");
}

int main(int argc, char **argv)
{
    int markdown = argc == 3 && strcmp(argv[2], "--markdown") == 0;
    if (argc != 2 && !markdown)
        die("usage:", "bench FILE [--markdown]");
    prepare();
    load_best(argv[1]);
    for (int i = 0; i < COUNT; i++) {
        see_alike(&cases[i]);
        measure_stack(&cases[i].wb);
        measure_stack(&cases[i].ref);
        size_batch(&cases[i]);
    }
    for (int pass = 0; pass < PASSES; pass++)
        for (int i = 0; i < COUNT; i++)
            time_case(&cases[i]);
    save_best(argv[1]);
    print_head(markdown);
    for (int i = 0; i < COUNT; i++)
        print_case(&cases[i], markdown);
    return 0;
}
