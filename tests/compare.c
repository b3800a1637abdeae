/* compare.c: see compare.h. */
#define _DEFAULT_SOURCE
#include "compare.h"

#include "layout.h"
#include "material.h"
#include "offices.h"
#include "painted.h"
#include "random.h"
#include "weighed.h"

#include <signal.h>
#include <stdio.h>
#include <stdlib.h>
#include <string.h>
#include <sys/mman.h>
#include <unistd.h>

struct contents lent[BUFFERS];

/* ---- what each call is lent, what it can answer by the header, and the most stack that it may take, where header and man page say so ---- */

#define BIT(n) (1ul << (n))

static const struct {
    const char *name;
    unsigned long reads, writes, answers;
    long stack;
} kinds[KINDS] = {
    [FRESH] = {"fresh", 0, BIT(MEMORY), BIT(0) | BIT(1)},
    [NEW_HULL] = {"new_hull", BIT(TEXT), BIT(MEMORY), BIT(0) | BIT(1) | BIT(2) | BIT(3) | BIT(4)},
    [OPEN] = {"open", 0, BIT(MEMORY), BIT(0) | BIT(1) | BIT(5) | BIT(6)},
    [SET_FITTING] = {"set_fitting", 0, BIT(MEMORY), BIT(0) | BIT(1) | BIT(3) | BIT(6) | BIT(7) | BIT(17)},
    [REPLACE] = {"replace", BIT(TEXT), BIT(MEMORY), BIT(0) | BIT(1) | BIT(2) | BIT(3) | BIT(6) | BIT(7)},
    [TRIAL_A] = {"trial_a", BIT(MEMORY), 0, BIT(0) | BIT(1) | BIT(6) | BIT(7) | BIT(12) | BIT(13), 128},
    [TRIAL_C] = {"trial_c", BIT(MEMORY) | BIT(POWERS) | BIT(WEIGHTS), 0,
                 BIT(0) | BIT(1) | BIT(6) | BIT(7) | BIT(10) | BIT(11) | BIT(12) | BIT(14) | BIT(15), 160},
    [TRIAL_U] = {"trial_u", BIT(MEMORY), 0, BIT(0) | BIT(1) | BIT(6) | BIT(7) | BIT(12), 128},
    [SAVE] = {"save", 0, BIT(MEMORY), BIT(0) | BIT(1) | BIT(6) | BIT(7) | BIT(8) | BIT(9)},
    [DROP] = {"drop", 0, BIT(MEMORY), BIT(0) | BIT(1) | BIT(6) | BIT(7)},
    [PLATE_A] = {"plate_a", BIT(MEMORY), 0, BIT(0) | BIT(1) | BIT(5) | BIT(12) | BIT(13), 128},
    [PLATE_C] = {"plate_c", BIT(MEMORY) | BIT(POWERS) | BIT(WEIGHTS), 0,
                 BIT(0) | BIT(1) | BIT(5) | BIT(10) | BIT(11) | BIT(12) | BIT(14) | BIT(15), 160},
    [PLATE_U] = {"plate_u", BIT(MEMORY), 0, BIT(0) | BIT(1) | BIT(5) | BIT(12), 128},
    [WEIGH] = {"weight", BIT(MEMORY), 0, BIT(0) | BIT(1) | BIT(5)},
    [WRITE_HULL] = {"write_hull", BIT(MEMORY), BIT(OUT), BIT(0) | BIT(1) | BIT(5) | BIT(16)},
    [READ_SHEET] = {"read_sheet", BIT(TEXT), BIT(SHEET), BIT(0) | BIT(2) | BIT(3)},
    [WRITE_SHEET] = {"write_sheet", BIT(SHEET), BIT(OUT), BIT(0) | BIT(3) | BIT(16)},
    [READ_ENGINES] = {"read_engines", BIT(TEXT), BIT(POWERS) | BIT(WEIGHTS), BIT(0) | BIT(2) | BIT(3) | BIT(16)},
};

/* The calls that read a text, and the lines of it that can be at fault: with 2 one more than it may have, and with 3 all that have numbers. */
#define SHEET_LINES (10 + WB_FITTINGS + 1)
static const struct {
    enum kind kind;
    uint32_t broken, outside;
} texts[] = {{NEW_HULL, SHEET_LINES + 1, SHEET_LINES - 1},
             {REPLACE, SHEET_LINES + 1, SHEET_LINES - 1},
             {READ_SHEET, SHEET_LINES + 1, SHEET_LINES - 1},
             {READ_ENGINES, WB_ENGINE_ROWS + 1, WB_ENGINE_ROWS}};

static const char *const buffer_names[BUFFERS] = {"memory", "text", "output", "powers", "weights", "sheet"};

/* ---- the progress, and the report of a difference ---- */

#define REFUSALS 18
#define TEXT_LINES (WB_ENGINE_ROWS + 1)

static unsigned long made, seen[KINDS][REFUSALS];
static unsigned long broken_at[KINDS][TEXT_LINES + 1], outside_at[KINDS][TEXT_LINES + 1]; /* by the line at fault; 0 for a text too long */
static long deepest[KINDS];
static uint64_t seed;
static const char *part = "start";
static struct call current;
static const char *running = "";

unsigned long calls_made(void)
{
    return made;
}

void begin_part(const char *name)
{
    part = name;
}

/* The text that was lent, with the bytes that one cannot see written out. */
static void print_text(void)
{
    const uint8_t *bytes = lent_bytes(TEXT);
    printf("  text: \"");
    for (size_t i = 0; i < lent[TEXT].size; i++)
        if (bytes[i] == '\t' || bytes[i] == '\n')
            printf(bytes[i] == '\t' ? "\\t" : "\\n");
        else if (bytes[i] < ' ' || bytes[i] > '~' || bytes[i] == '"' || bytes[i] == '\\')
            printf("\\%03o", bytes[i]);
        else
            putchar(bytes[i]);
    printf("\"\n");
}

/* The words of a buffer that are not 0, each with its place. */
static void print_words(enum buffer buffer)
{
    printf("  %s:", buffer_names[buffer]);
    for (size_t i = 0; i < lent[buffer].size / 4; i++)
        if (lent[buffer].words[i])
            printf(" [%lu] %lu", (unsigned long)i, (unsigned long)lent[buffer].words[i]);
    printf("\n");
}

/* The call as a person can make it again. What was lent still stands as it was before the call. */
static void print_call(void)
{
    unsigned long uses = kinds[current.kind].reads | kinds[current.kind].writes;
    printf("  seed %llu, call %lu (%s): %s, desk %lu, hull %lu, line %lu, weight %lu, count %lu\n", (unsigned long long)seed, made, part,
           kinds[current.kind].name, (unsigned long)current.desk, (unsigned long)current.hull, (unsigned long)current.line,
           (unsigned long)current.weight, (unsigned long)current.count);
    for (int buffer = 0; buffer < BUFFERS; buffer++)
        if (uses & BIT(buffer))
            printf("  lent %s: %lu bytes, told of %lu elements more\n", buffer_names[buffer], (unsigned long)lent[buffer].size,
                   (unsigned long)lent[buffer].beyond);
    if (uses & BIT(TEXT))
        print_text();
    for (int buffer = 0; buffer < BUFFERS; buffer++)
        if (uses & BIT(buffer) & ~(BIT(TEXT) | BIT(OUT)))
            print_words(buffer);
}

static void give_up(const char *what)
{
    printf("DIFFERENCE: %s\n", what);
    print_call();
    printf("c tests: %lu calls, 1 difference\n", made);
    fflush(stdout);
    _exit(1);
}

void insist(int holds, const char *what)
{
    if (!holds)
        give_up(what);
}

static void on_fault(int signal_number)
{
    printf("signal %d inside %s\n", signal_number, running);
    give_up("an access outside what was lent");
}

/* ---- buffers at the edge of what may be touched ---- */

/* Large enough for any page size that Linux has, also where an emulator's pages are larger than those of the program. */
#define PAGES 65536ul
/* This much beside a lent buffer is looked at too. */
#define MARGIN 128
#define MARGIN_BYTE 0x5C

enum { LIBRARY, REFERENCE, SIDES };

struct place {
    uint8_t *pages; /* PAGES bytes, with as much on both sides that nobody may touch */
    uint8_t *start; /* where the lent buffer starts */
    uint8_t *margin;
};

static struct place places[SIDES][BUFFERS];

static uint8_t *guarded_pages(void)
{
    uint8_t *area = mmap(NULL, 4 * PAGES, PROT_NONE, MAP_PRIVATE | MAP_ANONYMOUS, -1, 0);
    if (area == MAP_FAILED) {
        perror("mmap");
        exit(2);
    }
    uint8_t *pages = area + 2 * PAGES - (uintptr_t)area % PAGES;
    if (mprotect(pages, PAGES, PROT_READ | PROT_WRITE) != 0) {
        perror("mprotect");
        exit(2);
    }
    return pages;
}

uint8_t *lent_bytes(enum buffer buffer)
{
    return (uint8_t *)lent[buffer].words;
}

uint8_t *lend(enum buffer buffer, size_t size)
{
    insist(size <= sizeof lent[buffer].words, "the test has no room for so much");
    lent[buffer].size = size;
    lent[buffer].beyond = 0;
    return lent_bytes(buffer);
}

/* Puts a buffer's contents against the unreadable page after it, or the one before it, and a mark on its other side. */
static void put_in_place(struct place *place, enum buffer buffer, int at_end)
{
    size_t size = lent[buffer].size;
    place->start = at_end ? place->pages + PAGES - size : place->pages;
    place->margin = at_end ? place->start - MARGIN : place->start + size;
    memcpy(place->start, lent[buffer].words, size);
    memset(place->margin, MARGIN_BYTE, MARGIN);
}

static void protect(unsigned long buffers, int protection)
{
    for (int buffer = 0; buffer < BUFFERS; buffer++)
        if (buffers & BIT(buffer) && mprotect(places[LIBRARY][buffer].pages, PAGES, protection) != 0) {
            perror("mprotect");
            exit(2);
        }
}

/* ---- making a call ---- */

/* The length that a call is told, in elements of so many bytes. */
static size_t told(enum buffer buffer, size_t element)
{
    return lent[buffer].size / element + lent[buffer].beyond;
}

static wb_answer call_text(const struct office *office, struct call call, const struct place *place)
{
    const uint8_t *text = place[TEXT].start;
    switch (call.kind) {
    case READ_SHEET:
        return office->read_sheet(text, told(TEXT, 1), (wb_sheet *)(void *)place[SHEET].start);
    case WRITE_SHEET:
        return office->write_sheet((const wb_sheet *)(void *)place[SHEET].start, place[OUT].start, told(OUT, 1));
    default:
        return office->read_engines(text, told(TEXT, 1), (uint32_t *)(void *)place[POWERS].start, told(POWERS, 4),
                                    (uint32_t *)(void *)place[WEIGHTS].start, told(WEIGHTS, 4));
    }
}

static wb_answer call_plate(const struct office *office, struct call call, const struct place *place)
{
    const uint32_t *mem = (const uint32_t *)(void *)place[MEMORY].start;
    const uint32_t *powers = (const uint32_t *)(void *)place[POWERS].start, *weights = (const uint32_t *)(void *)place[WEIGHTS].start;
    size_t len = told(MEMORY, 4), powers_len = told(POWERS, 4), weights_len = told(WEIGHTS, 4);
    switch (call.kind) {
    case TRIAL_A:
        return office->trial_a(mem, len, call.desk);
    case TRIAL_C:
        return office->trial_c(mem, len, call.desk, powers, powers_len, weights, weights_len);
    case TRIAL_U:
        return office->trial_u(mem, len, call.desk);
    case PLATE_A:
        return office->plate_a(mem, len, call.hull);
    case PLATE_U:
        return office->plate_u(mem, len, call.hull);
    case WEIGH:
        return office->weight(mem, len, call.hull);
    default:
        return office->plate_c(mem, len, call.hull, powers, powers_len, weights, weights_len);
    }
}

static wb_answer call_office(const struct office *office, struct call call, const struct place *place)
{
    uint32_t *mem = (uint32_t *)(void *)place[MEMORY].start;
    const uint8_t *text = place[TEXT].start;
    size_t len = told(MEMORY, 4), text_len = told(TEXT, 1);
    switch (call.kind) {
    case FRESH:
        return office->fresh(mem, len);
    case NEW_HULL:
        return office->new_hull(mem, len, text, text_len);
    case OPEN:
        return office->open(mem, len, call.desk, call.hull);
    case SET_FITTING:
        return office->set_fitting(mem, len, call.desk, call.line, call.weight, call.count);
    case REPLACE:
        return office->replace(mem, len, call.desk, text, text_len);
    case SAVE:
        return office->save(mem, len, call.desk);
    case DROP:
        return office->drop(mem, len, call.desk);
    case WRITE_HULL:
        return office->write_hull(mem, len, call.hull, place[OUT].start, told(OUT, 1));
    case READ_SHEET:
    case WRITE_SHEET:
    case READ_ENGINES:
        return call_text(office, call, place);
    default:
        return call_plate(office, call, place);
    }
}

/* ---- a call of the library on a painted stack ---- */

/* Not under the compiler's checks, which have stacks of their own. */
#ifdef __SANITIZE_ADDRESS__
#define PAINTS 0
#else
#define PAINTS 1
#endif

typedef void (*any_call)(void);

/* The calls of an office stand in the order of their kinds. */
static any_call call_of(const struct office *office, enum kind kind)
{
    any_call call;
    memcpy(&call, (const uint8_t *)office + kind * sizeof call, sizeof call);
    return call;
}

static struct office painted_office; /* every call of it is painted_entry */
static wb_answer painted_answer;

static void begin_paint(void)
{
    any_call entry = painted_entry;
    insist(sizeof painted_office == KINDS * sizeof entry, "an office has other calls than there are kinds");
    for (int kind = 0; kind < KINDS; kind++)
        memcpy((uint8_t *)&painted_office + kind * sizeof entry, &entry, sizeof entry);
}

static void call_painted_office(void)
{
    painted_answer = call_office(&painted_office, current, places[LIBRARY]);
}

static wb_answer call_library(void)
{
    if (!PAINTS)
        return call_office(&library, current, places[LIBRARY]);
    painted_call = call_of(&library, current.kind);
    long depth = painted_depth(call_painted_office, made % 2 ? 0xA5 : 0x5A);
    if (depth > deepest[current.kind])
        deepest[current.kind] = depth;
    insist(kinds[current.kind].stack == 0 || depth <= kinds[current.kind].stack, "the call took more stack than header and man page say");
    return painted_answer;
}

/* ---- the start ---- */

void begin_compare(uint64_t the_seed)
{
    struct sigaction action;
    memset(&action, 0, sizeof action);
    action.sa_handler = on_fault;
    sigaction(SIGSEGV, &action, NULL);
    sigaction(SIGBUS, &action, NULL);
    seed = the_seed;
    for (int side = 0; side < SIDES; side++)
        for (int buffer = 0; buffer < BUFFERS; buffer++)
            places[side][buffer].pages = guarded_pages();
    begin_paint();
}

/* ---- holding the one to the other ---- */

/* Of refusals only a text's 2 and 3 have figures: a place that the text has, or where it ends; none where the text is too long. */
static void judge_figures(wb_answer got)
{
    int of_text = kinds[current.kind].reads & BIT(TEXT) && (got.refusal == 2 || got.refusal == 3);
    int none = got.first == 0 && got.second == 0;
    insist(got.third == 0 && (got.refusal == 0 || of_text || none), "a figure that the call does not name");
    if (!of_text)
        return;
    insist(none == (told(TEXT, 1) > WB_MOST_TEXT), "a text that is too long has a place, or one that is not has none");
    insist(none || offset_of(lent_bytes(TEXT), lent[TEXT].size, got.first, got.second) != NOWHERE, "a place that the text does not have");
    insist(got.first <= TEXT_LINES, "a line that no text can have");
    (got.refusal == 2 ? broken_at : outside_at)[current.kind][got.first]++;
}

static void compare_answers(wb_answer got, wb_answer wanted)
{
    if (memcmp(&got, &wanted, sizeof got) != 0) {
        printf("the library answers %lu %lu %lu %lu, the reference %lu %lu %lu %lu\n", (unsigned long)got.refusal, (unsigned long)got.first,
               (unsigned long)got.second, (unsigned long)got.third, (unsigned long)wanted.refusal, (unsigned long)wanted.first,
               (unsigned long)wanted.second, (unsigned long)wanted.third);
        give_up("the answers");
    }
    judge_figures(got);
}

static void compare_bytes(enum buffer buffer, const uint8_t *got, const void *wanted, const char *what)
{
    const uint8_t *bytes = wanted;
    size_t at = 0;
    if (memcmp(got, bytes, lent[buffer].size) == 0)
        return;
    while (got[at] == bytes[at])
        at++;
    printf("%s: byte %lu is %u after the library's call and not %u\n", buffer_names[buffer], (unsigned long)at, got[at], bytes[at]);
    give_up(what);
}

static void compare_margin(const uint8_t *margin)
{
    for (int i = 0; i < MARGIN; i++)
        insist(margin[i] == MARGIN_BYTE, "a byte beside a lent buffer was changed");
}

static void compare_buffers(unsigned long writes, unsigned long uses, int refused)
{
    for (int buffer = 0; buffer < BUFFERS; buffer++) {
        if (!(uses & BIT(buffer)))
            continue;
        const uint8_t *got = places[LIBRARY][buffer].start;
        if (refused || !(writes & BIT(buffer)))
            compare_bytes(buffer, got, lent[buffer].words, refused ? "a refused call changed a lent byte" : "a byte that is lent to be read only");
        compare_bytes(buffer, got, places[REFERENCE][buffer].start, "the library and the reference made different bytes");
        compare_margin(places[LIBRARY][buffer].margin);
    }
}

/* What the two agree on is held to the sheets themselves, after a call that judged the memory or wrote it. */
static void judge_weights(uint32_t refusal)
{
    if (refusal != WB_BAD_MEMORY)
        insist(weights_right((const uint32_t *)(void *)places[LIBRARY][MEMORY].start),
               "the memory was not refused and keeps a weight that is not that of its sheet");
}

/* The words that an accepted call is said to write: those from one place on and before another, and one besides. */
struct words {
    uint32_t from, to, besides;
};

static struct words words_written(struct call call, const uint32_t *mem)
{
    uint32_t desk = call.desk;
    switch (call.kind) {
    case NEW_HULL:
        return (struct words){HULL_AT(mem[0]), HULL_AT(mem[0] + 1), 0};
    case OPEN:
        return (struct words){DESK_AT(desk), DESK_AT(desk + 1), DESK_AT(desk)};
    case SET_FITTING:
        return (struct words){WEIGHT_AT(desk, call.line), COUNT_AT(desk, call.line) + 1, DRAFT_WEIGHT_AT(desk)};
    case REPLACE:
        return (struct words){DRAFT_WEIGHT_AT(desk), DESK_AT(desk + 1), DRAFT_WEIGHT_AT(desk)};
    case SAVE:
        return (struct words){HULL_AT(mem[DESK_AT(desk) + 1]), HULL_AT(mem[DESK_AT(desk) + 1] + 1), DESK_AT(desk)};
    default:
        return (struct words){DESK_AT(desk), DESK_AT(desk) + 1, DESK_AT(desk)}; /* drop */
    }
}

/* After a fresh start every word is 0; after another call those that it is not said to write are what they were. */
static void judge_words(struct call call)
{
    const uint32_t *before = lent[MEMORY].words, *after = (const uint32_t *)(void *)places[LIBRARY][MEMORY].start;
    struct words written = words_written(call, before);
    for (uint32_t word = 0; word < WB_REGISTER_WORDS; word++)
        if (call.kind == FRESH)
            insist(after[word] == 0, "a word of a fresh register is not 0");
        else if (word != written.besides && (word < written.from || word >= written.to))
            insist(after[word] == before[word], "the call changed a word besides those that it is said to");
}

static wb_answer call_both(unsigned long reads, unsigned long uses)
{
    int sealed = one_in(8); /* then the library could not even write back the same */
    for (int buffer = 0; buffer < BUFFERS; buffer++)
        if (uses & BIT(buffer)) {
            int at_end = !one_in(3);
            put_in_place(&places[LIBRARY][buffer], buffer, at_end);
            put_in_place(&places[REFERENCE][buffer], buffer, at_end);
        }
    if (sealed)
        protect(reads, PROT_READ);
    running = "the library";
    wb_answer got = one_in(2) ? call_library() : call_office(&library_with_rubbish, current, places[LIBRARY]);
    running = "the reference";
    wb_answer wanted = call_office(&reference, current, places[REFERENCE]);
    running = "the test";
    if (sealed)
        protect(reads, PROT_READ | PROT_WRITE);
    compare_answers(got, wanted);
    return got;
}

wb_answer attempt(struct call call)
{
    unsigned long reads = kinds[call.kind].reads, writes = kinds[call.kind].writes;
    current = call;
    made++;
    wb_answer answer = call_both(reads, reads | writes);
    compare_buffers(writes, reads | writes, answer.refusal != 0);
    if ((reads | writes) & BIT(MEMORY))
        judge_weights(answer.refusal);
    if (writes & BIT(MEMORY) && answer.refusal == 0)
        judge_words(call);
    insist(answer.refusal < REFUSALS && kinds[call.kind].answers & BIT(answer.refusal), "a refusal that the header does not name for this call");
    seen[call.kind][answer.refusal]++;
    if (answer.refusal == 0)
        for (int buffer = 0; buffer < BUFFERS; buffer++)
            if (writes & BIT(buffer))
                memcpy(lent[buffer].words, places[LIBRARY][buffer].start, lent[buffer].size);
    return answer;
}

void expect(wb_answer answer, uint32_t refusal, uint32_t first, uint32_t second)
{
    if (answer.refusal == refusal && answer.first == first && answer.second == second)
        return;
    printf("the library answers %lu %lu %lu, the rules say %lu %lu %lu\n", (unsigned long)answer.refusal, (unsigned long)answer.first,
           (unsigned long)answer.second, (unsigned long)refusal, (unsigned long)first, (unsigned long)second);
    give_up("an answer that the test has in figures");
}

static uint32_t lines_seen(const unsigned long *counts, uint32_t lines)
{
    uint32_t met = 0;
    for (uint32_t line = 1; line <= lines; line++)
        met += counts[line] > 0;
    return met;
}

void print_lines_at_fault(void)
{
    int missing = 0;
    printf("%-14s %8s %8s %8s\n", "lines at fault", "with 2", "with 3", "too long");
    for (size_t i = 0; i < sizeof texts / sizeof *texts; i++) {
        enum kind kind = texts[i].kind;
        uint32_t broken = lines_seen(broken_at[kind], texts[i].broken), outside = lines_seen(outside_at[kind], texts[i].outside);
        printf("%-14s %5lu/%lu %5lu/%lu %8lu\n", kinds[kind].name, (unsigned long)broken, (unsigned long)texts[i].broken, (unsigned long)outside,
               (unsigned long)texts[i].outside, broken_at[kind][0]);
        missing += broken < texts[i].broken || outside < texts[i].outside || broken_at[kind][0] == 0;
    }
    if (missing > 0) {
        printf("c tests: %lu calls, %d of those that read texts never met some line at fault\n", made, missing);
        fflush(stdout);
        exit(1);
    }
}

void print_answers_seen(void)
{
    int missing = 0;
    printf("%-13s", "answers seen");
    for (int refusal = 0; refusal < REFUSALS; refusal++)
        printf(" %6d", refusal);
    printf("  stack\n");
    for (int kind = 0; kind < KINDS; kind++) {
        printf("%-13s", kinds[kind].name);
        for (int refusal = 0; refusal < REFUSALS; refusal++)
            if (kinds[kind].answers & BIT(refusal)) {
                printf(" %6lu", seen[kind][refusal]);
                missing += seen[kind][refusal] == 0;
            } else
                printf(" %6s", "");
        printf(" %6ld\n", deepest[kind]);
    }
    if (missing > 0) {
        printf("c tests: %lu calls, %d answers that the header names were never seen\n", made, missing);
        fflush(stdout);
        exit(1);
    }
}
