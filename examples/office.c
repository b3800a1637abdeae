/*
 * office: a register of hull sheets in a file, worked from the command line. It shows how a server calls Willowblink: the library judges and changes
 * the words, and this program only carries them between the file and the library.
 *
 *     office FILE fresh
 *     office FILE new SHEETFILE
 *     office FILE open DESK HULL
 *     ..; without words it prints them all
 *
 * Once the library is installed (scripts/install) it is built by
 *
 *     cc -std=c99 office.c $(pkg-config --cflags --libs willowblink) -o office
 *
 * It says in plain words what was answered, a refusal with its number, and ends with 0 when the call was accepted, 1 when it was refused, and 2 on
 * bad usage or trouble with a file. Answers and refusals go to standard output, trouble to standard error. Where a text
 * is refused, standard error says besides which line and byte are wrong, what was expected there and what there is.
 *
 * The file is the register's 2273 words, the lowest byte of each first, and nothing else. Beside it stand FILE.lock,
 * which is empty and stays, and for the length of a change FILE.new. The lock has the register's rights; where those
 * were changed, it follows when its owner next makes a change.
 *
 * A change may stand although its run ended with 2: the trouble came when the register was in its place, as when the answer could not be printed, and
 * standard error says so. Who is killed before it answers does not know whether its change was made, and has to look. The register is whole either way.
 */
#define _POSIX_C_SOURCE 200809L
#include <errno.h>
#include <fcntl.h>
#include <stdint.h>
#include <stdio.h>
#include <stdlib.h>
#include <string.h>
#include <sys/stat.h>
#include <sys/types.h>
#include <unistd.h>

#include "willowblink.h"

enum { ACCEPTED = 0, REFUSED = 1, TROUBLE = 2 };

enum { REGISTER_BYTES = 4 * WB_REGISTER_WORDS };

/* One byte more than the longest text that is read, so that the library sees, and refuses, a text that is too long. */
enum { TEXT_ROOM = WB_MOST_TEXT + 1 };

/* What a run works on: the register's words, and what the command line lends to the call. */
struct work {
    uint32_t words[WB_REGISTER_WORDS];
    size_t count; /* how many words are lent: all, or none where the file has another size */
    uint32_t number[4];
    const char *limits; /* of the numbers that the call judges, in words; NULL where a refusal says enough */
    int held;         /* whether the desk that opens a hull holds a draft */
    const char *path; /* of the text; NULL without one */
    int engines;      /* whether the text is one of engine rows */
    uint8_t text[TEXT_ROOM];
    size_t text_len;
    uint32_t powers[WB_ENGINE_ROWS];
    uint32_t weights[WB_ENGINE_ROWS];
    size_t rows;
    uint8_t sheet[WB_SHEET_TEXT];
};

/* Whether this run has put changed words in the register's place. */
static int changed;

/* Ends the run over trouble with a file. */
static void trouble(const char *what, const char *path)
{
    fprintf(stderr, "office: %s %s: %s\n", what, path, strerror(errno));
    if (changed)
        fprintf(stderr, "office: the change was made before this and may stand; look before you make it again\n");
    exit(TROUBLE);
}

/* ---- refusals ---- */

static const char *const refusals[] = {
    [WB_BAD_MEMORY] = "this is no register, or one of another version, or one that was spoilt",
    [WB_BROKEN_LINE] = "the text breaks the line rules",
    [WB_OUTSIDE_LIMITS] = "a number, or a fitting's weight times its count, is outside its limits",
    [WB_FULL] = "sixteen hulls are entered, and there is no room for another",
    [WB_NO_HULL] = "there is no such hull",
    [WB_NO_DESK] = "there is no such desk; the desks are 0 to 7",
    [WB_NO_DRAFT] = "the desk has no hull open",
    [WB_EDITED_SINCE] = "another desk has saved the hull since this one opened it; to open it again discards this desk's changes",
    [WB_EDITS_SPENT] = "the hull has been saved 65535 times and can be saved no more",
    [WB_BAD_ROWS] = "the engine rows are not as they must be",
    [WB_NO_ROW] = "no engine row reaches the declared power",
    [WB_NO_LOAD] = "the marked load would be below 1 kg, on plate U below 1 lb",
    [WB_NO_POWER] = "a flat bottom so small is given no outboard",
    [WB_UNTESTED] = "so small a live load wants persons passed by stability tests",
    [WB_NO_PERSONS] = "not one person could be carried",
    [WB_NO_ROOM] = "the answer does not fit",
    [WB_EMPTY_LINE] = "there is no fitting on that line",
};

/* ---- what is wrong in a text, in words ---- */

#define READING(letter) "reading " letter, "0 to 2500 mm"
#define READINGS                                                                                                      \
    "reading B", "0 to 4000 mm", READING("q"), READING("r"), READING("s"), READING("t"), READING("u"), READING("v")

/* Where lines stand in the table: the lines 1 to 10 of every sheet, then these. */
enum { FIT = 10, END, ENG };

/*
 * Each line's tag, with a space for a tab inside it, then for each of its numbers a name and the limits. The table and
 * the words below are in scripts/explain.awk a second time; scripts/test-words holds the two to each other.
 */
static const char *const lines[][16] = {
    {"HULL", "hull number", "0 to 15"},
    {"FORM", "length", "2000 to 6000 mm", "reference length", "2000 to 6000 mm and not above the length",
     "transom width", "500 to 3000 mm", "transom height", "200 to 900 mm", "mark of a flat hard-chine bottom",
     "0 for no or 1 for yes", "mark of remote steering", "0 for no or 1 for yes"},
    {"STN Q", READINGS},
    {"STN R", READINGS},
    {"STN S", READINGS},
    {"STN T", READINGS},
    {"VOL", "volume of the aft structure", "0 to 5000000 cubic cm", "volume of the motor well", "0 to 5000000 cubic cm",
     "volume of the flooding chambers", "0 to 5000000 cubic cm"},
    {"MASS", "weight of the bare boat", "1 to 2000000 g", "weight of the permanent tanks with fuel", "0 to 500000 g",
     "weight of the installed machinery", "0 to 500000 g"},
    {"PWR", "mark of the drive", "1 for outboard or 0 for inboard", "declared power", "0 to 200000 W"},
    {"SEAT", "number of designated positions", "1 to 24", "number of tested persons", "1 to 24, or - for none"},
    [FIT] = {"FIT", "line number", "1 to 24 and above that of the FIT line before", "weight of one piece",
             "1 to 500000 g", "number of pieces", "1 to 99, which together weigh at most 500000 g"},
    [END] = {"END"},
    [ENG] = {"ENG", "power", "1 to 200000 W and above that of the ENG line before", "weight", "0 to 1000000 g"},
};

/* Bytes that a screen does not show. */
static const char *const unseen[] = {
    ['\t'] = "a tab",
    ['\n'] = "the line's end",
    ['\r'] = "a carriage return: save the text with line feeds alone, as Unix has them",
    [' '] = "a space: fields are parted by one tab, and spaces stand nowhere",
};

/* The place of a fault: where its text and its line start, the byte itself, and where the text ends. */
struct place {
    const uint8_t *text, *start, *byte, *end;
};

static int digit_at(const struct place *p, const uint8_t *at)
{
    return at < p->end && *at >= '0' && *at <= '9';
}

/* What may stand where a line begins. */
static void say_line_expected(const struct place *p, int engines, uint32_t line)
{
    if (engines && line > WB_ENGINE_ROWS)
        fprintf(stderr, "the end of the text is expected here (there are at most %d ENG lines)", WB_ENGINE_ROWS);
    else if (engines)
        fprintf(stderr, "an ENG line%s is expected here", line == 1 ? "" : " or the end of the text");
    else if (line <= FIT)
        fprintf(stderr, "the %s line is expected here", lines[line - 1][0]);
    else if (p->start[-4] == 'E') /* of END, in the line before */
        fprintf(stderr, "the end of the text is expected here (nothing follows END)");
    else if (line > FIT + WB_FITTINGS)
        fprintf(stderr, "END is expected here (a sheet has at most %d FIT lines)", WB_FITTINGS);
    else
        fprintf(stderr, "a FIT line or END is expected here");
}

/* The weight on a FIT line, after which the line may end: there is then one piece. */
static int may_be_last(const char *const *number)
{
    return number == &lines[FIT][3];
}

/* What may stand after the digits of a number, or after its dash: a digit more, what ends it, or both. */
static void say_after_digits(const struct place *p, const char *const *number, const uint8_t *first)
{
    const char *next = number[2];
    int ended = *first == '0' || *first == '-' || p->byte - first == 10;
    if (next == NULL)
        fprintf(stderr, "%sthe line's end", ended ? "" : "a digit or ");
    else if (may_be_last(number))
        fprintf(stderr, "%sa tab and then the %s, or the line's end,", ended ? "" : "a digit, or ", next);
    else
        fprintf(stderr, ended ? "a tab and then the %s" : "a digit, or a tab and then the %s,", next);
    fprintf(stderr, " is expected here");
    if (*first == '-' && (digit_at(p, p->byte) || (p->byte < p->end && *p->byte == '-')))
        fprintf(stderr, " (- stands alone)");
    else if (digit_at(p, p->byte))
        fprintf(stderr, " (a number has %s)", *first == '0' ? "no leading 0" : "at most 10 digits");
}

/* What may stand in a number or after it: in the table its name, its limits and the next one's name. */
static void say_number_expected(const struct place *p, uint32_t refusal, const char *const *number,
                                const uint8_t *first)
{
    if (refusal == WB_OUTSIDE_LIMITS)
        fprintf(stderr, "the %s must be %s", number[0], number[1]);
    else if (first == p->byte)
        fprintf(stderr, "the %s (%s) is expected here", number[0], number[1]);
    else
        say_after_digits(p, number, first);
}

/* Of FIT and ENG lines there may be many. */
static const char *article(const char *const *line)
{
    return line == lines[FIT] ? "a" : line == lines[ENG] ? "an" : "the";
}

/* What may stand further on in a line, after bytes that are right: the rest of its tag, or what a number wants. */
static void say_expected(const struct place *p, uint32_t refusal, const char *const *line)
{
    const char *tag = line[0];
    const char *const *number = line + 1;
    size_t before = (size_t)(p->byte - p->start);
    const uint8_t *first = p->start + strlen(tag) + 1;
    if (before < strlen(tag) && tag[before] != ' ')
        fprintf(stderr, "%s %s line is expected, so %c here", article(line), tag, tag[before]);
    else if (before < strlen(tag) || (before == strlen(tag) && *number != NULL))
        fprintf(stderr, "a tab is expected here");
    else if (*number == NULL)
        fprintf(stderr, "the line's end is expected here");
    else {
        for (const uint8_t *at = first; at < p->byte; at++)
            if (*at == '\t')
                first = at + 1, number += 2;
        say_number_expected(p, refusal, number, first);
    }
}

static int starts(const struct place *p, const char *bytes)
{
    size_t size = strlen(bytes);
    return (size_t)(p->end - p->text) >= size && memcmp(p->text, bytes, size) == 0;
}

/* What does stand there. */
static void say_found(const struct place *p, uint32_t refusal)
{
    int digits = 0;
    while (refusal == WB_OUTSIDE_LIMITS && digit_at(p, p->byte + digits))
        digits++;
    if (p->byte == p->end)
        fprintf(stderr, "the text ends\n");
    else if (digits > 0)
        fprintf(stderr, "there is %.*s\n", digits, (const char *)p->byte);
    else if (p->byte == p->text && starts(p, "\xEF\xBB\xBF"))
        fprintf(stderr, "there is a byte order mark: save the text without it\n");
    else if (p->byte == p->text && (starts(p, "\xFE\xFF") || starts(p, "\xFF\xFE")))
        fprintf(stderr, "there is a byte order mark of UTF-16: save the text as UTF-8, without a mark\n");
    else if (*p->byte <= ' ' && unseen[*p->byte] != NULL)
        fprintf(stderr, "there is %s\n", unseen[*p->byte]);
    else if (*p->byte > ' ' && *p->byte <= '~')
        fprintf(stderr, "there is %c\n", *p->byte);
    else
        fprintf(stderr, "there is the byte %d\n", *p->byte);
}

/* The number that stands there, of at most 10 digits. */
static uint64_t number_at(const struct place *p, const uint8_t *at)
{
    uint64_t n = 0;
    for (; digit_at(p, at); at++)
        n = 10 * n + (uint64_t)(*at - '0');
    return n;
}

/* A count of pieces that is refused although it is within 1 to 99: they weigh too much together. Says so, or answers 0 if it is no such count. */
static int say_too_heavy(const struct place *p, const char *const *line)
{
    const uint8_t *weight = NULL, *field = p->start;
    int fields = 0;
    for (const uint8_t *at = p->start; at < p->byte; at++)
        if (*at == '\t')
            weight = field, field = at + 1, fields++;
    uint64_t count = number_at(p, p->byte);
    if (line != lines[FIT] || fields < 3 || count < 1 || count > 99)
        return 0;
    unsigned pieces = (unsigned)count, grams = (unsigned)number_at(p, weight); /* at most 500000, or it had been refused */
    fprintf(stderr, "%u pieces of %u g weigh %u g, and a line may weigh at most 500000 g\n", pieces, grams, pieces * grams);
    return 1;
}

/* The line in the table, of a place that is not its first byte. */
static const char *const *line_of(const struct work *w, const struct place *p, uint32_t line)
{
    if (w->engines)
        return lines[ENG];
    return lines[line <= FIT ? line - 1 : *p->start == 'F' ? FIT : END];
}

/* Says what is wrong in the text, at the line and byte that its refusal carries. */
static void explain(const struct work *w, wb_answer a)
{
    struct place p = {w->text, w->text, NULL, w->text + w->text_len};
    fprintf(stderr, "office: %s: %s", w->path, w->engines ? "the engine lines" : "the sheet");
    if (a.first == 0) {
        fprintf(stderr, ": too long, at most %d bytes are read\n", WB_MOST_TEXT);
        return;
    }
    for (uint32_t left = a.first; left > 1; p.start++)
        left -= *p.start == '\n';
    p.byte = p.start + a.second - 1;
    fprintf(stderr, ", line %u, byte %u: ", (unsigned)a.first, (unsigned)a.second);
    if (a.refusal == WB_OUTSIDE_LIMITS && say_too_heavy(&p, line_of(w, &p, a.first)))
        return;
    if (a.second == 1)
        say_line_expected(&p, w->engines, a.first);
    else
        say_expected(&p, a.refusal, line_of(w, &p, a.first));
    fprintf(stderr, ", and ");
    say_found(&p, a.refusal);
}

/* Of a text that is at fault its file is named, and then what is wrong in it; of the command line's own numbers the limits. */
static int refuse(const struct work *w, wb_answer a)
{
    const char *why = "for a reason that this program does not know";
    int at_limits = w->limits != NULL && a.refusal == WB_OUTSIDE_LIMITS;
    int at_fault = w->path != NULL && (a.refusal == WB_BROKEN_LINE || a.refusal == WB_OUTSIDE_LIMITS);
    if (a.refusal < sizeof refusals / sizeof refusals[0])
        why = refusals[a.refusal];
    printf("refused (%u): %s%s%s", (unsigned)a.refusal, at_fault ? w->path : "", at_fault ? ": " : "", why);
    printf("%s%s\n", at_limits ? "; " : "", at_limits ? w->limits : "");
    if (at_fault)
        explain(w, a);
    return REFUSED;
}

/* ---- files ---- */

/* Reads until the file ends or the room is full, and answers how many bytes came. A pipe may give them in pieces. */
static size_t read_all(int fd, const char *path, uint8_t *room, size_t size)
{
    size_t got = 0;
    while (got < size) {
        ssize_t n = read(fd, room + got, size - got);
        if (n == 0)
            break;
        if (n > 0)
            got += (size_t)n;
        else if (errno != EINTR)
            trouble("cannot read", path);
    }
    return got;
}

static void write_all(int fd, const char *path, const uint8_t *bytes, size_t size)
{
    size_t put = 0;
    while (put < size) {
        ssize_t n = write(fd, bytes + put, size - put);
        if (n >= 0)
            put += (size_t)n;
        else if (errno != EINTR)
            trouble("cannot write", path);
    }
}

static void load_text(struct work *w, const char *path)
{
    int fd = open(path, O_RDONLY);
    if (fd < 0)
        trouble("cannot open", path);
    w->path = path;
    w->text_len = read_all(fd, path, w->text, sizeof w->text);
    close(fd);
}

/* The name of a file beside the register. */
static char *beside(const char *path, const char *ending)
{
    char *name = malloc(strlen(path) + strlen(ending) + 1);
    if (name == NULL)
        trouble("no memory for the name of", path);
    strcpy(name, path);
    strcat(name, ending);
    return name;
}

/* ---- the register's file ---- */

/*
 * Under a second name the register would have a second lock, and by a change the two names would come to stand for two registers. Under a second name
 * the lock would be some other file, whose rights are not ours to set.
 */
static void see_one_name(int fd, const char *path)
{
    struct stat about;
    if (fstat(fd, &about) != 0)
        trouble("cannot look at", path);
    if (S_ISREG(about.st_mode) && about.st_nlink <= 1)
        return;
    fprintf(stderr, "office: %s is not a plain file with one name\n", path);
    exit(TROUBLE);
}

/* Gives a file beside the register the register's rights, and some besides. Where there is no register yet, it has what the user's umask leaves. */
static int keep_rights(int fd, const char *path, mode_t besides)
{
    struct stat about;
    if (stat(path, &about) != 0)
        return errno == ENOENT ? 0 : -1;
    return fchmod(fd, (about.st_mode & 07777) | besides);
}

/*
 * Waits until no other run is changing the register. The system lets go of the lock when the run ends, also when it is killed, so none is left over.
 *
 * The lock is on a file of its own. A change puts a new file in the register's place: who waited for a lock on the old one would get it when the
 * change is done, and would then hold a file that is the register no more, beside a third run that locks the new one. The lock's file must last as
 * the register's does not, so nobody renames or removes it; and it is opened once, since closing any handle of it would let go of the lock.
 */
static void lock_register(const char *path)
{
    struct flock whole = {.l_type = F_WRLCK, .l_whence = SEEK_SET, .l_start = 0, .l_len = 0};
    char *name = beside(path, ".lock");
    int fd = open(name, O_RDWR | O_CREAT | O_NOFOLLOW, 0666);
    if (fd < 0)
        trouble("cannot open", name);
    see_one_name(fd, name);
    /* its owner can always lock; who does not own it leaves its rights as they are */
    if (keep_rights(fd, path, S_IRUSR | S_IWUSR) != 0 && errno != EPERM)
        trouble("cannot set the rights of", name);
    while (fcntl(fd, F_SETLKW, &whole) != 0)
        if (errno != EINTR)
            trouble("cannot lock", name);
    free(name);
}

/*
 * Loads the words. A file of another size is lent as no words at all, which the library refuses as it refuses any wrong size. The file that is open
 * here never changes, since a change makes another; so who only reads needs no lock.
 */
static void load_register(struct work *w, const char *path)
{
    uint8_t bytes[REGISTER_BYTES + 1];
    int fd = open(path, O_RDONLY | O_NOFOLLOW | O_NONBLOCK);
    if (fd < 0)
        trouble("cannot open the register", path);
    see_one_name(fd, path);
    size_t size = read_all(fd, path, bytes, sizeof bytes);
    close(fd);
    w->count = 0;
    if (size != REGISTER_BYTES)
        return;
    w->count = WB_REGISTER_WORDS;
    for (size_t i = 0; i < WB_REGISTER_WORDS; i++) {
        const uint8_t *b = bytes + 4 * i;
        w->words[i] = (uint32_t)b[0] | (uint32_t)b[1] << 8 | (uint32_t)b[2] << 16 | (uint32_t)b[3] << 24;
    }
}

/* Fresh start is for a place where no register is: one that is there is worth more than the room it takes. */
static void begin_register(struct work *w, const char *path)
{
    struct stat about;
    if (lstat(path, &about) == 0) {
        errno = EEXIST;
        trouble("will not start a fresh register over", path);
    }
    if (errno != ENOENT)
        trouble("cannot look at", path);
    memset(w->words, 0, sizeof w->words);
    w->count = WB_REGISTER_WORDS;
}

/* A new name reaches the disk with its folder. */
static void sync_folder(const char *path)
{
    char *folder = beside(path, "");
    char *slash = strrchr(folder, '/');
    if (slash == NULL)
        strcpy(folder, ".");
    else
        slash[slash == folder] = '\0';
    int fd = open(folder, O_RDONLY | O_DIRECTORY);
    if (fd < 0 || fsync(fd) != 0)
        trouble("cannot sync", folder);
    close(fd);
    free(folder);
}

/*
 * Puts the words in the register's place. They are on the disk under another name before that name becomes the register's, and the rename is one
 * step: a run that is killed, or a machine that stops, leaves the old words or the new. Only the holder of the lock comes here, so the other name can
 * be a fixed one, and what a killed run left under it is cleared away by the next.
 */
static void store_register(const struct work *w, const char *path)
{
    uint8_t bytes[REGISTER_BYTES];
    for (size_t i = 0; i < REGISTER_BYTES; i++)
        bytes[i] = (uint8_t)(w->words[i / 4] >> 8 * (i % 4));
    char *name = beside(path, ".new");
    if (unlink(name) != 0 && errno != ENOENT)
        trouble("cannot clear away", name);
    int fd = open(name, O_WRONLY | O_CREAT | O_EXCL, 0666);
    if (fd < 0)
        trouble("cannot make", name);
    if (keep_rights(fd, path, 0) != 0)
        trouble("cannot set the rights of", name);
    write_all(fd, name, bytes, sizeof bytes);
    if (fsync(fd) != 0 || close(fd) != 0)
        trouble("cannot write", name);
    if (rename(name, path) != 0)
        trouble("cannot put in its place", name);
    changed = 1;
    sync_folder(path);
    free(name);
}

/* ---- the calls, and what is said when each was accepted ---- */

static wb_answer ask_fresh(struct work *w)
{
    return wb_fresh(w->words, w->count);
}

static void tell_fresh(const struct work *w, wb_answer a)
{
    (void)w, (void)a;
    printf("a fresh register, without hulls and drafts\n");
}

static wb_answer ask_new(struct work *w)
{
    return wb_new_hull(w->words, w->count, w->text, w->text_len);
}

static void tell_new(const struct work *w, wb_answer a)
{
    printf("hull %u entered from %s\n", (unsigned)a.first, w->path);
}

/* A trial of a desk without a draft is refused for that, so it tells whether this open discards one. */
static wb_answer ask_open(struct work *w)
{
    w->held = wb_trial_a(w->words, w->count, w->number[0]).refusal != WB_NO_DRAFT;
    return wb_open(w->words, w->count, w->number[0], w->number[1]);
}

static void tell_open(const struct work *w, wb_answer a)
{
    printf("desk %u has hull %u open at edit %u%s\n", (unsigned)w->number[0], (unsigned)w->number[1], (unsigned)a.first,
           w->held ? "; the draft that it held was discarded" : "");
}

static wb_answer ask_set(struct work *w)
{
    w->limits = "line 1 to 24, weight of one piece 1 to 500000 g, 1 to 99 pieces, which together weigh at most 500000 g; "
                "a count left out is 1, and weight 0 and count 0 together empty the line";
    return wb_set_fitting(w->words, w->count, w->number[0], w->number[1], w->number[2], w->number[3]);
}

static void tell_set(const struct work *w, wb_answer a)
{
    unsigned desk = (unsigned)w->number[0], line = (unsigned)w->number[1], weight = (unsigned)w->number[2], count = (unsigned)w->number[3];
    (void)a;
    if (count == 0)
        printf("desk %u emptied line %u", desk, line);
    else
        printf("desk %u set line %u: %u piece%s of %u g", desk, line, count, count == 1 ? "" : "s", weight);
    if (count > 1)
        printf(", %u g in all", weight * count); /* at most 500000, or it had been refused */
    printf("\n");
}

static wb_answer ask_replace(struct work *w)
{
    return wb_replace(w->words, w->count, w->number[0], w->text, w->text_len);
}

static void tell_replace(const struct work *w, wb_answer a)
{
    (void)a;
    printf("desk %u has the sheet of %s\n", (unsigned)w->number[0], w->path);
}

static wb_answer ask_trial_a(struct work *w)
{
    return wb_trial_a(w->words, w->count, w->number[0]);
}

static void tell_trial_a(const struct work *w, wb_answer a)
{
    printf("desk %u, trial of plate A: %u kg, %u W\n", (unsigned)w->number[0], (unsigned)a.first, (unsigned)a.second);
}

static wb_answer ask_trial_c(struct work *w)
{
    return wb_trial_c(w->words, w->count, w->number[0], w->powers, w->rows, w->weights, w->rows);
}

static void tell_trial_c(const struct work *w, wb_answer a)
{
    printf("desk %u, trial of plate C: %u kg, persons %u\n", (unsigned)w->number[0], (unsigned)a.first, (unsigned)a.second);
}

static wb_answer ask_trial_u(struct work *w)
{
    return wb_trial_u(w->words, w->count, w->number[0]);
}

static void tell_trial_u(const struct work *w, wb_answer a)
{
    printf("desk %u, trial of plate U: %u lb\n", (unsigned)w->number[0], (unsigned)a.first);
}

static wb_answer ask_save(struct work *w)
{
    return wb_save(w->words, w->count, w->number[0]);
}

static void tell_save(const struct work *w, wb_answer a)
{
    printf("desk %u saved its hull, now at edit %u\n", (unsigned)w->number[0], (unsigned)a.first);
}

static wb_answer ask_drop(struct work *w)
{
    return wb_drop(w->words, w->count, w->number[0]);
}

static void tell_drop(const struct work *w, wb_answer a)
{
    (void)a;
    printf("desk %u dropped its draft\n", (unsigned)w->number[0]);
}

static wb_answer ask_plate_a(struct work *w)
{
    return wb_plate_a(w->words, w->count, w->number[0]);
}

static void tell_plate_a(const struct work *w, wb_answer a)
{
    printf("hull %u, plate A: %u kg, %u W\n", (unsigned)w->number[0], (unsigned)a.first, (unsigned)a.second);
}

static wb_answer ask_plate_c(struct work *w)
{
    return wb_plate_c(w->words, w->count, w->number[0], w->powers, w->rows, w->weights, w->rows);
}

static void tell_plate_c(const struct work *w, wb_answer a)
{
    printf("hull %u, plate C: %u kg, persons %u\n", (unsigned)w->number[0], (unsigned)a.first, (unsigned)a.second);
}

static wb_answer ask_plate_u(struct work *w)
{
    return wb_plate_u(w->words, w->count, w->number[0]);
}

static void tell_plate_u(const struct work *w, wb_answer a)
{
    printf("hull %u, plate U: %u lb\n", (unsigned)w->number[0], (unsigned)a.first);
}

static wb_answer ask_weight(struct work *w)
{
    return wb_weight(w->words, w->count, w->number[0]);
}

static void tell_weight(const struct work *w, wb_answer a)
{
    printf("hull %u weighs %u gram%s\n", (unsigned)w->number[0], (unsigned)a.first, a.first == 1 ? "" : "s");
}

static wb_answer ask_write(struct work *w)
{
    return wb_write_hull(w->words, w->count, w->number[0], w->sheet, sizeof w->sheet);
}

/* The text alone, so that it can be kept and given to replace. */
static void tell_write(const struct work *w, wb_answer a)
{
    fwrite(w->sheet, 1, a.first, stdout);
}

/* ---- the command line ---- */

enum { READS, CHANGES, BEGINS };

/*
 * What a command is lent: for each word after its name a letter, n for a number, o for one that may be left out and is then 1, t for a sheet's text,
 * e for one of engine rows.
 */
struct command {
    const char *name;
    const char *words;
    const char *lent;
    int does;
    wb_answer (*ask)(struct work *w);
    void (*tell)(const struct work *w, wb_answer a);
};

static const struct command commands[] = {
    {"fresh", "", "", BEGINS, ask_fresh, tell_fresh},
    {"new", " SHEETFILE", "t", CHANGES, ask_new, tell_new},
    {"open", " DESK HULL", "nn", CHANGES, ask_open, tell_open},
    {"set", " DESK LINE WEIGHT [COUNT]", "nnno", CHANGES, ask_set, tell_set},
    {"replace", " DESK SHEETFILE", "nt", CHANGES, ask_replace, tell_replace},
    {"trial-a", " DESK", "n", READS, ask_trial_a, tell_trial_a},
    {"trial-c", " DESK ENGINEFILE", "ne", READS, ask_trial_c, tell_trial_c},
    {"trial-u", " DESK", "n", READS, ask_trial_u, tell_trial_u},
    {"save", " DESK", "n", CHANGES, ask_save, tell_save},
    {"drop", " DESK", "n", CHANGES, ask_drop, tell_drop},
    {"plate-a", " HULL", "n", READS, ask_plate_a, tell_plate_a},
    {"plate-c", " HULL ENGINEFILE", "ne", READS, ask_plate_c, tell_plate_c},
    {"plate-u", " HULL", "n", READS, ask_plate_u, tell_plate_u},
    {"weight", " HULL", "n", READS, ask_weight, tell_weight},
    {"write", " HULL", "n", READS, ask_write, tell_write},
};

static void usage(void)
{
    for (size_t i = 0; i < sizeof commands / sizeof commands[0]; i++)
        fprintf(stderr, "%s office FILE %s%s\n", i == 0 ? "usage:" : "      ", commands[i].name, commands[i].words);
    exit(TROUBLE);
}

/* Ends the run over a word that cannot be what it should. */
static void bad_word(const char *word, const char *what)
{
    fprintf(stderr, "office: '%s' is not %s\n", word, what);
    exit(TROUBLE);
}

static const struct command *find_command(const char *name)
{
    for (size_t i = 0; i < sizeof commands / sizeof commands[0]; i++)
        if (strcmp(commands[i].name, name) == 0)
            return &commands[i];
    bad_word(name, "a command; without words office prints them all");
    return NULL;
}

/* Any number of 32 bits goes to the library, which judges it; what is none, or larger, is bad usage. */
static uint32_t number_of(const char *word)
{
    uint64_t n = 0;
    const char *digit = word;
    for (; *digit >= '0' && *digit <= '9' && n <= UINT32_MAX; digit++)
        n = 10 * n + (uint64_t)(*digit - '0');
    if (digit == word || *digit != '\0' || n > UINT32_MAX)
        bad_word(word, "a number up to 4294967295");
    return (uint32_t)n;
}

/* Makes engine rows of the text, which is a call of its own and may be refused. */
static wb_answer read_rows(struct work *w)
{
    wb_answer a = wb_read_engines(w->text, w->text_len, w->powers, WB_ENGINE_ROWS, w->weights, WB_ENGINE_ROWS);
    w->rows = a.first;
    return a;
}

/* Whether so many words are what the command is lent: all, or all but one that may be left out, which is the last. */
static int words_fit(const struct command *c, size_t count)
{
    size_t most = strlen(c->lent);
    return count == most || (count + 1 == most && c->lent[count] == 'o');
}

/* Takes what the command is lent from so many words; answers as the reading of engine rows did, if there are any. */
static wb_answer take_words(struct work *w, const struct command *c, char **words, size_t count)
{
    wb_answer taken = {WB_ACCEPTED, 0, 0, 0};
    for (size_t i = 0; c->lent[i] != '\0'; i++) {
        if (i == count)
            w->number[i] = 1;
        else if (c->lent[i] == 'n' || c->lent[i] == 'o')
            w->number[i] = number_of(words[i]);
        else
            load_text(w, words[i]);
    }
    w->engines = strchr(c->lent, 'e') != NULL;
    return w->engines ? read_rows(w) : taken;
}

static void look_at_register(struct work *w, const struct command *c, const char *path)
{
    if (c->does == BEGINS)
        begin_register(w, path);
    else
        load_register(w, path);
}

/* Looks before it locks, so that a name that was mistyped, or is that of some other file, is given no lock. What counts is the look under the lock. */
static void bring_register(struct work *w, const struct command *c, const char *path)
{
    look_at_register(w, c, path);
    if (c->does == READS || w->count == 0)
        return;
    lock_register(path);
    look_at_register(w, c, path);
}

/* What was said counts only once it is out. */
static int said(int status)
{
    if (fflush(stdout) == 0 && !ferror(stdout))
        return status;
    trouble("cannot print", "the answer");
    return TROUBLE;
}

int main(int argc, char **argv)
{
    static struct work w;
    if (argc < 3)
        usage();
    const char *path = argv[1];
    const struct command *c = find_command(argv[2]);
    size_t count = (size_t)argc - 3;
    if (!words_fit(c, count))
        usage();
    /* Texts are read before the lock is taken: one that comes slowly, by a pipe, keeps no other desk waiting. */
    wb_answer a = take_words(&w, c, argv + 3, count);
    if (a.refusal != WB_ACCEPTED)
        return said(refuse(&w, a));
    bring_register(&w, c, path);
    a = c->ask(&w);
    if (a.refusal != WB_ACCEPTED)
        return said(refuse(&w, a));
    if (c->does != READS)
        store_register(&w, path);
    c->tell(&w, a);
    return said(ACCEPTED);
}
