// Checks the lines and words of text files through the line assembler's C boundary. README.md gives their form.
#include <ctype.h>
#include <inttypes.h>
#include <stdbool.h>
#include <stdint.h>
#include <stdio.h>
#include <stdlib.h>
#include <string.h>

#include "ppe42.h"

enum { GUARD = 64, EDGE = 0x5A, MOST = 1 << 17, NO_MARK = MOST + 1, BEGINNINGS = 1000 };
enum { LEAST_OUTPUT = 64, MOST_OUTPUT = 200, NOT_IN_GRAMMAR = 11 };

#define UNMEASURED SIZE_MAX
#define BAD_OPERANDS ((uint64_t)6 << 48)
#define SHORT_OUTPUT ((uint64_t)8 << 48)
#define HAS_LINE ((uint64_t)1 << 32)
#define UNWRITTEN ((uint64_t)1 << 33)

// What a row says: its line and its word belong together both ways, only from line to word, only from word to line, the line
// having a word or none; or the word has no line; or the line has no word.
enum kind { BOTH, READS, SHOWS, LISTS, NONE, REFUSED };

// The cores that a row may be of.
static const struct core {
    const char *name, *assembles, *disassembles;
    uint64_t (*assemble)(const uint8_t *, size_t);
    uint64_t (*disassemble)(uint32_t, uint8_t *, size_t);
} cores[] = {
    {"42", "ppe42_assemble", "ppe42_disassemble", ppe42_assemble, ppe42_disassemble},
    {"42x", "ppe42x_assemble", "ppe42x_disassemble", ppe42x_assemble, ppe42x_disassemble},
};
enum { CORES = sizeof cores / sizeof *cores };

struct row {
    enum kind kind;
    uint32_t word, refusal, column;
    size_t len;
    uint8_t line[MOST];
};

static const char *file, *shown;
static unsigned cores_named; // a bit for each that a row is of
static const struct core *core;
static unsigned at, cases, failures;
static bool failed;

static _Noreturn void malformed(const char *why, const char *what) {
    fprintf(stderr, "%s:%u: %s: %s\n", file, at, why, what);
    exit(2);
}

// Begins the report of a difference.
static void differs(const char *function) {
    printf("%s:%u: %s: %s ", file, at, shown, function);
    failed = true;
}

static void print_answer(uint64_t answer) {
    uint32_t refusal = (uint32_t)(answer >> 48), column = (uint32_t)(answer >> 32) & 0xFFFF, word = (uint32_t)answer;
    if (!refusal && !column) printf("word %08" PRIX32, word);
    else if (!word) printf("refusal %" PRIu32 " at %" PRIu32, refusal, column);
    else printf("%016" PRIX64, answer);
}

// The answer to the first bytes of a line, with another byte behind them.
static uint64_t assemble(const uint8_t *line, size_t len, uint8_t behind) {
    static uint8_t room[MOST + GUARD];
    memcpy(room, line, len);
    memset(room + len, behind, GUARD);
    return core->assemble(len || behind ? room : NULL, len);
}

static void check_answer(const struct row *row, uint64_t wanted) {
    static const uint8_t behind[] = {'1', ')', ' ', 0};
    for (size_t i = 0; i < sizeof behind; i++) {
        uint64_t found = assemble(row->line, row->len, behind[i]);
        if (found == wanted) continue;
        differs(core->assembles);
        printf("wanted ");
        print_answer(wanted);
        printf(", got ");
        print_answer(found);
        putchar('\n');
        return;
    }
}

// What stands before the refused byte begins some line, so a shorter line is refused at its end if at all; a line that
// goes beyond that byte is refused there.
static void check_beginnings(const struct row *row) {
    bool refused = row->kind == REFUSED && row->refusal == NOT_IN_GRAMMAR;
    size_t good = refused ? row->column : row->len;
    for (size_t len = 0; len < row->len && len <= BEGINNINGS; len++) {
        uint64_t found = assemble(row->line, len, row->line[len]);
        uint64_t end = (uint64_t)NOT_IN_GRAMMAR << 48 | (uint64_t)(len < good ? len : good) << 32;
        if (found == end || (len <= good && found >> 48 != NOT_IN_GRAMMAR)) continue;
        differs(core->assembles);
        printf("of its first %zu bytes, got ", len);
        print_answer(found);
        putchar('\n');
        return;
    }
}

// A line written into the first bytes of an output, and its answer; the rest of the room must stay.
struct output {
    uint8_t room[GUARD + MOST_OUTPUT + GUARD], *line;
    uint64_t answer;
};

static void disassemble(uint32_t word, size_t room, struct output *output) {
    memset(output->room, EDGE, sizeof output->room);
    output->line = output->room + GUARD;
    output->answer = core->disassemble(word, room ? output->line : NULL, room);
}

// Whether an output holds these bytes and no others.
static bool holds(const struct output *output, const uint8_t *line, size_t len) {
    for (size_t i = 0; i < sizeof output->room; i++) {
        bool inside = i >= GUARD && i < GUARD + len;
        if (output->room[i] != (inside ? line[i - GUARD] : EDGE)) return false;
    }
    return true;
}

static void check_line(const struct row *row, uint64_t wanted) {
    static const size_t rooms[] = {0, 1, LEAST_OUTPUT - 1, LEAST_OUTPUT, LEAST_OUTPUT + 1, MOST_OUTPUT};
    static struct output output;
    for (size_t i = 0; i < sizeof rooms / sizeof *rooms; i++) {
        bool lent = rooms[i] >= LEAST_OUTPUT;
        uint64_t answer = lent ? wanted : SHORT_OUTPUT;
        disassemble(row->word, rooms[i], &output);
        if (output.answer == answer && holds(&output, row->line, lent && wanted ? row->len : 0)) continue;
        differs(core->disassembles);
        printf("of %08" PRIX32 " into %zu bytes, wanted %016" PRIX64 ", got %016" PRIX64 " and \"%.*s\"\n", row->word,
               rooms[i], answer, output.answer, (int)strcspn((char *)output.line, "Z"), (char *)output.line);
        return;
    }
}

// The line of a word is assembled to the word, or, where fields that no line writes are set, to the word without them. It
// is the row's own line but where the row only reads.
static void check_back(const struct row *row) {
    static struct output first, second;
    disassemble(row->word, MOST_OUTPUT, &first);
    size_t len = (uint32_t)first.answer;
    if (len > MOST_OUTPUT) len = 0;
    uint64_t back = core->assemble(first.line, len);
    disassemble((uint32_t)back, MOST_OUTPUT, &second);
    bool same = back == row->word, own = len == row->len && !memcmp(first.line, row->line, len);
    if (same == (row->kind != SHOWS) && own == (row->kind != READS) && second.answer == (HAS_LINE | len) &&
        holds(&second, first.line, len))
        return;
    differs(core->disassembles);
    printf("of %08" PRIX32 ", got \"%.*s\", which gives ", row->word, (int)len, (char *)first.line);
    print_answer(back);
    putchar('\n');
}

static void check_on_core(const struct row *row) {
    failed = false;
    if (row->kind == BOTH || row->kind == READS) check_answer(row, row->word);
    if (row->kind == REFUSED) check_answer(row, (uint64_t)row->refusal << 48 | (uint64_t)row->column << 32);
    if (row->kind == LISTS) check_answer(row, BAD_OPERANDS);
    if (row->kind != SHOWS) check_beginnings(row);
    if (row->kind == BOTH) check_line(row, HAS_LINE | row->len);
    if (row->kind == SHOWS || row->kind == LISTS) check_line(row, HAS_LINE | UNWRITTEN | row->len);
    if (row->kind == NONE) check_line(row, 0);
    if (row->kind < LISTS) check_back(row);
    cases++;
    failures += failed;
}

static void check(const struct row *row) {
    for (unsigned i = 0; i < CORES; i++) {
        core = &cores[i];
        if (cores_named >> i & 1) check_on_core(row);
    }
}

static uint32_t number(const char *text, size_t digits, int base) {
    char copy[16], *end;
    snprintf(copy, sizeof copy, "%.*s", (int)(digits < 15 ? digits : 15), text);
    unsigned long long value = strtoull(copy, &end, base);
    if (end == copy || end != copy + digits || value > UINT32_MAX) malformed("no number", text);
    return (uint32_t)value;
}

static void add(struct row *row, const char *bytes, size_t count) {
    if (count > MOST - row->len) malformed("a line of too many bytes", bytes);
    memcpy(row->line + row->len, bytes, count);
    row->len += count;
}

// One brace: {HH} a byte, {N*TEXT} a text N times, {N=C} as many C as make the line N bytes long.
static void add_brace(struct row *row, const char *text, size_t count, size_t bare) {
    size_t digits = strspn(text, "0123456789");
    if (digits && digits < count && text[digits] == '*') {
        for (uint32_t times = number(text, digits, 10); times; times--) add(row, text + digits + 1, count - digits - 1);
    } else if (digits && digits + 2 == count && text[digits] == '=') {
        uint32_t whole = number(text, digits, 10);
        if (bare == UNMEASURED) return;
        if (whole < bare) malformed("the line is longer without", text);
        for (size_t times = whole - bare; times; times--) add(row, text + digits + 1, 1);
    } else if (count == 2) {
        char byte = (char)number(text, 2, 16);
        add(row, &byte, 1);
    } else {
        malformed("no byte, no repetition and no filling", text);
    }
}

// The bytes of a line that has so many without what fills it up, and where its mark stands.
static uint32_t expand(struct row *row, const char *text, size_t bare) {
    uint32_t mark = NO_MARK;
    row->len = 0;
    while (*text) {
        if (*text == '^') {
            if (mark != NO_MARK) malformed("two marks", text);
            mark = (uint32_t)row->len;
            text++;
        } else if (*text == '{') {
            const char *end = strchr(text, '}');
            if (!end) malformed("no }", text);
            add_brace(row, text + 1, (size_t)(end - text - 1), bare);
            text = end + 1;
        } else {
            add(row, text++, 1);
        }
    }
    return mark;
}

static char *split(char *text) {
    char *rest = text + strcspn(text, " \t");
    if (*rest) *rest++ = 0;
    return rest + strspn(rest, " \t");
}

static void read_refusal(struct row *row, const char *key, uint32_t mark) {
    size_t digits = strspn(key, "0123456789");
    bool named = key[digits] == '@';
    row->kind = REFUSED;
    row->refusal = number(key, digits, 10);
    row->column = named ? number(key + digits + 1, strlen(key + digits + 1), 10) : mark == NO_MARK ? 0 : mark;
    if (key[digits] && !named) malformed("no such row", key);
    if (!named && mark == NO_MARK && row->refusal != 6) malformed("no column", key);
    if (mark != NO_MARK && row->column != mark) malformed("the mark stands elsewhere", key);
}

// The rows from here on are of this core, or of both.
static void name_cores(const char *name) {
    cores_named = 0;
    for (unsigned i = 0; i < CORES; i++)
        if (!strcmp(cores[i].name, name) || !strcmp("both", name)) cores_named |= 1u << i;
    if (!cores_named) malformed("no core", name);
}

static void read_row(char *text) {
    static const char *const keys[] = {
        [BOTH] = "both", [READS] = "reads", [SHOWS] = "shows", [LISTS] = "lists", [NONE] = "none",
    };
    static struct row row;
    char *rest = split(text);
    int kind = BOTH;
    if (!strcmp(text, "core")) {
        name_cores(rest);
        return;
    }
    while (kind < REFUSED && strcmp(text, keys[kind])) kind++;
    char *line = kind < REFUSED ? split(rest) : rest;
    shown = kind == NONE ? rest : line;
    expand(&row, line, UNMEASURED);
    uint32_t mark = expand(&row, line, row.len);
    if (kind == REFUSED) {
        read_refusal(&row, text, mark);
    } else {
        row.kind = (enum kind)kind;
        if (strlen(rest) != 8) malformed("a word has eight digits", rest);
        row.word = number(rest, 8, 16);
        if (mark != NO_MARK || (kind == NONE) != (row.len == 0)) malformed("a mark, no line, or one too many", line);
    }
    check(&row);
}

static void check_file(const char *path) {
    char text[512];
    unsigned before = cases;
    FILE *in = fopen(path, "r");
    file = path;
    name_cores("42");
    at = 0;
    if (!in) malformed("cannot be read", path);
    while (fgets(text, sizeof text, in)) {
        at++;
        if (!strchr(text, '\n') && !feof(in)) malformed("too long", "row");
        text[strcspn(text, "#\n")] = 0;
        for (size_t end = strlen(text); end && isspace((unsigned char)text[end - 1]); end--) text[end - 1] = 0;
        if (*text) read_row(text);
    }
    fclose(in);
    if (cases == before) malformed("no case", path);
}

int main(int count, char **paths) {
    if (count < 2) {
        fprintf(stderr, "usage: lines FILE..\n");
        return 2;
    }
    for (int i = 1; i < count; i++) check_file(paths[i]);
    printf("%u lines and words of %d files, %u failed\n", cases, count - 1, failures);
    return failures != 0;
}
