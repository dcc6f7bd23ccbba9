// Checks the S-record files of text files through the library's C boundary. README.md gives their form.
#include <ctype.h>
#include <inttypes.h>
#include <stdbool.h>
#include <stdint.h>
#include <stdio.h>
#include <stdlib.h>
#include <string.h>

#include "ppe42.h"

enum { GUARD = 64, MOST = 1 << 22, MOST_LENT = 1 << 21, MOST_TEXT = 1024, BEGINNINGS = 300, S3_LINE = 79 };

// A case as its rows give it. The bytes are those that reading leaves where they are named, or what memory to be written holds.
static struct {
    char name[MOST_TEXT];
    unsigned at;
    bool open, writes, cut;
    size_t lend, output, len, lines;
    uint8_t file[MOST], bytes[MOST_LENT];
    bool named[MOST_LENT];
} test;

static const char *path;
static unsigned at, cases, failures;
static bool failed;
static const char edge[] = "Z";
static uint8_t fills[2][MOST_LENT], untouched[MOST];

static _Noreturn void malformed(const char *why, const char *what) {
    fprintf(stderr, "%s:%u: %s: %s\n", path, at, why, what);
    exit(2);
}

// Begins the report of a difference.
static void differs(const char *function) {
    printf("%s:%u: %s: %s: ", path, test.at, test.name, function);
    failed = true;
}

// What is lent to a call, with the bytes right before and right behind it, and what all of them must be afterwards.
struct buffer { uint8_t room[GUARD + MOST + GUARD], wanted[GUARD + MOST + GUARD]; size_t len; };
static struct buffer memory, file;

static void lend(struct buffer *buffer, const uint8_t *bytes, size_t len, const char *around) {
    size_t period = strlen(around);
    for (size_t i = 0; i < GUARD; i++) buffer->room[i] = buffer->room[GUARD + len + i] = (uint8_t)around[i % period];
    memcpy(buffer->room + GUARD, bytes, len);
    memcpy(buffer->wanted, buffer->room, GUARD + len + GUARD);
    buffer->len = len;
}

static uint8_t *lent(struct buffer *buffer) { return buffer->len ? buffer->room + GUARD : NULL; }

static void check_answer(const char *function, uint64_t found, uint64_t wanted) {
    if (found == wanted) return;
    differs(function);
    printf("wanted refusal %" PRIu32 " and %" PRIu32 ", got refusal %" PRIu32 " and %" PRIu32 "\n", ppe42_refusal(wanted),
           ppe42_count(wanted), ppe42_refusal(found), ppe42_count(found));
}

static void check_buffer(const char *function, const struct buffer *buffer, const char *what) {
    if (!memcmp(buffer->room, buffer->wanted, GUARD + buffer->len + GUARD)) return;
    size_t i = 0;
    while (buffer->room[i] == buffer->wanted[i]) i++;
    differs(function);
    printf("byte %td of %s: wanted %02X, got %02X\n", (ptrdiff_t)i - GUARD, what, buffer->wanted[i], buffer->room[i]);
}

// The answer to the first bytes of the file. Each turn has other bytes around it, which would make a cut line whole or bring a
// missing end, and in memory.
enum { TURNS = 4 };
static uint64_t read_file(size_t len, int turn) {
    static const char *const around[TURNS] = {"\n", "S9030000FC\n", "S804000000FB\n", "S70500000000FA\n"};
    lend(&memory, fills[turn % 2], test.lend, edge);
    lend(&file, test.file, len, around[turn]);
    return ppe42_srec_read(lent(&memory), test.lend, lent(&file), len);
}

static void check_reading(uint64_t wanted) {
    static const char function[] = "ppe42_srec_read";
    for (int turn = 0; turn < TURNS && !failed; turn++) {
        check_answer(function, read_file(test.len, turn), wanted);
        for (size_t i = 0; i < test.lend; i++)
            if (test.named[i]) memory.wanted[GUARD + i] = test.bytes[i];
        check_buffer(function, &memory, "memory");
        check_buffer(function, &file, "the file");
    }
}

static uint64_t refused(enum ppe42_refused refusal, size_t line) { return (uint64_t)refusal << 32 | line; }

static bool is_end(const uint8_t *line) { return line[0] == 'S' && line[1] >= '7' && line[1] <= '9'; }

// What a beginning of the file is answered, with so many whole lines, the last of them at last: what the file is, if it has the
// refused line; else it is refused for the line that it cuts or the missing end, unless it lacks only lines after the end.
static uint64_t of_beginning(uint64_t wanted, size_t len, size_t whole, size_t last) {
    if (wanted && whole >= ppe42_count(wanted)) return wanted;
    if (len && test.file[len - 1] != '\n') return refused(PPE42_REFUSED_RECORD, whole + 1);
    return len && is_end(test.file + last) ? 0 : refused(PPE42_REFUSED_END, whole + 1);
}

static void check_beginnings(uint64_t wanted) {
    static const char function[] = "ppe42_srec_read of a beginning";
    size_t whole = 0, last = 0, next = 0;
    for (size_t len = 0; len < test.len && len <= BEGINNINGS && !failed; len++) {
        if (len && test.file[len - 1] == '\n') {
            whole++;
            last = next;
            next = len;
        }
        uint64_t answer = of_beginning(wanted, len, whole, last);
        check_answer(function, read_file(len, 0), answer);
        if (answer) check_buffer(function, &memory, "memory");
    }
}

// Bytes of lines that the case skips are 0 in its file.
static void check_writing(uint64_t wanted) {
    static const char function[] = "ppe42_srec_write";
    lend(&memory, test.bytes, test.lend, edge);
    lend(&file, untouched, test.output, edge);
    check_answer(function, ppe42_srec_write(lent(&memory), test.lend, lent(&file), test.output), wanted);
    for (size_t i = 0; i < test.len; i++) {
        if (!test.file[i]) test.file[i] = file.room[GUARD + i];
        file.wanted[GUARD + i] = test.file[i];
    }
    check_buffer(function, &memory, "memory");
    check_buffer(function, &file, "the output");
}

static void play_file(uint64_t wanted) {
    check_reading(wanted);
    check_beginnings(wanted);
}

// What was written is read back.
static void play_memory(uint64_t wanted) {
    check_writing(wanted);
    memset(test.named, true, test.lend);
    if (!ppe42_refusal(wanted)) play_file(0);
}

static void play(uint64_t wanted) {
    test.open = failed = false;
    if (test.writes) play_memory(wanted);
    else play_file(wanted);
    cases++;
    failures += failed;
}

static size_t number(const char *text, size_t digits, int base, size_t most) {
    char copy[16], *end;
    snprintf(copy, sizeof copy, "%.*s", (int)(digits < 15 ? digits : 15), text);
    unsigned long long value = strtoull(copy, &end, base);
    if (!isxdigit((unsigned char)*copy) || end != copy + digits || value > most) malformed("no number, or too large", text);
    return (size_t)value;
}

static size_t decimal(const char *text, size_t most) { return number(text, strlen(text), 10, most); }

// A text with its braces made bytes: {CR}, {HH} a byte, {N*TEXT} a text N times.
struct text { uint8_t bytes[MOST_TEXT]; size_t len; };

static void add(struct text *text, const char *bytes, size_t count) {
    if (count > MOST_TEXT - text->len) malformed("too long", bytes);
    memcpy(text->bytes + text->len, bytes, count);
    text->len += count;
}

static void add_brace(struct text *text, const char *inside, size_t count) {
    size_t digits = strspn(inside, "0123456789");
    if (digits && digits < count && inside[digits] == '*') {
        for (size_t times = number(inside, digits, 10, MOST_TEXT); times; times--)
            add(text, inside + digits + 1, count - digits - 1);
    } else if (count == 2) {
        char byte = memcmp(inside, "CR", 2) ? (char)number(inside, 2, 16, 255) : '\r';
        add(text, &byte, 1);
    } else {
        malformed("no byte and no repetition", inside);
    }
}

static void expand(struct text *text, const char *from) {
    text->len = 0;
    while (*from) {
        if (*from != '{') {
            add(text, from++, 1);
            continue;
        }
        const char *end = strchr(from, '}');
        if (!end) malformed("no }", from);
        add_brace(text, from + 1, (size_t)(end - from - 1));
        from = end + 1;
    }
}

static char *split(char *text) {
    char *rest = text + strcspn(text, " \t");
    if (*rest) *rest++ = 0;
    return rest + strspn(rest, " \t");
}

// ADDRESS=BYTES, each byte once and inside memory.
static void read_bytes(const char *item) {
    static struct text bytes;
    const char *equals = strchr(item, '=');
    if (!equals) malformed("no ADDRESS=BYTES", item);
    size_t address = number(item, (size_t)(equals - item), 16, MOST_LENT);
    expand(&bytes, equals + 1);
    if (!bytes.len || bytes.len % 2) malformed("no whole bytes", item);
    for (size_t i = 0; i < bytes.len; i += 2, address++) {
        if (address >= test.lend || test.named[address]) malformed("a byte outside memory, or given twice", item);
        test.bytes[address] = (uint8_t)number((char *)bytes.bytes + i, 2, 16, 255);
        test.named[address] = true;
    }
}

static void read_items(char *rest) {
    while (*rest) {
        char *item = rest;
        rest = split(item);
        read_bytes(item);
    }
}

static void add_line(const struct text *line) {
    if (test.cut) malformed("a line behind one that is cut", test.name);
    if (line->len > MOST - test.len) malformed("a file of too many bytes", test.name);
    memcpy(test.file + test.len, line->bytes, line->len);
    test.len += line->len;
    test.lines++;
}

// N| LINE: a line of the file, N times or once.
static void read_line(char *row, size_t digits) {
    static const char no_line_feed[] = "{no LF}";
    static struct text line;
    size_t times = digits ? number(row, digits, 10, MOST) : 1;
    char *text = row + digits + 1, *cut = strstr(row, no_line_feed);
    if (!test.open) malformed("no case", row);
    if (cut && cut[sizeof no_line_feed - 1]) malformed("something behind {no LF}", row);
    if (cut) *cut = 0;
    expand(&line, text + (*text == ' '));
    if (!cut) add(&line, "\n", 1);
    if (!line.len) malformed("a line of no bytes", row);
    for (; times; times--) {
        add_line(&line);
        test.cut = cut;
    }
}

static void skip_lines(const char *rest) {
    size_t bytes = S3_LINE * decimal(rest, MOST);
    if (bytes > MOST - test.len) malformed("a file of too many bytes", rest);
    test.len += bytes;
}

static void begin(const char *name) {
    if (test.open) malformed("the case above has no outcome", test.name);
    if (!*name) malformed("no name", "case");
    memset(&test, 0, sizeof test);
    snprintf(test.name, sizeof test.name, "%s", name);
    test.at = at;
    test.open = true;
    test.lend = 64;
}

// N for the whole call, or N line L.
static void play_refusal(char *rest) {
    char *line = split(rest), *where = split(line);
    size_t refusal = decimal(rest, PPE42_REFUSED_COUNT);
    bool of_line = !test.writes && refusal >= PPE42_REFUSED_RECORD;
    bool of_call = refusal == PPE42_REFUSED_MEMORY || (test.writes && refusal == PPE42_REFUSED_OUTPUT);
    if (!of_line && !of_call) malformed("no such refusal here", rest);
    if (strcmp(line, of_line ? "line" : "")) malformed("a line that is missing or too many", rest);
    if (test.writes && test.len) malformed("a refusal writes nothing", rest);
    play(refused((enum ppe42_refused)refusal, of_line ? decimal(where, test.lines + 1) : 0));
}

static void read_row(char *key, char *rest) {
    if (!strcmp(key, "case")) {
        begin(rest);
    } else if (!test.open) {
        malformed("no case", key);
    } else if (!strcmp(key, "lend") && !test.len && !test.writes) {
        test.lend = decimal(rest, MOST_LENT);
    } else if (!strcmp(key, "into") && !test.len) {
        test.output = decimal(rest, MOST);
        test.writes = true;
    } else if (!strcmp(key, "hold") && test.writes) {
        read_items(rest);
    } else if (!strcmp(key, "skip") && test.writes) {
        skip_lines(rest);
    } else if (!strcmp(key, "read") && !test.writes) {
        read_items(rest);
        play(0);
    } else if (!strcmp(key, "wrote") && test.writes) {
        if (!test.len || decimal(rest, test.output) != test.len) malformed("the lines have another length", rest);
        play(test.len);
    } else if (!strcmp(key, "refusal")) {
        play_refusal(rest);
    } else {
        malformed("no such row here", key);
    }
}

static void check_file(const char *name) {
    char row[MOST_TEXT];
    unsigned before = cases;
    FILE *in = fopen(name, "r");
    path = name;
    at = 0;
    if (!in) malformed("cannot be read", name);
    while (fgets(row, sizeof row, in)) {
        at++;
        if (!strchr(row, '\n') && !feof(in)) malformed("too long", "row");
        row[strcspn(row, "#\n")] = 0;
        for (size_t end = strlen(row); end && isspace((unsigned char)row[end - 1]); end--) row[end - 1] = 0;
        size_t digits = strspn(row, "0123456789");
        if (row[digits] == '|') read_line(row, digits);
        else if (*row) read_row(row, split(row));
    }
    fclose(in);
    if (test.open) malformed("the last case has no outcome", test.name);
    if (cases == before) malformed("no case", name);
}

// Two fills of memory that differ in every byte, and one of outputs that no record has.
static void fill(void) {
    for (size_t i = 0; i < MOST_LENT; i++) {
        fills[0][i] = (uint8_t)(37 * i + 11 * (i >> 8));
        fills[1][i] = (uint8_t)~fills[0][i];
    }
    memset(untouched, *edge, sizeof untouched);
}

int main(int count, char **names) {
    if (count < 2) {
        fprintf(stderr, "usage: srecords FILE..\n");
        return 2;
    }
    fill();
    for (int i = 1; i < count; i++) check_file(names[i]);
    printf("%u S-record cases of %d files, %u failed\n", cases, count - 1, failures);
    return failures != 0;
}
