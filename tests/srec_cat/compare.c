// The S-record functions against srec_cat and GNU objcopy, on files drawn from a seed. ./run starts it.
//   compare SEED FILES    makes the files in the folder where it is started; those of the last turn stay
//
// What srec_cat writes and the library refuses; such files are drawn too, and must be refused with this number at this line:
//   no end             it writes one only if it is given an execution start address: 16 behind the last line
//   S1 and S2          --address-length is the least, and a line takes more where its address does: 13 at the first S2
//   S2 and S9, or so   its end goes by --address-length and the end's own address, not by the data: 16 at the end
//   S6                 in place of S5, for more than 65,535 data records: 13 at the S6
// Of objcopy's files none is refused.
#include <inttypes.h>
#include <stdarg.h>
#include <stdbool.h>
#include <stdint.h>
#include <stdio.h>
#include <stdlib.h>
#include <string.h>

#include "ppe42.h"

enum { MOST_FILE = 1 << 25, MOST_PIECES = 8, MOST_COUNT = 65535, KIB_64 = 65536, SHOWN = 20, PROGRESS = 50 };
#define OBJCOPY "powerpc64le-linux-gnu-objcopy"
#define COUNT(list) (sizeof(list) / sizeof *(list))

static _Noreturn void stop(const char *why, const char *what) {
    fprintf(stderr, "compare: %s: %s\n", why, what);
    exit(2);
}

static uint64_t seed;

static uint32_t draw(void) {
    seed ^= seed << 13;
    seed ^= seed >> 7;
    seed ^= seed << 17;
    return (uint32_t)(seed >> 16);
}

static bool one_in(uint32_t count) { return draw() % count == 0; }

static uint32_t among(const uint32_t *list, size_t count) { return list[draw() % count]; }

// The file in hand: its number, the length of its memory, the pieces of the image that it names, and its text.
static uint32_t number, length, piece_count;
static struct piece { uint32_t at, len; } pieces[MOST_PIECES];
static uint8_t image[PPE42_MOST], before[PPE42_MOST], memory[PPE42_MOST], wanted[PPE42_MOST];
static uint8_t text[MOST_FILE], other[MOST_FILE];
static size_t text_len;

static uint64_t differences;

// The command that was started last, or is being put together.
static char command[4096];
static size_t command_len;

__attribute__((format(printf, 1, 2))) static void add(const char *form, ...) {
    va_list values;
    va_start(values, form);
    command_len += (size_t)vsnprintf(command + command_len, sizeof command - command_len, form, values);
    va_end(values);
    if (command_len >= sizeof command) stop("no room for a command", form);
}

static void run(void) {
    add(" >said 2>&1");
    command_len = 0;
    if (system(command)) stop("failed", command);
}

static void differs(const char *what) {
    if (differences++ < SHOWN) printf("file %" PRIu32 ": %s; %s\n", number, what, command);
}

static void write_file(const char *name, const uint8_t *bytes, size_t len) {
    FILE *out = fopen(name, "wb");
    if (!out || fwrite(bytes, 1, len, out) != len || fclose(out)) stop("cannot be written", name);
}

static size_t read_file(const char *name, uint8_t bytes[MOST_FILE]) {
    FILE *in = fopen(name, "rb");
    if (!in) stop("cannot be read", name);
    size_t len = fread(bytes, 1, MOST_FILE, in);
    if (len == MOST_FILE) stop("too long", name);
    fclose(in);
    return len;
}

static size_t count_lines(void) {
    size_t lines = 0;
    for (size_t i = 0; i < text_len; i++) lines += text[i] == '\n';
    return lines;
}

// The number of the first line of a type; 0 if there is none.
static size_t line_of(char type) {
    size_t line = 1;
    for (size_t i = 0; i < text_len; i++) {
        if (text[i] == 'S' && text[i + 1] == type) return line;
        line += text[i] == '\n';
    }
    return 0;
}

// Memory of this length, and bytes for it and for the image.
static void lend(uint32_t bytes) {
    length = bytes;
    for (uint32_t i = 0; i < length; i++) {
        uint32_t bits = draw();
        image[i] = (uint8_t)bits;
        before[i] = (uint8_t)(bits >> 8);
    }
}

// The least, the most, around 64 KiB, or any.
static uint32_t any_length(void) {
    static const uint32_t some[] = {32, 64, 4096, KIB_64, KIB_64 + 32, 2 * KIB_64, PPE42_MOST};
    return one_in(2) ? among(some, COUNT(some)) : 32 * (1 + draw() % (one_in(4) ? 32768 : 256));
}

static uint32_t over_64_kib(void) { return one_in(4) ? PPE42_MOST : 2 * KIB_64 + 32 * (draw() % 4096); }

static uint32_t least(uint32_t a, uint32_t b) { return a < b ? a : b; }

static void add_piece(uint32_t at, uint32_t len) {
    char name[16];
    snprintf(name, sizeof name, "piece%" PRIu32, piece_count);
    write_file(name, image + at, len);
    pieces[piece_count++] = (struct piece){at, len};
}

// A piece between two addresses, now and then from the first, now and then up to the second.
static void draw_piece(uint32_t from, uint32_t to) {
    uint32_t at = one_in(3) ? from : from + draw() % (to - from);
    add_piece(at, one_in(3) ? to - at : 1 + draw() % (to - at));
}

// Pieces below an address, each in a part of its own.
static void draw_pieces(uint32_t to) {
    uint32_t count = 1 + draw() % MOST_PIECES, part = to / count;
    for (uint32_t i = 0; i < count; i++) draw_piece(i * part, (i + 1) * part);
}

// The data bytes of a line; S3 has 250 at most.
static uint32_t draw_line(void) {
    static const uint32_t some[] = {1, 2, 8, 16, 32, 64, 250};
    return one_in(2) ? among(some, COUNT(some)) : 1 + draw() % 250;
}

static void add_srec_cat(uint32_t address_bytes) {
    uint32_t header = draw() % 3;
    add("srec_cat");
    for (uint32_t i = 0; i < piece_count; i++) add(" piece%" PRIu32 " -binary -offset 0x%" PRIX32, i, pieces[i].at);
    add(" -o made -motorola -address-length=%" PRIu32, address_bytes);
    if (header == 1) add(" -disable=header");
    if (header == 2) add(" -header=file-%" PRIu32, number);
    if (one_in(3)) add(" -crlf");
}

static void add_line(uint32_t line) {
    if (one_in(2)) add(" -obs=%" PRIu32, line);
    else add(" -line-length=%" PRIu32, 14 + 2 * line + draw() % 2);
}

static void add_end(uint32_t address) { add(" -execution-start-address=0x%" PRIX32, address); }

static void add_objcopy(const char *from, bool as_s3) {
    add(OBJCOPY " -I %s -O srec --srec-len=%" PRIu32, from, draw_line());
    if (as_s3) add(" --srec-forceS3");
}

static void make(void) {
    run();
    text_len = read_file("made", text);
}

static uint64_t refused(enum ppe42_refused refusal, size_t line) { return (uint64_t)refusal << 32 | line; }

// Each way to make a file gives the answer that reading it must have.

// Records that may be too many for S5 are not counted.
static uint64_t by_srec_cat(void) {
    uint32_t type = 1 + draw() % 3, line = draw_line();
    lend(any_length());
    draw_pieces(type == 1 ? least(length, KIB_64) : length);
    add_srec_cat(type + 1);
    add_line(line);
    if (one_in(2) || (line < 32 && length > MOST_COUNT)) add(" -disable=data-count");
    add_end(draw() >> (24 - 8 * type));
    make();
    return 0;
}

// objcopy takes S2 where an address needs it.
static uint64_t by_objcopy(void) {
    uint32_t type = 1 + draw() % 3;
    lend(type == 2 ? over_64_kib() : any_length());
    draw_piece(type == 2 ? KIB_64 : 0, type == 1 ? least(length, KIB_64) : length);
    add_objcopy("binary", type == 3);
    add(" --change-addresses=0x%" PRIX32 " piece0 made", pieces[0].at);
    make();
    return 0;
}

static uint64_t by_both(void) {
    by_srec_cat();
    write_file("first", text, text_len);
    add_objcopy("srec", one_in(2));
    add(" first made");
    make();
    return 0;
}

static uint64_t across_64_kib(void) {
    uint32_t below = 1 + draw() % 100;
    lend(over_64_kib());
    add_piece(KIB_64 - below, below + 1 + draw() % 100);
    add_srec_cat(2);
    add(" -obs=250");
    add_end(draw() % KIB_64);
    make();
    return 0;
}

static uint64_t without_end(void) {
    uint32_t type = 1 + draw() % 3;
    lend(any_length());
    draw_pieces(type == 1 ? least(length, KIB_64) : length);
    add_srec_cat(type + 1);
    make();
    return refused(PPE42_REFUSED_END, count_lines() + 1);
}

// The second piece is so far up that no S1 reaches it.
static uint64_t of_two_types(void) {
    lend(over_64_kib());
    draw_piece(0, KIB_64);
    draw_piece(KIB_64 + 250, length);
    add_srec_cat(2);
    add_end(draw() % KIB_64);
    make();
    return refused(PPE42_REFUSED_RECORD, line_of('2'));
}

static uint64_t with_another_end(void) {
    bool s2 = one_in(2);
    lend(over_64_kib());
    draw_piece(s2 ? KIB_64 : 0, s2 ? length : KIB_64);
    add_srec_cat(2);
    add_end(s2 ? draw() % KIB_64 : KIB_64 + draw() % KIB_64);
    make();
    return refused(PPE42_REFUSED_END, count_lines());
}

static uint64_t with_s6(void) {
    lend(over_64_kib());
    add_piece(draw() % 1000, MOST_COUNT + 1 + draw() % 1000);
    add_srec_cat(3 + draw() % 2);
    add(" -obs=1");
    add_end(0);
    make();
    return refused(PPE42_REFUSED_RECORD, line_of('6'));
}

static void check_same(const char *name, const uint8_t *bytes, size_t len, const char *what) {
    if (read_file(name, other) != len || memcmp(other, bytes, len)) differs(what);
}

// What the library writes; it is then read as the others are.
static uint64_t by_the_library(void) {
    lend(any_length());
    add_piece(0, length);
    text_len = (size_t)79 * (length / 32) + 15;
    if (ppe42_srec_write(image, length, text, MOST_FILE) != text_len) differs("another number of bytes written");
    write_file("made", text, text_len);
    add("srec_cat piece0 -binary -o same -motorola -obs=32 -address-length=4 -disable=header -disable=data-count");
    add_end(0);
    run();
    check_same("same", text, text_len, "another text");
    add("srec_cat made -motorola -o back -binary");
    run();
    check_same("back", image, length, "other bytes back");
    add(OBJCOPY " -I srec -O binary made again");
    run();
    check_same("again", image, length, "other bytes back");
    return 0;
}

static struct way {
    const char *name;
    uint64_t (*make)(void);
    uint32_t share, files, of_type[3];
} ways[] = {
    {.share = 6, .make = by_srec_cat, .name = "by srec_cat: read"},
    {.share = 6, .make = by_objcopy, .name = "by objcopy: read"},
    {.share = 5, .make = by_both, .name = "by objcopy, of one by srec_cat: read"},
    {.share = 1, .make = across_64_kib, .name = "by srec_cat, an S1 that goes on behind FFFF: read"},
    {.share = 6, .make = by_the_library, .name = "written: srec_cat has the same text, it and objcopy the same bytes back"},
    {.share = 1, .make = without_end, .name = "by srec_cat, no end: refused with 16"},
    {.share = 1, .make = of_two_types, .name = "by srec_cat, S1 and S2: refused with 13"},
    {.share = 1, .make = with_another_end, .name = "by srec_cat, S1 and S8 or S2 and S9: refused with 16"},
    {.share = 1, .make = with_s6, .name = "by srec_cat, S6: refused with 13"},
};

static struct way *draw_way(void) {
    uint32_t all = 0;
    for (size_t i = 0; i < COUNT(ways); i++) all += ways[i].share;
    uint32_t left = draw() % all;
    struct way *way = ways;
    while (left >= way->share) left -= way++->share;
    return way;
}

// Memory must hold the pieces, or be as before if the file is refused.
static void check_reading(uint64_t answer) {
    char what[96];
    memcpy(memory, before, length);
    memcpy(wanted, before, length);
    for (uint32_t i = 0; i < piece_count && !answer; i++) memcpy(wanted + pieces[i].at, image + pieces[i].at, pieces[i].len);
    uint64_t found = ppe42_srec_read(memory, length, text, text_len);
    snprintf(what, sizeof what, "wanted refusal %" PRIu32 " at line %" PRIu32 ", got %" PRIu32 " at %" PRIu32,
             ppe42_refusal(answer), ppe42_count(answer), ppe42_refusal(found), ppe42_count(found));
    if (found != answer) differs(what);
    if (memcmp(memory, wanted, length)) differs("other bytes in memory");
}

static size_t try_file(void) {
    struct way *way = draw_way();
    piece_count = 0;
    check_reading(way->make());
    way->files++;
    for (int type = 0; type < 3; type++) way->of_type[type] += line_of((char)('1' + type)) != 0;
    return count_lines();
}

static int report(size_t lines) {
    printf("%8" PRIu32 " files, %zu lines\n", number, lines);
    for (const struct way *way = ways; way < ways + COUNT(ways); way++)
        printf("%8" PRIu32 " %s (S1 %" PRIu32 ", S2 %" PRIu32 ", S3 %" PRIu32 ")\n", way->files, way->name, way->of_type[0],
               way->of_type[1], way->of_type[2]);
    printf("%8" PRIu64 " differences\n", differences);
    return differences != 0;
}

static uint32_t plain_number(const char *digits) {
    char *end;
    unsigned long value = strtoul(digits, &end, 10);
    if (end == digits || *end || value > UINT32_MAX) stop("SEED and FILES are plain numbers", digits);
    return (uint32_t)value;
}

int main(int count, char **arguments) {
    if (count != 3) stop("usage", "compare SEED FILES");
    seed = ((uint64_t)plain_number(arguments[1]) + 1) * 0x9E3779B97F4A7C15;
    uint32_t files = plain_number(arguments[2]);
    size_t lines = 0;
    while (number < files) {
        number++;
        lines += try_file();
        if (number % PROGRESS) continue;
        printf("%8" PRIu32 " files so far\n", number);
        fflush(stdout);
    }
    return report(lines);
}
