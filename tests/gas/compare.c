// The line assembler against GNU as, on lines drawn from a seed. ./run joins the halves.
//   compare make SEED LINES    writes the lines as as reads them
//   compare check SEED LINES   reads as's words, big-endian, and compares them with those of the same lines in our spelling
//   compare plain SEED LINES   writes lines of plain operands that both read, for ./speed
// The table is from the syntax lines of 9.4; nothing here works out a word.
#include <inttypes.h>
#include <stdarg.h>
#include <stdbool.h>
#include <stdint.h>
#include <stdio.h>
#include <stdlib.h>
#include <string.h>

#include "ppe42.h"

enum { LONGEST = 256, ROOM = 4096, OUTPUT = 64, DEEPEST = 15, SHOWN = 20 };

// What stands in the third column: each of these letters is an operand, everything else is itself.
//   r register   z register or a lone 0   b base of an update store, not r0   l base of an update load, nor the first operand
//   s -32768 to 32767   u 0 to 65535   h 0 to 31   o BO   c BO of bcctr   i BI   t TO   e E   m SPRN read   n SPRN written
//   w target, 26 bits   y target, 16 bits; W and Y relative ones   p first register of a pair   q 0 to 63
// Where the second column has a text, as gets that in place of the spelling and its space.
//
// What as lacks, reads otherwise or refuses:
//   lvd, lvdu, stvd, stvdu   not here: no other PowerPC has them; nor lsku and stsku
//   mtcr0 RS                 as has it by no name: mtcrf 128,RS
//   b, bl, bc, bcl           as wants the address of the target: .+(N)
//   BO 6, 7, 14, 15, 24-27   as takes them for later processors than the 405, so its machine is set for that line
//   BO 21-23, 28-31          not here: as refuses them, for bits that Power ISA ignores
//   r0 for (RA|0)            as warns of it: it gets 0
//   leading zeros            as knows no r04, and 010 is eight to it: it gets the number without
//   rldicl, rldicr, rldimi   as has them for processors of 64 bits, so its machine is set for that line
// Lines that the library refuses are not drawn. The last rows are a 42X's; on the 42 their lines are outside the grammar.
static const struct row { const char *ours, *theirs, *operands; } rows[] = {
    {"add", 0, "r,r,r"}, {"add.", 0, "r,r,r"}, {"addo", 0, "r,r,r"}, {"addo.", 0, "r,r,r"},
    {"addc", 0, "r,r,r"}, {"addc.", 0, "r,r,r"}, {"addco", 0, "r,r,r"}, {"addco.", 0, "r,r,r"},
    {"adde", 0, "r,r,r"}, {"adde.", 0, "r,r,r"}, {"addeo", 0, "r,r,r"}, {"addeo.", 0, "r,r,r"},
    {"addi", 0, "r,z,s"}, {"addic", 0, "r,r,s"}, {"addic.", 0, "r,r,s"}, {"addis", 0, "r,z,s"},
    {"addme", 0, "r,r"}, {"addme.", 0, "r,r"}, {"addmeo", 0, "r,r"}, {"addmeo.", 0, "r,r"},
    {"addze", 0, "r,r"}, {"addze.", 0, "r,r"}, {"addzeo", 0, "r,r"}, {"addzeo.", 0, "r,r"},
    {"and", 0, "r,r,r"}, {"and.", 0, "r,r,r"}, {"andc", 0, "r,r,r"}, {"andc.", 0, "r,r,r"},
    {"andi.", 0, "r,r,u"}, {"andis.", 0, "r,r,u"},
    {"b", 0, "W"}, {"bl", 0, "W"}, {"ba", 0, "w"}, {"bla", 0, "w"},
    {"bc", 0, "o,i,Y"}, {"bcl", 0, "o,i,Y"}, {"bca", 0, "o,i,y"}, {"bcla", 0, "o,i,y"},
    {"bcctr", 0, "c,i"}, {"bcctrl", 0, "c,i"}, {"bclr", 0, "o,i"}, {"bclrl", 0, "o,i"},
    {"cmplw", 0, "r,r"}, {"cmplwi", 0, "r,u"}, {"cmpw", 0, "r,r"}, {"cmpwi", 0, "r,s"},
    {"cntlzw", 0, "r,r"}, {"cntlzw.", 0, "r,r"},
    {"dcbf", 0, "z,r"}, {"dcbi", 0, "z,r"}, {"dcbt", 0, "z,r"}, {"dcbz", 0, "z,r"},
    {"eqv", 0, "r,r,r"}, {"eqv.", 0, "r,r,r"},
    {"extsb", 0, "r,r"}, {"extsb.", 0, "r,r"}, {"extsh", 0, "r,r"}, {"extsh.", 0, "r,r"},
    {"lbz", 0, "r,s(z)"}, {"lbzu", 0, "r,s(l)"}, {"lbzx", 0, "r,z,r"},
    {"lhz", 0, "r,s(z)"}, {"lhzu", 0, "r,s(l)"}, {"lhzx", 0, "r,z,r"},
    {"lwz", 0, "r,s(z)"}, {"lwzu", 0, "r,s(l)"}, {"lwzx", 0, "r,z,r"},
    {"mfcr", 0, "r"}, {"mfmsr", 0, "r"}, {"mfspr", 0, "r,m"}, {"mtcr0", "mtcrf 128,", "r"}, {"mtmsr", 0, "r"},
    {"mtspr", 0, "n,r"},
    {"mullhw", 0, "r,r,r"}, {"mullhw.", 0, "r,r,r"}, {"mullhwu", 0, "r,r,r"}, {"mullhwu.", 0, "r,r,r"},
    {"nand", 0, "r,r,r"}, {"nand.", 0, "r,r,r"},
    {"neg", 0, "r,r"}, {"neg.", 0, "r,r"}, {"nego", 0, "r,r"}, {"nego.", 0, "r,r"},
    {"nor", 0, "r,r,r"}, {"nor.", 0, "r,r,r"}, {"or", 0, "r,r,r"}, {"or.", 0, "r,r,r"},
    {"orc", 0, "r,r,r"}, {"orc.", 0, "r,r,r"}, {"ori", 0, "r,r,u"}, {"oris", 0, "r,r,u"},
    {"rfi", 0, ""},
    {"rlwimi", 0, "r,r,h,h,h"}, {"rlwimi.", 0, "r,r,h,h,h"}, {"rlwinm", 0, "r,r,h,h,h"}, {"rlwinm.", 0, "r,r,h,h,h"},
    {"rlwnm", 0, "r,r,r,h,h"}, {"rlwnm.", 0, "r,r,r,h,h"},
    {"slw", 0, "r,r,r"}, {"slw.", 0, "r,r,r"}, {"sraw", 0, "r,r,r"}, {"sraw.", 0, "r,r,r"},
    {"srawi", 0, "r,r,h"}, {"srawi.", 0, "r,r,h"}, {"srw", 0, "r,r,r"}, {"srw.", 0, "r,r,r"},
    {"stb", 0, "r,s(z)"}, {"stbu", 0, "r,s(b)"}, {"stbx", 0, "r,z,r"},
    {"sth", 0, "r,s(z)"}, {"sthu", 0, "r,s(b)"}, {"sthx", 0, "r,z,r"},
    {"stw", 0, "r,s(z)"}, {"stwu", 0, "r,s(b)"}, {"stwx", 0, "r,z,r"},
    {"subf", 0, "r,r,r"}, {"subf.", 0, "r,r,r"}, {"subfo", 0, "r,r,r"}, {"subfo.", 0, "r,r,r"},
    {"subfc", 0, "r,r,r"}, {"subfc.", 0, "r,r,r"}, {"subfco", 0, "r,r,r"}, {"subfco.", 0, "r,r,r"},
    {"subfe", 0, "r,r,r"}, {"subfe.", 0, "r,r,r"}, {"subfeo", 0, "r,r,r"}, {"subfeo.", 0, "r,r,r"},
    {"subfic", 0, "r,r,s"},
    {"subfme", 0, "r,r"}, {"subfme.", 0, "r,r"}, {"subfmeo", 0, "r,r"}, {"subfmeo.", 0, "r,r"},
    {"subfze", 0, "r,r"}, {"subfze.", 0, "r,r"}, {"subfzeo", 0, "r,r"}, {"subfzeo.", 0, "r,r"},
    {"sync", 0, ""}, {"tw", 0, "t,r,r"}, {"wrtee", 0, "r"}, {"wrteei", 0, "e"},
    {"xor", 0, "r,r,r"}, {"xor.", 0, "r,r,r"}, {"xori", 0, "r,r,u"}, {"xoris", 0, "r,r,u"},
    {"mulli", 0, "r,r,s"}, {"mullw", 0, "r,r,r"}, {"mullw.", 0, "r,r,r"}, {"mullwo", 0, "r,r,r"}, {"mullwo.", 0, "r,r,r"},
    {"rldicl", 0, "p,p,q,q"}, {"rldicl.", 0, "p,p,q,q"}, {"rldicr", 0, "p,p,q,q"}, {"rldicr.", 0, "p,p,q,q"},
    {"rldimi", 0, "p,p,q,q"}, {"rldimi.", 0, "p,p,q,q"},
};
enum { ROWS = sizeof rows / sizeof *rows, OF_42 = 144 };
_Static_assert(ROWS == OF_42 + 11, "9.4 has 144 spellings beside the doublewords, and 11 of a 42X beside the frames");

static const uint16_t registers[] = {0, 1, 2, 3, 4, 5, 6, 7, 8, 9, 10, 13, 28, 29, 30, 31};
static const uint16_t firsts[] = {0, 1, 2, 3, 4, 5, 6, 7, 8, 9, 28, 29, 30, 31};
static const uint16_t options[] = {0, 1, 2, 3, 4, 5, 8, 9, 10, 11, 12, 13, 16, 17, 18, 19, 20, 6, 7, 14, 15, 24, 25, 26, 27};
static const uint16_t options_to_ctr[] = {4, 5, 12, 13, 20, 6, 7, 14, 15};
static const uint16_t sprs[] = {1, 8, 9, 22, 26, 27, 61, 62, 272, 308, 316, 336, 340, 63, 286, 287};
enum { WRITTEN_SPRS = sizeof sprs / sizeof *sprs - 3 };
#define COUNT(list) (sizeof(list) / sizeof *(list))

static _Noreturn void stop(const char *why) {
    fprintf(stderr, "compare: %s\n", why);
    exit(2);
}

static uint64_t seed;

static uint32_t draw(void) {
    seed ^= seed << 13;
    seed ^= seed >> 7;
    seed ^= seed << 17;
    return (uint32_t)(seed >> 16);
}

static int32_t among(const uint16_t *list, size_t count) { return list[draw() % count]; }

// A line in both spellings, and whether as needs a later machine for it and a 42X has it alone.
struct text { char bytes[ROOM]; size_t len; };
static struct text ours, theirs;
static bool plain, later_machine, of_42x;

__attribute__((format(printf, 2, 3))) static void add(struct text *text, const char *form, ...) {
    va_list values;
    va_start(values, form);
    text->len += (size_t)vsnprintf(text->bytes + text->len, ROOM - text->len, form, values);
    va_end(values);
    if (text->len >= ROOM) stop("no room for a line");
}

static void add_both(const char *bytes) {
    add(&ours, "%s", bytes);
    add(&theirs, "%s", bytes);
}

// Now and then zeros that only we read as nothing.
static const char *zeros(void) {
    static const char *const some[] = {"0", "00", "0000000", "000000000000000000000000"};
    return plain || draw() % 4 ? "" : some[draw() % COUNT(some)];
}

static void add_register(int32_t number) {
    add(&ours, "r%s%" PRId32, zeros(), number);
    add(&theirs, "r%" PRId32, number);
}

static void add_register_or_0(int32_t number) {
    if (number) {
        add_register(number);
    } else if (plain || draw() % 2) {
        add_both("0");
    } else {
        add(&ours, "r%s0", zeros());
        add(&theirs, "0");
    }
}

static void add_number(int32_t value) {
    static const char *const forms[] = {"%s%s%" PRId32, "%s%s%" PRIx32, "%s%s%" PRIX32};
    int form = plain ? 0 : (int)(draw() % COUNT(forms));
    const char *base = form ? "0x" : "";
    add(&ours, forms[form], base, zeros(), value);
    add(&theirs, forms[form], base, "", value);
}

static bool fits(int64_t value) { return value >= -INT32_MAX && value <= INT32_MAX; }

// Expressions of a given value, with so many brackets and minuses open at once, and one more for a number below 0.
static void add_sum(int32_t value, int depth);

static void add_factor(int32_t value, int depth) {
    uint32_t kind = depth ? draw() % 4 : 0;
    if (kind == 1) {
        add_both("(");
        add_sum(value, depth - 1);
        add_both(")");
    } else if (kind == 2 || value < 0) {
        add_both("-");
        if (depth) add_factor(-value, depth - 1);
        else add_number(-value);
    } else {
        add_number(value);
    }
}

static void add_product(int32_t value, int depth) {
    static const int8_t small[] = {1, -1, 2, -2, 3, -3, 4, -4, 5, 7, 8, 16, -16, 100};
    int32_t by = value ? small[draw() % COUNT(small)] : 0;
    if (!depth || draw() % 3 || (by && value % by)) {
        add_factor(value, depth);
        return;
    }
    add_product(by ? value / by : (int32_t)(draw() >> 4), depth - 1);
    add_both("*");
    add_factor(by, depth - 1);
}

static void add_sum(int32_t value, int depth) {
    uint32_t bits = draw();
    int32_t left = (int32_t)(bits >> draw() % 31);
    bool minus = draw() % 2;
    int64_t right = minus ? (int64_t)left - value : (int64_t)value - left;
    if (!depth || draw() % 3 || !fits(left) || !fits(right)) {
        add_product(value, depth);
        return;
    }
    add_sum(left, depth - 1);
    add_both(minus ? "-" : "+");
    add_product((int32_t)right, depth - 1);
}

static void add_value(int32_t value) {
    bool bare = plain || draw() % 2;
    if (bare && value < 0) add_both("-");
    if (bare) add_number(value < 0 ? -value : value);
    else add_sum(value, (int)(draw() % 4 ? draw() % 5 : draw() % (DEEPEST + 1)));
}

// A value from one to another, now and then an end of them.
static int32_t between(int32_t low, int32_t high) {
    switch (draw() % 16) {
    case 0: return low;
    case 1: return high;
    default: return low + (int32_t)(draw() % ((uint32_t)(high - low) + 1));
    }
}

static void add_target(int32_t reach, bool relative) {
    if (relative) add(&theirs, ".+(");
    add_value(4 * between(-reach, reach - 1));
    if (relative) add(&theirs, ")");
}

static void add_option(const uint16_t *list, size_t count) {
    int32_t option = among(list, count);
    later_machine = (option & 0x16) == 6 || option > 20;
    add_value(option);
}

static int32_t base_of_update(int32_t taken) {
    int32_t base = 0;
    while (!base || base == taken) base = among(registers, COUNT(registers));
    return base;
}

static void add_operands(const char *operands) {
    int32_t drawn, first = -1;
    for (; *operands; operands++) {
        switch (*operands) {
        case 'r':
            drawn = among(registers, COUNT(registers));
            if (first < 0) first = drawn;
            add_register(drawn);
            break;
        case 'p':
            later_machine = true;
            add_register(among(firsts, COUNT(firsts)));
            break;
        case 'q': add_value(between(0, 63)); break;
        case 'z': add_register_or_0(among(registers, COUNT(registers))); break;
        case 'b': add_register(base_of_update(0)); break;
        case 'l': add_register(base_of_update(first)); break;
        case 's': add_value(between(INT16_MIN, INT16_MAX)); break;
        case 'u': add_value(between(0, UINT16_MAX)); break;
        case 'h': add_value(between(0, 31)); break;
        case 'o': add_option(options, COUNT(options)); break;
        case 'c': add_option(options_to_ctr, COUNT(options_to_ctr)); break;
        case 'i': add_value(between(0, 3)); break;
        case 't': add_value(draw() % 2 ? 31 : 0); break;
        case 'e': add_value(draw() % 2); break;
        case 'm': add_value(among(sprs, COUNT(sprs))); break;
        case 'n': add_value(among(sprs, WRITTEN_SPRS)); break;
        case 'w':
        case 'W': add_target(1 << 23, *operands == 'W'); break;
        case 'y':
        case 'Y': add_target(1 << 13, *operands == 'Y'); break;
        default: add_both((char[]){*operands, 0});
        }
    }
}

static void write_line(const struct row *row) {
    ours.len = theirs.len = 0;
    later_machine = false;
    of_42x = row >= rows + OF_42;
    add(&ours, "%s%s", row->ours, *row->operands ? " " : "");
    if (row->theirs) add(&theirs, "%s", row->theirs);
    else add(&theirs, "%s", ours.bytes);
    add_operands(row->operands);
}

// The lines of both halves: one of each spelling in turn; plain ones are the 42's.
static void each_line(uint32_t lines, void take(void)) {
    for (uint32_t i = 0; i < lines; i++) {
        do write_line(&rows[i % (plain ? OF_42 : ROWS)]);
        while (ours.len > LONGEST);
        take();
    }
}

static void make(void) {
    if (later_machine) printf(".machine \"power4\"; %s; .machine \"405\"\n", theirs.bytes);
    else puts(theirs.bytes);
}

// A line that as can only read in another spelling is left out.
static void make_plain(void) {
    if (!later_machine && !strcmp(ours.bytes, theirs.bytes)) puts(ours.bytes);
}

static uint64_t compared, other_word, not_back, longest;

static uint32_t listed(void) {
    uint8_t bytes[4];
    if (fread(bytes, 1, 4, stdin) != 4) stop("as has fewer words than lines");
    return (uint32_t)bytes[0] << 24 | (uint32_t)bytes[1] << 16 | (uint32_t)bytes[2] << 8 | bytes[3];
}

// The functions of a core.
struct core {
    const char *name;
    uint64_t (*assemble)(const uint8_t *, size_t);
    uint64_t (*disassemble)(uint32_t, uint8_t *, size_t);
};
static const struct core CORE_42 = {"42", ppe42_assemble, ppe42_disassemble};
static const struct core CORE_42X = {"42X", ppe42x_assemble, ppe42x_disassemble};

static void check_on(const struct core *core, uint32_t word) {
    uint8_t line[OUTPUT];
    uint64_t found = core->assemble((const uint8_t *)ours.bytes, ours.len);
    if (found != word && other_word++ < SHOWN)
        printf("%s: as has %08" PRIX32 " for %s, the library's %s %016" PRIX64 "\n", ours.bytes, word, theirs.bytes, core->name,
               found);
    uint64_t written = core->disassemble(word, line, OUTPUT);
    uint64_t len = written - ((uint64_t)1 << 32);
    if ((len > OUTPUT || core->assemble(line, len) != word) && not_back++ < SHOWN)
        printf("%08" PRIX32 " is disassembled to %016" PRIX64 " by the %s, no line that gives it back\n", word, written,
               core->name);
}

static void check_lacks(uint32_t word) {
    uint8_t line[OUTPUT];
    uint64_t found = ppe42_assemble((const uint8_t *)ours.bytes, ours.len);
    if (ppe42_line_refusal(found) == PPE42_REFUSED_LINE && !ppe42_disassemble(word, line, OUTPUT)) return;
    if (other_word++ < SHOWN) printf("%s: the 42 has it, %016" PRIX64 "\n", ours.bytes, found);
}

static void check(void) {
    uint32_t word = listed();
    compared++;
    if (ours.len > longest) longest = ours.len;
    check_on(&CORE_42X, word);
    if (of_42x) check_lacks(word);
    else check_on(&CORE_42, word);
}

static int report(void) {
    if (getchar() != EOF) stop("as has more words than lines");
    printf("%8" PRIu64 " lines of %d spellings, the longest of %" PRIu64 " bytes\n", compared, ROWS, longest);
    printf("%8" PRIu64 " with another word than as gives\n", other_word);
    printf("%8" PRIu64 " of as's words whose own line does not give the word again\n", not_back);
    return other_word || not_back;
}

static uint32_t number(const char *text) {
    char *end;
    unsigned long value = strtoul(text, &end, 10);
    if (end == text || *end || value > UINT32_MAX) stop("SEED and LINES are plain numbers");
    return (uint32_t)value;
}

int main(int count, char **arguments) {
    if (count != 4) stop("usage: compare make | check | plain, SEED, LINES");
    plain = !strcmp(arguments[1], "plain");
    bool checks = !strcmp(arguments[1], "check");
    if (!plain && !checks && strcmp(arguments[1], "make")) stop("make, check or plain");
    seed = ((uint64_t)number(arguments[2]) + 1) * 0x9E3779B97F4A7C15;
    each_line(number(arguments[3]), plain ? make_plain : checks ? check : make);
    return checks ? report() : 0;
}
