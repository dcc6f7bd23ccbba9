// The library's reader of words against GNU objdump. ./run joins the two halves.
//   compare make [42x]    writes the words, big-endian
//   compare check [42x]   reads objdump's listing of them, and explains where the two differ
// With 42x the words are those that a 42X has otherwise than a 42, and it is the 42X that reads them.
// Everything here is written from Power ISA 2.07 and the manual. A word that no rule below explains is an error.
#include <inttypes.h>
#include <stdbool.h>
#include <stdint.h>
#include <stdio.h>
#include <stdlib.h>
#include <string.h>

#include "ppe42.h"

// A million words: 87 times 320 drawn, each with its 32 flips, and the rest of any kind. For the 42X: 8 times 320, and as many.
enum { DRAWN = 320, ANY = 81280, SHOWN = 20 };

#define BITS(from, to) (UINT32_MAX >> (from) & UINT32_MAX << (31 - (to)))
#define BIT(at) BITS(at, at)

static _Noreturn void stop(const char *why) {
    fprintf(stderr, "compare: %s\n", why);
    exit(2);
}

static uint32_t field(uint32_t word, int from, int to) { return (word & BITS(from, to)) >> (31 - to); }

// Which of the three places of a register hold one, whether D or A begins a pair, and what the ends of a mnemonic say.
enum { D = 1, A = 2, B = 4, PAIR = 8, PAIR_A = 16 };
enum ends { PLAIN, RC, OE_RC, LK, LK_AA };

// What a form restricts beyond registers, CR fields and reserved bits.
enum rule { NONE, LOAD_UPDATE, STORE_UPDATE, READ_SPR, WRITE_SPR, TRAP, TO_CTR, MOVE_CR, LOAD_FRAME, STORE_FRAME };

// A form: the bits that name the instruction beside its primary opcode, its registers, the bits of a CR field that must
// be 0, and its other operands. What is left over is reserved.
struct form { uint32_t named; int registers; uint32_t cr, operands; enum ends ends; enum rule rule; };

static const struct form
    SUM = {BITS(22, 30), D | A | B, 0, BIT(21) | BIT(31), OE_RC, NONE},
    SUM_ONE = {BITS(22, 30), D | A, 0, BIT(21) | BIT(31), OE_RC, NONE},
    IMMEDIATE = {0, D | A, 0, BITS(16, 31), PLAIN, NONE},
    LOADING = {0, D | A, 0, BITS(16, 31), PLAIN, LOAD_UPDATE},
    STORING = {0, D | A, 0, BITS(16, 31), PLAIN, STORE_UPDATE},
    PAIRED = {0, D | A | PAIR, 0, BITS(16, 31), PLAIN, NONE},
    PAIRED_LOADING = {0, D | A | PAIR, 0, BITS(16, 31), PLAIN, LOAD_UPDATE},
    PAIRED_STORING = {0, D | A | PAIR, 0, BITS(16, 31), PLAIN, STORE_UPDATE},
    COMPARE = {BITS(21, 30), A | B, BITS(6, 8), 0, PLAIN, NONE},
    COMPARE_TO = {0, A, BITS(6, 8), BITS(16, 31), PLAIN, NONE},
    LOGIC = {BITS(21, 30), D | A | B, 0, BIT(31), RC, NONE},
    LOGIC_ONE = {BITS(21, 30), D | A, 0, BIT(31), RC, NONE},
    SHIFT_BY = {BITS(21, 30), D | A, 0, BITS(16, 20) | BIT(31), RC, NONE},
    ROTATE = {0, D | A | B, 0, BITS(21, 31), RC, NONE},
    ROTATE_BY = {0, D | A, 0, BITS(16, 31), RC, NONE},
    INDEXED = {BITS(21, 30), D | A | B, 0, 0, PLAIN, NONE},
    BLOCK = {BITS(21, 30), A | B, 0, 0, PLAIN, NONE},
    FLUSH = {BITS(21, 30), A | B, 0, BITS(9, 10), PLAIN, NONE},
    TOUCH = {BITS(21, 30), A | B, 0, BITS(6, 10), PLAIN, NONE},
    BRANCH = {0, 0, 0, BITS(6, 31), LK_AA, NONE},
    BRANCH_IF = {0, 0, BITS(11, 13), BITS(6, 10) | BITS(14, 31), LK_AA, NONE},
    RETURN_IF = {BITS(21, 30), 0, BITS(11, 13), BITS(6, 10) | BITS(14, 15) | BITS(19, 20) | BIT(31), LK, NONE},
    TO_CTR_IF = {BITS(21, 30), 0, BITS(11, 13), BITS(6, 10) | BITS(14, 15) | BITS(19, 20) | BIT(31), LK, TO_CTR},
    ONE = {BITS(21, 30), D, 0, 0, PLAIN, NONE},
    ENABLE = {BITS(21, 30), 0, 0, BIT(16), PLAIN, NONE},
    BARE = {BITS(21, 30), 0, 0, 0, PLAIN, NONE},
    FROM_SPR = {BITS(21, 30), D, 0, BITS(11, 20), PLAIN, READ_SPR},
    TO_SPR = {BITS(21, 30), D, 0, BITS(11, 20), PLAIN, WRITE_SPR},
    TO_CR = {BITS(21, 30), D, 0, BITS(12, 19), PLAIN, MOVE_CR},
    TRAPPING = {BITS(21, 30), A | B, 0, BITS(6, 10) | BIT(31), PLAIN, TRAP},
    PAIR_ROTATED = {BITS(27, 29), D | A | PAIR | PAIR_A, 0, BITS(16, 26) | BITS(30, 31), RC, NONE},
    POPPING = {BITS(29, 30), D | A, 0, BITS(16, 28) | BIT(31), PLAIN, LOAD_FRAME},
    PUSHING = {BITS(29, 30), D | A, 0, BITS(16, 28) | BIT(31), PLAIN, STORE_FRAME};

// The 87 instructions by objdump's raw names, which say cmp, cmpl, cmpi, cmpli and mtcrf for cmpw, cmplw, cmpwi, cmplwi
// and mtcr0; then the 7 that a 42X has besides. Opcodes are Power ISA's but for the doublewords, which Table 1.68 has, and the
// frames, in Tables 1.69 and 1.71.
static const struct row { const char *name; uint32_t primary, extended; const struct form *form; } rows[] = {
    {"add", 31, 266, &SUM}, {"addc", 31, 10, &SUM}, {"adde", 31, 138, &SUM},
    {"subf", 31, 40, &SUM}, {"subfc", 31, 8, &SUM}, {"subfe", 31, 136, &SUM},
    {"addme", 31, 234, &SUM_ONE}, {"addze", 31, 202, &SUM_ONE}, {"neg", 31, 104, &SUM_ONE},
    {"subfme", 31, 232, &SUM_ONE}, {"subfze", 31, 200, &SUM_ONE},
    {"addi", 14, 0, &IMMEDIATE}, {"addic", 12, 0, &IMMEDIATE}, {"addic.", 13, 0, &IMMEDIATE},
    {"addis", 15, 0, &IMMEDIATE}, {"subfic", 8, 0, &IMMEDIATE}, {"andi.", 28, 0, &IMMEDIATE},
    {"andis.", 29, 0, &IMMEDIATE}, {"ori", 24, 0, &IMMEDIATE}, {"oris", 25, 0, &IMMEDIATE},
    {"xori", 26, 0, &IMMEDIATE}, {"xoris", 27, 0, &IMMEDIATE},
    {"lbz", 34, 0, &IMMEDIATE}, {"lhz", 40, 0, &IMMEDIATE}, {"lwz", 32, 0, &IMMEDIATE},
    {"stb", 38, 0, &IMMEDIATE}, {"sth", 44, 0, &IMMEDIATE}, {"stw", 36, 0, &IMMEDIATE},
    {"lbzu", 35, 0, &LOADING}, {"lhzu", 41, 0, &LOADING}, {"lwzu", 33, 0, &LOADING},
    {"stbu", 39, 0, &STORING}, {"sthu", 45, 0, &STORING}, {"stwu", 37, 0, &STORING},
    {"lvd", 5, 0, &PAIRED}, {"lvdu", 9, 0, &PAIRED_LOADING}, {"stvd", 6, 0, &PAIRED}, {"stvdu", 22, 0, &PAIRED_STORING},
    {"lbzx", 31, 87, &INDEXED}, {"lhzx", 31, 279, &INDEXED}, {"lwzx", 31, 23, &INDEXED},
    {"stbx", 31, 215, &INDEXED}, {"sthx", 31, 407, &INDEXED}, {"stwx", 31, 151, &INDEXED},
    {"dcbf", 31, 86, &FLUSH}, {"dcbi", 31, 470, &BLOCK}, {"dcbt", 31, 278, &TOUCH}, {"dcbz", 31, 1014, &BLOCK},
    {"cmp", 31, 0, &COMPARE}, {"cmpl", 31, 32, &COMPARE}, {"cmpi", 11, 0, &COMPARE_TO}, {"cmpli", 10, 0, &COMPARE_TO},
    {"and", 31, 28, &LOGIC}, {"andc", 31, 60, &LOGIC}, {"eqv", 31, 284, &LOGIC}, {"nand", 31, 476, &LOGIC},
    {"nor", 31, 124, &LOGIC}, {"or", 31, 444, &LOGIC}, {"orc", 31, 412, &LOGIC}, {"xor", 31, 316, &LOGIC},
    {"slw", 31, 24, &LOGIC}, {"sraw", 31, 792, &LOGIC}, {"srw", 31, 536, &LOGIC},
    {"mullhw", 4, 424, &LOGIC}, {"mullhwu", 4, 392, &LOGIC},
    {"cntlzw", 31, 26, &LOGIC_ONE}, {"extsb", 31, 954, &LOGIC_ONE}, {"extsh", 31, 922, &LOGIC_ONE},
    {"srawi", 31, 824, &SHIFT_BY}, {"rlwimi", 20, 0, &ROTATE_BY}, {"rlwinm", 21, 0, &ROTATE_BY},
    {"rlwnm", 23, 0, &ROTATE},
    {"b", 18, 0, &BRANCH}, {"bc", 16, 0, &BRANCH_IF}, {"bclr", 19, 16, &RETURN_IF}, {"bcctr", 19, 528, &TO_CTR_IF},
    {"mfcr", 31, 19, &ONE}, {"mfmsr", 31, 83, &ONE}, {"mtmsr", 31, 146, &ONE}, {"wrtee", 31, 131, &ONE},
    {"wrteei", 31, 163, &ENABLE}, {"rfi", 19, 50, &BARE}, {"sync", 31, 598, &BARE},
    {"mfspr", 31, 339, &FROM_SPR}, {"mtspr", 31, 467, &TO_SPR}, {"mtcrf", 31, 144, &TO_CR}, {"tw", 31, 4, &TRAPPING},
    {"mulli", 7, 0, &IMMEDIATE}, {"mullw", 31, 235, &SUM},
    {"rldicl", 30, 0, &PAIR_ROTATED}, {"rldicr", 30, 2, &PAIR_ROTATED}, {"rldimi", 30, 6, &PAIR_ROTATED},
    {"lsku", 58, 1, &POPPING}, {"stsku", 62, 1, &PUSHING},
};
enum { ROWS = sizeof rows / sizeof *rows };
_Static_assert(ROWS == 94, "87 instructions and 7");

// How many of the rows a core has, which of them words are drawn of, and every name that they can bear; tw is the 87th.
static const struct core { int rows, first, spellings; uint32_t (*legal)(uint32_t); }
    CORE_42 = {87, 0, 148, ppe42_legal},
    CORE_42X = {ROWS, 86, 161, ppe42x_legal};
static const struct core *core = &CORE_42;

static const struct row *row_of(uint32_t word) {
    for (const struct row *row = rows; row < rows + core->rows; row++)
        if (field(word, 0, 5) == row->primary && (word & row->form->named) == row->extended << 1) return row;
    return NULL;
}

// The name that the opcodes give the word, with its ends, or an empty one.
static void name(uint32_t word, char text[16]) {
    const struct row *row = row_of(word);
    text[0] = 0;
    if (!row) return;
    enum ends ends = row->form->ends;
    bool last = word & BIT(31);
    snprintf(text, 16, "%s%s%s%s%s", row->name, ends == OE_RC && word & BIT(21) ? "o" : "",
             (ends == RC || ends == OE_RC) && last ? "." : "", (ends == LK || ends == LK_AA) && last ? "l" : "",
             ends == LK_AA && word & BIT(30) ? "a" : "");
}

static char spellings[256][16];
static int spelled;

static bool is_spelling(const char *text) {
    for (int i = 0; i < spelled; i++)
        if (!strcmp(spellings[i], text)) return true;
    return false;
}

static void spell(void) {
    static const uint32_t ends[] = {0, BIT(21), BIT(30), BIT(31), BIT(21) | BIT(31), BIT(30) | BIT(31)};
    char text[16];
    for (const struct row *row = rows; row < rows + core->rows; row++)
        for (size_t i = 0; i < sizeof ends / sizeof *ends; i++) {
            name(row->primary << 26 | row->extended << 1 | (ends[i] & row->form->operands), text);
            if (is_spelling(text)) continue;
            if (spelled == core->spellings) stop("a name too many");
            strcpy(spellings[spelled++], text);
        }
    if (spelled != core->spellings) stop("a name is missing");
}

static bool register_is_here(uint32_t number) { return number <= 10 || number == 13 || number >= 28; }

// The second register of the pair that a register begins.
static uint32_t next(uint32_t number) { return (number + 1) % 32; }

static const uint16_t sprs[] = {1, 8, 9, 22, 26, 27, 61, 62, 272, 308, 316, 336, 340, 63, 286, 287};
enum { SPRS = sizeof sprs / sizeof *sprs, WRITTEN_SPRS = SPRS - 3 };

static bool spr_is_here(uint32_t word, int count) {
    uint32_t number = field(word, 16, 20) << 5 | field(word, 11, 15);
    for (int i = 0; i < count; i++)
        if (sprs[i] == number) return true;
    return false;
}

enum kind {
    // why the PPE 42 lacks a word that objdump names
    REGISTER, CR_FIELD, RESERVED, UPDATE, SPR, TO, BO_COUNTS, FXM,
    // why objdump does not name a word that the PPE 42 has
    TG, BO, HINT, DOUBLEWORD, FRAME,
    KINDS, NO_KIND = KINDS
};

static const char *const kinds[KINDS] = {
    [REGISTER] = "a register that the PPE 42 has not (8.3, restrictions in 9.4)",
    [CR_FIELD] = "a CR field other than CR0 (9.4.15 to 9.4.17, 9.4.22 to 9.4.27, D5, D6)",
    [RESERVED] = "a reserved bit (scope: The board; D1, D4, D6)",
    [UPDATE] = "an invalid update form (9.4.43, 9.4.50, 9.4.83, 9.4.87, 9.4.94, D9)",
    [SPR] = "an SPR that Table 1.34 lacks or has read-only (9.4.54, 9.4.57, D8)",
    [TO] = "tw with TO neither 0 nor 31 (9.4.103, D2)",
    [BO_COUNTS] = "bcctr with bit 2 of BO clear (9.4.16, D5)",
    [FXM] = "mtcrf of other than CR0 (9.4.55, D6)",
    [TG] = "tw with TG (Table 1.96, D2)",
    [BO] = "BO with bits that are ignored or only hint (9.4.15 to 9.4.17, D5)",
    [HINT] = "dcbf with hint bits (9.4.30, D3)",
    [DOUBLEWORD] = "a virtual doubleword, which the 405 has not (Table 1.68, D38)",
    [FRAME] = "lsku or stsku, which the 42X alone has (Table 1.69)",
};

static uint32_t reserved(const struct row *row) {
    const struct form *form = row->form;
    uint32_t used = BITS(0, 5) | form->named | form->cr | form->operands;
    if (form->registers & D) used |= BITS(6, 10);
    if (form->registers & A) used |= BITS(11, 15);
    if (form->registers & B) used |= BITS(16, 20);
    return ~used;
}

static bool registers_are_here(uint32_t word, int registers) {
    return (!(registers & D) || register_is_here(field(word, 6, 10))) &&
           (!(registers & PAIR) || register_is_here(next(field(word, 6, 10)))) &&
           (!(registers & A) || register_is_here(field(word, 11, 15))) &&
           (!(registers & PAIR_A) || register_is_here(next(field(word, 11, 15)))) &&
           (!(registers & B) || register_is_here(field(word, 16, 20)));
}

// Whether a frame has the displacement that its end has: at least one doubleword to pop, less than none to push.
static bool frame_fits(uint32_t word, bool popped) {
    uint32_t below_0 = field(word, 16, 16), doublewords = field(word, 17, 28);
    return popped ? !below_0 && doublewords : below_0;
}

// The restriction of the PPE 42 that a word of its opcodes breaks. On the 42X tw with TG has none.
static enum kind restriction(uint32_t word, const struct row *row) {
    const struct form *form = row->form;
    uint32_t d = field(word, 6, 10), a = field(word, 11, 15);
    if (core == &CORE_42X && form == &TRAPPING && word & BIT(31)) return NO_KIND;
    if (!registers_are_here(word, form->registers)) return REGISTER;
    if (word & form->cr) return CR_FIELD;
    if (word & reserved(row)) return RESERVED;
    switch (form->rule) {
    case LOAD_UPDATE: return a == 0 || a == d || (form->registers & PAIR && a == next(d)) ? UPDATE : NO_KIND;
    case STORE_UPDATE: return a == 0 ? UPDATE : NO_KIND;
    case READ_SPR: return spr_is_here(word, SPRS) ? NO_KIND : SPR;
    case WRITE_SPR: return spr_is_here(word, WRITTEN_SPRS) ? NO_KIND : SPR;
    case TRAP: return d == 0 || d == 31 ? NO_KIND : TO;
    case TO_CTR: return word & BIT(8) ? NO_KIND : BO_COUNTS;
    case MOVE_CR: return field(word, 12, 19) == 0x80 ? NO_KIND : FXM;
    case LOAD_FRAME:
    case STORE_FRAME: return d == a && a && word & BIT(31) && frame_fits(word, form->rule == LOAD_FRAME) ? NO_KIND : FRAME;
    default: return NO_KIND;
    }
}

// The bits of BO that Power ISA 2.07 calls a and z. To the 405 they must be 0; it knows one hint, in BO bit 4.
static uint32_t hints_of_bo(uint32_t word) {
    switch (word & (BIT(6) | BIT(8))) {
    case BIT(8): return word & BIT(9);
    case BIT(6): return word & BIT(7);
    case BIT(6) | BIT(8): return word & (BIT(7) | BITS(9, 10));
    default: return 0;
    }
}

// What objdump does not take in a legal word.
static enum kind leniency(uint32_t word, const struct row *row) {
    if (row->form == &TRAPPING && word & BIT(31)) return TG;
    if (row->form == &FLUSH && word & BITS(9, 10)) return HINT;
    if (row->form == &POPPING || row->form == &PUSHING) return FRAME;
    if (row->form->registers & PAIR && !(row->form->registers & PAIR_A)) return DOUBLEWORD;
    return row->form->cr == BITS(11, 13) && hints_of_bo(word) ? BO : NO_KIND;
}

static uint64_t seed = 42;

static uint32_t draw(void) {
    seed ^= seed << 13;
    seed ^= seed >> 7;
    seed ^= seed << 17;
    return (uint32_t)(seed >> 16);
}

// Most operands drawn are those that the PPE 42 takes, so that flipped bits make words that it only just lacks.
static bool mostly(void) { return draw() % 16; }

static uint32_t drawn_register(void) {
    uint32_t number = draw() % 32;
    while (mostly() && !register_is_here(number)) number = draw() % 32;
    return number;
}

static uint32_t drawn(const struct row *row) {
    const struct form *form = row->form;
    uint32_t word = row->primary << 26 | row->extended << 1 | (draw() & form->operands);
    if (form->registers & D) word |= drawn_register() << 21;
    if (form->registers & A) word |= drawn_register() << 16;
    if (form->registers & B) word |= drawn_register() << 11;
    if (!mostly()) return word;
    uint32_t spr = sprs[draw() % SPRS];
    switch (form->rule) {
    case READ_SPR:
    case WRITE_SPR: return (word & ~BITS(11, 20)) | (spr & 31) << 16 | spr >> 5 << 11;
    case TRAP: return draw() % 2 ? word | BITS(6, 10) : word & ~BITS(6, 10);
    case MOVE_CR: return (word & ~BITS(12, 19)) | BIT(12);
    case LOAD_FRAME: return (word & ~(BITS(6, 10) | BIT(16))) | field(word, 11, 15) << 21 | BIT(31);
    case STORE_FRAME: return (word & ~BITS(6, 10)) | field(word, 11, 15) << 21 | BIT(16) | BIT(31);
    default: return word;
    }
}

// The words of both halves: for each instruction some, each with every single bit flipped; then words of any kind.
static void each_word(void take(uint32_t word)) {
    for (const struct row *row = rows + core->first; row < rows + core->rows; row++)
        for (int i = 0; i < DRAWN; i++) {
            uint32_t word = drawn(row);
            take(word);
            for (int bit = 0; bit < 32; bit++) take(word ^ BIT(bit));
        }
    for (int i = 0; i < ANY; i++) take(draw());
}

static void write_word(uint32_t word) {
    for (int shift = 24; shift >= 0; shift -= 8) putchar((int)(word >> shift & 255));
}

// The name that the listing's next line gives the word.
static void listed(uint32_t word, char text[16]) {
    char line[256];
    unsigned byte[4];
    while (fgets(line, sizeof line, stdin))
        if (sscanf(line, "%*x: %x %x %x %x %15s", &byte[0], &byte[1], &byte[2], &byte[3], text) == 5) {
            if ((byte[0] << 24 | byte[1] << 16 | byte[2] << 8 | byte[3]) != word) stop("the listing has another word");
            return;
        }
    stop("the listing is too short");
}

static uint64_t words, both, neither, other, unexplained, found[KINDS];

// The library must also answer as the table above and its restrictions do, and objdump's name must be the opcodes' own.
static void check(uint32_t word) {
    char text[16], own[16];
    listed(word, text);
    name(word, own);
    const struct row *row = row_of(word);
    enum kind broken = row ? restriction(word, row) : NO_KIND;
    bool legal = core->legal(word), named = is_spelling(text);
    bool sound = legal == (row && broken == NO_KIND) && (!named || !strcmp(text, own));
    enum kind kind = sound && legal ? leniency(word, row) : broken;
    words++;
    if (!sound || (legal != named && kind == NO_KIND)) {
        if (unexplained++ < SHOWN)
            printf("%08" PRIX32 " is %s to the library and %s to objdump\n", word, legal ? "legal" : "illegal", text);
    } else if (legal != named) {
        found[kind]++;
    } else if (legal) {
        both++;
    } else if (strcmp(text, ".long")) {
        other++;
    } else {
        neither++;
    }
}

static int report(void) {
    printf("%8" PRIu64 " words\n", words);
    printf("%8" PRIu64 " legal, and objdump has the name that the opcodes give\n", both);
    printf("%8" PRIu64 " illegal, and objdump has no name\n", neither);
    printf("%8" PRIu64 " illegal, and objdump has the name of another instruction\n", other);
    int kinds_here = core == &CORE_42 ? FRAME : KINDS;
    for (int i = 0; i < kinds_here; i++)
        printf("%8" PRIu64 " %s: %s\n", found[i], i < TG ? "illegal, but named" : "legal, but not named", kinds[i]);
    printf("%8" PRIu64 " unexplained\n", unexplained);
    return unexplained != 0;
}

int main(int count, char **arguments) {
    bool make = count > 1 && !strcmp(arguments[1], "make");
    if (count == 3 && !strcmp(arguments[2], "42x")) core = &CORE_42X;
    else if (count != 2) stop("usage: compare make | check [42x]");
    if (!make && strcmp(arguments[1], "check")) stop("make or check");
    spell();
    each_word(make ? write_word : check);
    return make ? 0 : report();
}
