/* Captures good and bad, each with the number that the scope gives it: reading by ppe42_capture_check, writing by
 * ppe42_capture_write, and the same on the 42X. Expected refusals come from the refusal table alone. */
#include "ppe42.h"
#include <stdio.h>
#include <string.h>

static uint8_t file[PPE42_MOST + 32 + PPE42_TRAILER + 8];
static uint8_t copy[sizeof file];
static unsigned passed, failed;

/* The two cores: their functions, and the bits that 8.10 defines of the two registers in which they differ. */
static const struct core {
    const char *name;
    uint64_t (*check)(const uint8_t *, size_t);
    uint64_t (*write)(const uint8_t *, size_t, const uint8_t *, size_t, uint8_t *, size_t);
    uint32_t dbcr, tcr;
} CORES[] = {
    {"42", ppe42_capture_check, ppe42_capture_write, 0x318C0000, 0xFFC00000},
    {"42X", ppe42x_capture_check, ppe42x_capture_write, 0x318C00C7, 0xFFE00000},
};
static const struct core *core;

static void check(const char *what, uint64_t found, uint64_t wanted) {
    if (found == wanted) {
        passed++;
        return;
    }
    failed++;
    printf("%s: %s: wanted %llX, found %llX\n", core->name, what, (unsigned long long)wanted, (unsigned long long)found);
}

static uint64_t refused(enum ppe42_refused refusal) { return (uint64_t)refusal << 32; }

/* Reads the first len bytes of the file. Accepted, they have all but the trailer as their memory; refused, none. */
static void reads(const char *what, size_t len, enum ppe42_refused refusal) {
    check(what, core->check(file, len), refusal ? refused(refusal) : len - PPE42_TRAILER);
}

/* Word i of the three that follow the state, behind m bytes of memory. */
static void put_last(size_t m, int i, uint32_t word) { ppe42_put(file + m + PPE42_STATE, i, word); }

/* A capture of zeros with m bytes of memory; its length. */
static size_t blank(size_t m) {
    memset(file, 0, sizeof file);
    put_last(m, 0, PPE42_TRAILER);
    put_last(m, 1, (uint32_t)m);
    put_last(m, 2, 1);
    return m + PPE42_TRAILER;
}

/* The registers with reserved bits: which bits of each are defined (8.10), but for DBCR and TCR; IAR goes by its last two. */
static const struct {
    const char *name;
    uint32_t defined;
} REGISTERS[PPE42_WORDS] = {
    [PPE42_CR] = {"CR", 0xF0000000},     [PPE42_DBCR] = {"DBCR", 0}, [PPE42_ISR] = {"ISR", 0x0000F4CF},
    [PPE42_IVPR] = {"IVPR", 0xFFFFFE00}, [PPE42_MSR] = {"MSR", 0x7FFF9DFF},   [PPE42_PIR] = {"PIR", 0x0000FFFF},
    [PPE42_SRR0] = {"SRR0", 0xFFFFFFFC}, [PPE42_SRR1] = {"SRR1", 0x7FFF9DFF}, [PPE42_TCR] = {"TCR", 0},
    [PPE42_TSR] = {"TSR", 0xFC000000},   [PPE42_XER] = {"XER", 0xE0000000},   [PPE42_IAR] = {"IAR", 0xFFFFFFFC},
};

static void lengths(void) {
    reads("187 bytes", blank(32) - 1, PPE42_REFUSED_CAPTURE);
    reads("no bytes", 0, PPE42_REFUSED_CAPTURE);
    reads("M 0 is too short", blank(0), PPE42_REFUSED_CAPTURE);
    for (size_t m = 32; m <= 128; m++) reads("M 32 to 128", blank(m), m % 32 ? PPE42_REFUSED_MEMORY : PPE42_ACCEPTED);
    reads("M 1,048,576", blank(PPE42_MOST), PPE42_ACCEPTED);
    reads("M 1,048,608", blank(PPE42_MOST + 32), PPE42_REFUSED_MEMORY);
    reads("truncated by a word", blank(64) - 4, PPE42_REFUSED_CAPTURE);
    reads("a byte too many", blank(64) + 1, PPE42_REFUSED_CAPTURE);
}

static void trailers(void) {
    static const uint32_t right[3] = {156, 64, 1};
    for (int i = 0; i < 3; i++)
        for (int bit = 0; bit < 32; bit++) {
            size_t len = blank(64);
            put_last(64, i, right[i] ^ 1u << bit);
            reads("a trailer bit turned", len, PPE42_REFUSED_CAPTURE);
        }
}

static uint32_t defined(int place) {
    return place == PPE42_DBCR ? core->dbcr : place == PPE42_TCR ? core->tcr : REGISTERS[place].defined;
}

/* The refusal of a state that is 0 but for one bit of one word, which is not the halt code. */
static enum ppe42_refused of_bit(int place, uint32_t bit) {
    if (!REGISTERS[place].name || bit & defined(place)) return PPE42_ACCEPTED;
    return place == PPE42_IAR ? PPE42_REFUSED_IAR : PPE42_REFUSED_RESERVED;
}

static void reserved(void) {
    for (int place = 0; place < PPE42_HALT; place++)
        for (uint32_t bit = 1; bit; bit <<= 1) {
            size_t len = blank(32);
            ppe42_put(file + 32, place, bit);
            reads(REGISTERS[place].name ? REGISTERS[place].name : "a whole register", len, of_bit(place, bit));
        }
    for (uint32_t halt = PPE42_NOT_HALTED; halt < 8; halt++) {
        size_t len = blank(32);
        ppe42_put(file + 32, PPE42_HALT, halt);
        reads("halt code", len, halt > PPE42_HALT_RESET ? PPE42_REFUSED_RESERVED : PPE42_ACCEPTED);
    }
    size_t len = blank(32);
    ppe42_put(file + 32, PPE42_IAR, 2), ppe42_put(file + 32, PPE42_XER, 1);
    reads("2 before 3", len, PPE42_REFUSED_IAR);
    len = blank(48);
    ppe42_put(file + 48, PPE42_IAR, 2);
    reads("1 before 2", len, PPE42_REFUSED_MEMORY);
}

static void writing(void) {
    size_t len = blank(96);
    uint8_t *state = file + 96;
    for (size_t i = 0; i < 96; i++) file[i] = (uint8_t)(i * 7 + 1);
    for (int i = PPE42_R0; i <= PPE42_R31; i++) ppe42_put(state, i, 0x01020304u * (uint32_t)(i + 1));
    memset(copy, 0xA5, sizeof copy);
    check("written", core->write(state, PPE42_STATE, file, 96, copy, len + 3), len);
    check("the same bytes", (uint64_t)memcmp(copy, file, len), 0);
    check("no byte more", copy[len] == 0xA5 && copy[len + 1] == 0xA5 && copy[len + 2] == 0xA5, 1);
    check("read back", core->check(copy, len), 96);
    memset(copy, 0xA5, sizeof copy);
    check("a byte too short", core->write(state, PPE42_STATE, file, 96, copy, len - 1),
          refused(PPE42_REFUSED_OUTPUT));
    check("nothing stored", copy[0] == 0xA5 && copy[len - 2] == 0xA5, 1);
    check("143 bytes of state", core->write(state, PPE42_STATE - 1, file, 96, copy, len),
          refused(PPE42_REFUSED_CAPTURE));
    check("M 95", core->write(state, PPE42_STATE, file, 95, copy, len), refused(PPE42_REFUSED_MEMORY));
    ppe42_put(state, PPE42_IAR, 1);
    check("IAR 1", core->write(state, PPE42_STATE, file, 96, copy, len), refused(PPE42_REFUSED_IAR));
    ppe42_put(state, PPE42_IAR, 0), ppe42_put(state, PPE42_XER, 1);
    check("XER 1", core->write(state, PPE42_STATE, file, 96, copy, len), refused(PPE42_REFUSED_RESERVED));
}

/* A state with every bit of DBCR and TCR that the 42X defines, at rest in a capture: the 42 has no such state. */
static void of_the_other(void) {
    enum ppe42_refused refusal = core->dbcr == CORES[1].dbcr ? PPE42_ACCEPTED : PPE42_REFUSED_RESERVED;
    size_t len = blank(32);
    uint8_t *state = file + 32;
    ppe42_put(state, PPE42_DBCR, CORES[1].dbcr), ppe42_put(state, PPE42_TCR, CORES[1].tcr);
    reads("all that the 42X defines", len, refusal);
    memset(copy, 0xA5, sizeof copy);
    check("all that the 42X defines, written", core->write(state, PPE42_STATE, file, 32, copy, len),
          refusal ? refused(refusal) : len);
    if (refusal) check("nothing of it stored", copy[0] == 0xA5 && copy[len - 1] == 0xA5, 1);
    else check("all of it stored", (uint64_t)memcmp(copy, file, len), 0);
}

int main(void) {
    for (core = CORES; core < CORES + sizeof CORES / sizeof *CORES; core++) {
        lengths();
        trailers();
        reserved();
        writing();
        of_the_other();
    }
    printf("captures: %u right, %u wrong\n", passed, failed);
    return failed != 0;
}
