/* The bench core from C: link the archive that ./library writes. docs/CORE.md says what the core does; this says what a
 * caller lends and gets.
 *
 * Each function answers what the proved operations answer. All that is decided here is that a state of other than 144 bytes
 * gets refusal 7, before every other check (from ppe42_access 0, as every refusal there), and how a line number is told that
 * has no room in 32 bits (ppe42_srec_read).
 *
 * - Memory is lent: memory_len bytes at the core's addresses 0 to memory_len - 1, big-endian. Its length is a multiple of 32,
 *   from 32 to 1,048,576.
 * - A state is 36 big-endian words, 144 bytes, in the order of enum ppe42_place.
 * - An event byte belongs to a step and says what comes from outside in it, its values added: 1 external request level,
 *   2 decrementer input, 4, 8, 16 and 32 timer inputs 0 to 3. Step i of a run, from 0, takes byte i of its list; past the end
 *   of the list the byte is 0, so an empty list is a run without events. The list may be longer than the budget, and its
 *   bytes past the budget are checked like the others.
 * - A halted state (halt code 1 to 5) is accepted, takes no step and stays as it is. Budget 0 takes no step either.
 * - A refusal counts 0 (from ppe42_srec_read a line) and leaves every byte as given.
 *
 * The functions keep nothing between calls and allocate nothing. They may run side by side on buffers of their own. The
 * buffers of one call must not overlap. An empty buffer may have any pointer, a null one too. From now on functions are
 * added to this header, and none that stands in it changes. */
#ifndef PPE42_H
#define PPE42_H

#include <stddef.h>
#include <stdint.h>

#ifdef __cplusplus
extern "C" {
#endif

enum {
    PPE42_STATE = 144,   /* bytes of a state */
    PPE42_TRAILER = 156, /* bytes of a capture after its memory: the state and, after that, three words */
    PPE42_BLOCK = 32,    /* a memory's length is a multiple of this, and no less */
    PPE42_MOST = 1048576 /* most bytes of memory, steps of a budget, bytes of an event list */
};

/* The words of a state in their order. Behind a register are its defined bits, where it has reserved ones; a state with a
 * reserved bit set is refused with 3. */
enum ppe42_place {
    PPE42_R0,
    PPE42_R1,
    PPE42_R2,
    PPE42_R3,
    PPE42_R4,
    PPE42_R5,
    PPE42_R6,
    PPE42_R7,
    PPE42_R8,
    PPE42_R9,
    PPE42_R10,
    PPE42_R13,
    PPE42_R28,
    PPE42_R29,
    PPE42_R30,
    PPE42_R31,
    PPE42_CR, /* F0000000 */
    PPE42_CTR,
    PPE42_DACR,
    PPE42_DBCR, /* 318C0000; of a 42X 318C00C7 */
    PPE42_DEC,
    PPE42_EDR,
    PPE42_ISR,  /* 0000F4CF */
    PPE42_IVPR, /* FFFFFE00 */
    PPE42_LR,
    PPE42_MSR, /* 7FFF9DFF */
    PPE42_PIR, /* 0000FFFF */
    PPE42_PVR,
    PPE42_SPRG0,
    PPE42_SRR0, /* FFFFFFFC */
    PPE42_SRR1, /* 7FFF9DFF */
    PPE42_TCR,  /* FFC00000; of a 42X FFE00000 */
    PPE42_TSR,  /* FC000000 */
    PPE42_XER,  /* E0000000 */
    PPE42_IAR,  /* a multiple of 4, or refusal 2 */
    PPE42_HALT, /* enum ppe42_halt; over 5 is refusal 3 */
    PPE42_WORDS
};

/* Why a core halted. */
enum ppe42_halt {
    PPE42_NOT_HALTED = 0,
    PPE42_HALT_MACHINE_CHECK = 1, /* a fault with MSR[UIE] and MSR[ME] zero */
    PPE42_HALT_DEBUG = 2,         /* DBCR[RST] written 11 */
    PPE42_HALT_TRAP = 3,          /* a trap with DBCR[TRAP] set */
    PPE42_HALT_WATCHDOG = 4,      /* the watchdog's halt */
    PPE42_HALT_RESET = 5          /* a reset asked for by DBCR[RST] or the watchdog; the bench does not reset */
};

/* Why input was refused. A run checks 7 (the state's length), 1, 2, 3, 4, 5 and a step 7, 1, 2, 3, 5; reading a capture
 * checks 7, 1, 2, 3 and writing one 7, 1, 2, 3, 8. Assembling a line checks 11, 12, 6, and disassembling a word 8. Reading
 * S-records checks 1, then each line for 13, 14, 15, 16, 17, and writing them 1, 8. The first that applies is given. */
enum ppe42_refused {
    PPE42_ACCEPTED = 0,
    PPE42_REFUSED_MEMORY = 1,   /* memory of 0 bytes, of no multiple of 32, or over 1,048,576 */
    PPE42_REFUSED_IAR = 2,      /* IAR is no multiple of 4 */
    PPE42_REFUSED_RESERVED = 3, /* a reserved register bit is set, or the halt code is over 5 */
    PPE42_REFUSED_BUDGET = 4,   /* a budget over 1,048,576 */
    PPE42_REFUSED_EVENTS = 5,   /* over 1,048,576 event bytes, or one of 64 or more */
    PPE42_REFUSED_OPERANDS = 6, /* operands that make no valid instruction */
    PPE42_REFUSED_CAPTURE = 7,  /* no capture: under 188 bytes or a wrong trailer; or a state that is not 144 bytes */
    PPE42_REFUSED_OUTPUT = 8,   /* an output shorter than memory_len + 156; of a line, than 64; of S-records, than 79 x
                                   memory_len / 32 + 15 */
    PPE42_REFUSED_LINE = 11,    /* no line of the grammar, nested deeper than 16, or longer than 256 bytes */
    PPE42_REFUSED_VALUE = 12,   /* a value or partial value outside -2^31 to 2^31 - 1 */
    PPE42_REFUSED_RECORD = 13,  /* a line that is no record, a wrong check byte, a data record of another type than those
                                   before it, or a line after the end record */
    PPE42_REFUSED_OUTSIDE = 14, /* a data byte outside memory */
    PPE42_REFUSED_TWICE = 15,   /* a byte that an earlier record has named */
    PPE42_REFUSED_END = 16,     /* an end record that is missing, or of another type than the data */
    PPE42_REFUSED_COUNT = 17    /* an S5 that does not count the data records before it */
};

/* The answer of a run, a step, a capture or S-record function or ppe42_tell is the refusal times 2^32 plus a count, which is 0
 * where there is a refusal, but from ppe42_srec_read; ppe42_run_reach, ppe42_run_predecoded_reach and ppe42_run_inside may add
 * 2^63. ppe42_access, ppe42_legal, ppe42_rewrite, ppe42_assemble and ppe42_disassemble have answers of their own. */
static inline uint32_t ppe42_refusal(uint64_t answer) { return (uint32_t)(answer >> 32) & 0x7FFFFFFF; }
static inline uint32_t ppe42_count(uint64_t answer) { return (uint32_t)answer; }
static inline int ppe42_reached(uint64_t answer) { return (int)(answer >> 63); }

/* The parts of an answer of ppe42_access. */
static inline uint32_t ppe42_access_address(uint64_t answer) { return (uint32_t)answer; }
static inline uint32_t ppe42_access_bytes(uint64_t answer) { return (uint32_t)(answer >> 32) & 0x7FFFFFFF; }
static inline int ppe42_access_writes(uint64_t answer) { return (int)(answer >> 63); }

/* A word of a state, read and written. */
static inline uint32_t ppe42_get(const uint8_t *state, enum ppe42_place place) {
    const uint8_t *at = state + 4 * place;
    return (uint32_t)at[0] << 24 | (uint32_t)at[1] << 16 | (uint32_t)at[2] << 8 | at[3];
}
static inline void ppe42_put(uint8_t *state, enum ppe42_place place, uint32_t word) {
    uint8_t *at = state + 4 * place;
    for (int byte = 0; byte < 4; byte++) at[byte] = (uint8_t)(word >> (24 - 8 * byte));
}

/* A run: state and memory change in place. It ends at the step that halts, which counts, or when the budget is used; the
 * count is of steps taken. */
uint64_t ppe42_run(uint8_t *state, size_t state_len, uint8_t *memory, size_t memory_len, const uint8_t *events,
                   size_t events_len, uint32_t budget);

/* The same run with the same answer, plus 2^63 if it reached past its memory: a fetch, a dcbz block, or a data access that
 * is no alignment interrupt fell outside. If it did not, more memory behind the same bytes gives the same run. */
uint64_t ppe42_run_reach(uint8_t *state, size_t state_len, uint8_t *memory, size_t memory_len, const uint8_t *events,
                         size_t events_len, uint32_t budget);

/* The same run, but it ends already with the first step that reaches past its memory; that step is taken and counted, and the
 * answer has 2^63 added. So an answer without it is that of a run which did not reach past. To go on after a reach, run again
 * from what was left, with the rest of the list. */
uint64_t ppe42_run_inside(uint8_t *state, size_t state_len, uint8_t *memory, size_t memory_len, const uint8_t *events,
                          size_t events_len, uint32_t budget);

/* The same run, but it ends already with the first step that leaves IAR at a stop; that step is taken and counted. stops has a
 * byte for each word from address 0 on: where byte k is not 0, there is a stop at address 4k, and past the end of the list there
 * is none. The list may have any length and any bytes. A run that begins at a stop takes its first step all the same. The refusals
 * are those of ppe42_run with this budget; accepted, state, memory and answer are those of ppe42_run of as many steps. To go on,
 * run again from what was left, with the rest of the event list. */
uint64_t ppe42_run_until(uint8_t *state, size_t state_len, uint8_t *memory, size_t memory_len, const uint8_t *events,
                         size_t events_len, const uint8_t *stops, size_t stops_len, uint32_t budget);

/* The same run by the engine that keeps decoded words, for long runs: state, memory and answer are those of ppe42_run, also where
 * firmware rewrites its own code. The words are kept for this run alone. */
uint64_t ppe42_run_predecoded(uint8_t *state, size_t state_len, uint8_t *memory, size_t memory_len, const uint8_t *events,
                              size_t events_len, uint32_t budget);

/* The same, plus 2^63 if it reached past its memory: state, memory and answer are those of ppe42_run_reach. */
uint64_t ppe42_run_predecoded_reach(uint8_t *state, size_t state_len, uint8_t *memory, size_t memory_len,
                                    const uint8_t *events, size_t events_len, uint32_t budget);

/* One step with its event byte: a run of one. The count is 1, or 0 for a halted state. */
uint64_t ppe42_step(uint8_t *state, size_t state_len, uint8_t *memory, size_t memory_len, uint8_t event);

/* What that step would do; nothing is changed. The refusals are those of ppe42_step, and the count is one of these, by the
 * first of the lines of a step that ends it (docs/CORE.md): halted, watchdog, interrupts, wait, instruction. A fault is told
 * whether it is taken, promoted or halts the core. An instruction that halts the core without a fault (a trap with
 * DBCR[TRAP], a write of DBCR[RST]) is executed: the step leaves its halt code. */
enum ppe42_told {
    PPE42_STAYS_HALTED = 0,               /* the core is halted: no step */
    PPE42_EXECUTES = 1,                   /* the instruction at IAR, without fault */
    PPE42_WAITS = 2,                      /* MSR[WE] is set */
    PPE42_WATCHDOG_ACTS = 3,              /* by TCR[WRC]: the core halts with 4 or 5 */
    PPE42_TAKES_EXTERNAL = 4,             /* an asynchronous interrupt is entered */
    PPE42_TAKES_DECREMENTER = 5,
    PPE42_TAKES_FIXED_INTERVAL = 6,
    PPE42_TAKES_WATCHDOG = 7,
    PPE42_FAULTS_DATA_STORAGE = 8,        /* a data access, or a dcbz block, falls outside */
    PPE42_FAULTS_INSTRUCTION_STORAGE = 9, /* IAR itself is outside: no word was fetched */
    PPE42_FAULTS_ALIGNMENT = 10,          /* a data access crosses a multiple of 8, inside or outside */
    PPE42_FAULTS_ILLEGAL = 11,            /* the word at IAR is no instruction */
    PPE42_FAULTS_TRAP = 12                /* a trap with DBCR[TRAP] clear */
};
uint64_t ppe42_tell(const uint8_t *state, size_t state_len, const uint8_t *memory, size_t memory_len, uint8_t event);

/* The data access that the step would try: its first address, plus 2^32 times its length in bytes (1, 2, 4 or 8; for dcbz the
 * block's first address and 32), plus 2^63 if it writes. One that faults is told too. 0: none is tried; so too for a halted
 * core, and where ppe42_step refuses. */
uint64_t ppe42_access(const uint8_t *state, size_t state_len, const uint8_t *memory, size_t memory_len, uint8_t event);

/* Whether these bytes are a capture that a run accepts: memory, state, then the words 156, the memory's length and 1. The
 * count is the length of its memory, the first bytes of the file; the state is the 144 after them. */
uint64_t ppe42_capture_check(const uint8_t *file, size_t len);

/* Writes a capture into the first memory_len + 156 bytes of out and no others. The count is of bytes written. */
uint64_t ppe42_capture_write(const uint8_t *state, size_t state_len, const uint8_t *memory, size_t memory_len,
                             uint8_t *out, size_t out_len);

/* Reads a file of Motorola S-records (S0, S1, S2, S3, S5 and the ends S9, S8, S7) into memory; docs/CORE.md has the format. The
 * bytes that no record names stay. Where there is a refusal nothing is stored, and the count is not 0 but the number of the line
 * it was given for, from 1 (4294967295 at most); a missing end counts as the line after the last, and with 1 it is 0. The one
 * function that wants stack: 128 KiB. */
uint64_t ppe42_srec_read(uint8_t *memory, size_t memory_len, const uint8_t *file, size_t len);

/* Writes memory as S3 records of 32 bytes and one S7 of address 0, into the first 79 x memory_len / 32 + 15 bytes of out and no
 * others. The count is of bytes written. */
uint64_t ppe42_srec_write(const uint8_t *memory, size_t memory_len, uint8_t *out, size_t out_len);

/* 1 if the word is an instruction, 0 if it is illegal. */
uint32_t ppe42_legal(uint32_t word);

/* 2^32 plus the word that reading and then writing gives, or 0 if the word is illegal. */
uint64_t ppe42_rewrite(uint32_t word);

/* A line of assembly, without its line feed, as its word: the refusal times 2^48, the column times 2^32, the word; column and
 * word are 0 where they have nothing to say. docs/CORE.md has the syntax. Columns count bytes from 0: with 11 that of the first
 * byte, or the end, where no line goes on, 256 at most; with 12 the start of the value. */
uint64_t ppe42_assemble(const uint8_t *line, size_t len);
static inline uint32_t ppe42_line_refusal(uint64_t answer) { return (uint32_t)(answer >> 48); }
static inline uint32_t ppe42_line_column(uint64_t answer) { return (uint32_t)(answer >> 32) & 0xFFFF; }
static inline uint32_t ppe42_line_word(uint64_t answer) { return (uint32_t)answer; }

/* A word as its line, in the first bytes of out and no others: 2^32 plus the number of bytes, and 2^33 on top where a field
 * that lines do not write (BH, TG, a cache hint) is set, so that the line is that of the word with the field 0. Every other
 * line assembles to the word. 0: the word is illegal. An out_len under 64 is refused first, with 8 times 2^48. */
uint64_t ppe42_disassemble(uint32_t word, uint8_t *out, size_t out_len);

/* The 42X. Each of these is the function above whose name it has, of a 42X: arguments, answers and refusals are the same. A 42X has
 * mulli, mullw, rldicl, rldicr, rldimi, lsku and stsku besides, takes tw with TG as no trap, defines more bits of DBCR and TCR,
 * and has its machine check at 020 (docs/CORE.md). Captures have one form; which core they are of is for the caller to know.
 * S-records are the same for both. ppe42x_disassemble of a tw with TG gives the line without it, as ppe42_disassemble does; with a
 * TO or a register that tw without TG has not, that line is no instruction. */
uint64_t ppe42x_run(uint8_t *state, size_t state_len, uint8_t *memory, size_t memory_len, const uint8_t *events,
                    size_t events_len, uint32_t budget);
uint64_t ppe42x_run_reach(uint8_t *state, size_t state_len, uint8_t *memory, size_t memory_len, const uint8_t *events,
                          size_t events_len, uint32_t budget);
uint64_t ppe42x_run_inside(uint8_t *state, size_t state_len, uint8_t *memory, size_t memory_len, const uint8_t *events,
                           size_t events_len, uint32_t budget);
uint64_t ppe42x_run_until(uint8_t *state, size_t state_len, uint8_t *memory, size_t memory_len, const uint8_t *events,
                          size_t events_len, const uint8_t *stops, size_t stops_len, uint32_t budget);
uint64_t ppe42x_run_predecoded(uint8_t *state, size_t state_len, uint8_t *memory, size_t memory_len, const uint8_t *events,
                               size_t events_len, uint32_t budget);
uint64_t ppe42x_run_predecoded_reach(uint8_t *state, size_t state_len, uint8_t *memory, size_t memory_len,
                                     const uint8_t *events, size_t events_len, uint32_t budget);
uint64_t ppe42x_step(uint8_t *state, size_t state_len, uint8_t *memory, size_t memory_len, uint8_t event);
uint64_t ppe42x_tell(const uint8_t *state, size_t state_len, const uint8_t *memory, size_t memory_len, uint8_t event);

/* Of lsku and stsku, which access several places, the whole frame is told: its first address, and its length in bytes, 16 at
 * least, a multiple of 8 and 8 more than the displacement. Of lsku the first address is (RA), of stsku the EA that RA gets. They
 * touch no byte outside it; addresses go on from FFFFFFFF at 0. */
uint64_t ppe42x_access(const uint8_t *state, size_t state_len, const uint8_t *memory, size_t memory_len, uint8_t event);

uint64_t ppe42x_capture_check(const uint8_t *file, size_t len);
uint64_t ppe42x_capture_write(const uint8_t *state, size_t state_len, const uint8_t *memory, size_t memory_len,
                              uint8_t *out, size_t out_len);
uint32_t ppe42x_legal(uint32_t word);
uint64_t ppe42x_rewrite(uint32_t word);
uint64_t ppe42x_assemble(const uint8_t *line, size_t len);
uint64_t ppe42x_disassemble(uint32_t word, uint8_t *out, size_t out_len);

#ifdef __cplusplus
}
#endif
#endif
