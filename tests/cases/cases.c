// Checks the cases of text files through the bench core's C boundary. README.md gives their form.
#include <inttypes.h>
#include <stdarg.h>
#include <stdbool.h>
#include <stdint.h>
#include <stdio.h>
#include <stdlib.h>
#include <string.h>

#include "ppe42.h"

enum { GUARD = 64, FILL = 0xEE, EDGE = 0x5A, KEEPS = 16384, STOPS = 4096 };

#define ISR_ST 0x00000040u
#define TCR_DS 0x00600000u // 9:10; on the 42 bit 10 is reserved
#define REACHED ((uint64_t)1 << 63)
#define WRITES ((uint64_t)1 << 63)

// The words of a state, and what a case starts from where it sets nothing.
static const struct { const char *name; uint32_t start; } registers[PPE42_WORDS] = {
    [PPE42_R0] = {"r0", 0x99990000},       [PPE42_R1] = {"r1", 0x99990001},       [PPE42_R2] = {"r2", 0x99990002},
    [PPE42_R3] = {"r3", 0x99990003},       [PPE42_R4] = {"r4", 0x99990004},       [PPE42_R5] = {"r5", 0x99990005},
    [PPE42_R6] = {"r6", 0x99990006},       [PPE42_R7] = {"r7", 0x99990007},       [PPE42_R8] = {"r8", 0x99990008},
    [PPE42_R9] = {"r9", 0x99990009},       [PPE42_R10] = {"r10", 0x99990010},     [PPE42_R13] = {"r13", 0x99990013},
    [PPE42_R28] = {"r28", 0x99990028},     [PPE42_R29] = {"r29", 0x99990029},     [PPE42_R30] = {"r30", 0x99990030},
    [PPE42_R31] = {"r31", 0x99990031},     [PPE42_CR] = {"CR", 0},                [PPE42_CTR] = {"CTR", 0x9999C000},
    [PPE42_DACR] = {"DACR", 0x9999DAC0},   [PPE42_DBCR] = {"DBCR", 0},            [PPE42_DEC] = {"DEC", 0x00100000},
    [PPE42_EDR] = {"EDR", 0x9999ED00},     [PPE42_ISR] = {"ISR", 0},              [PPE42_IVPR] = {"IVPR", 0},
    [PPE42_LR] = {"LR", 0x99991000},       [PPE42_MSR] = {"MSR", 0},              [PPE42_PIR] = {"PIR", 0x00000099},
    [PPE42_PVR] = {"PVR", 0x42000099},     [PPE42_SPRG0] = {"SPRG0", 0x99992720}, [PPE42_SRR0] = {"SRR0", 0x99990260},
    [PPE42_SRR1] = {"SRR1", 0x19990000},   [PPE42_TCR] = {"TCR", 0},              [PPE42_TSR] = {"TSR", 0},
    [PPE42_XER] = {"XER", 0},              [PPE42_IAR] = {"IAR", 0},              [PPE42_HALT] = {"halt", 0},
};

// What tell may answer, by the names of a tells line.
static const char *const told_names[] = {
    [PPE42_STAYS_HALTED] = "halted",
    [PPE42_EXECUTES] = "executes",
    [PPE42_WAITS] = "waits",
    [PPE42_WATCHDOG_ACTS] = "watchdog-acts",
    [PPE42_TAKES_EXTERNAL] = "external",
    [PPE42_TAKES_DECREMENTER] = "decrementer",
    [PPE42_TAKES_FIXED_INTERVAL] = "fixed-interval",
    [PPE42_TAKES_WATCHDOG] = "watchdog",
    [PPE42_FAULTS_DATA_STORAGE] = "data-storage",
    [PPE42_FAULTS_INSTRUCTION_STORAGE] = "instruction-storage",
    [PPE42_FAULTS_ALIGNMENT] = "alignment",
    [PPE42_FAULTS_ILLEGAL] = "illegal",
    [PPE42_FAULTS_TRAP] = "trap",
};
enum { TOLD = sizeof told_names / sizeof *told_names };

typedef uint64_t player(uint8_t *, size_t, uint8_t *, size_t, const uint8_t *, size_t, uint32_t);
typedef uint64_t stopper(uint8_t *, size_t, uint8_t *, size_t, const uint8_t *, size_t, const uint8_t *, size_t, uint32_t);
typedef uint64_t stepper(uint8_t *, size_t, uint8_t *, size_t, uint8_t);
typedef uint64_t asker(const uint8_t *, size_t, const uint8_t *, size_t, uint8_t);

// The cores that a case may name, with what plays it there and how these functions' names begin.
struct core {
    const char *name, *prefix;
    player *run, *run_reach, *run_inside, *run_predecoded, *run_predecoded_reach;
    stopper *run_until;
    stepper *step;
    asker *tell, *access;
};
static const struct core cores[] = {
    {"42", "ppe42", ppe42_run, ppe42_run_reach, ppe42_run_inside, ppe42_run_predecoded, ppe42_run_predecoded_reach,
     ppe42_run_until, ppe42_step, ppe42_tell, ppe42_access},
    {"42x", "ppe42x", ppe42x_run, ppe42x_run_reach, ppe42x_run_inside, ppe42x_run_predecoded, ppe42x_run_predecoded_reach,
     ppe42x_run_until, ppe42x_step, ppe42x_tell, ppe42x_access},
};
enum { CORES = sizeof cores / sizeof *cores };

struct list { uint8_t *bytes; size_t count; };
struct piece { uint32_t at; unsigned count; uint8_t bytes[32]; };
struct pieces { unsigned count; struct piece piece[48]; };

struct test {
    char name[120];
    unsigned line;
    unsigned cores; // a bit for each that plays it
    const struct core *core;
    bool open, ran, wants, tried;
    uint32_t lend, cursor, budget, word;
    uint32_t start[PPE42_WORDS], want[PPE42_WORDS];
    bool named[PPE42_WORDS], edr_is_word, steps_named, access_named;
    uint32_t steps, refusal, reach;
    uint64_t access;
    struct pieces given, wanted;
    struct list events, tells;
    char map[64];
};

static const char *file;
static unsigned file_cores, line, cases, failures, differences;

static _Noreturn void malformed(const char *why, const char *what) {
    fprintf(stderr, "%s:%u: %s: %s\n", file, line, why, what);
    exit(2);
}

static void *room_for(size_t bytes) {
    void *room = malloc(bytes);
    if (!room) malformed("no room", "memory");
    return room;
}

// Ends the first part of a text and gives the rest of it.
static char *split(char *text) {
    char *rest = text + strcspn(text, " \t");
    if (*rest) *rest++ = 0;
    return rest + strspn(rest, " \t");
}

static uint32_t number(const char *text, int base) {
    char *end;
    unsigned long long value = strtoull(text, &end, base);
    if (end == text || *end || value > UINT32_MAX) malformed("no number", text);
    return (uint32_t)value;
}

static struct piece *piece_of(struct pieces *pieces, uint32_t at) {
    if (pieces->count == sizeof pieces->piece / sizeof *pieces->piece) malformed("more than 48 lines of code and mem", "make two cases of it");
    struct piece *piece = &pieces->piece[pieces->count++];
    *piece = (struct piece){.at = at};
    return piece;
}

static void add_word(struct pieces *pieces, uint32_t at, uint32_t word) {
    struct piece *piece = piece_of(pieces, at);
    for (int shift = 24; shift >= 0; shift -= 8) piece->bytes[piece->count++] = (uint8_t)(word >> shift);
}

static void lay(uint8_t *memory, uint32_t size, const struct pieces *pieces) {
    for (unsigned i = 0; i < pieces->count; i++) {
        const struct piece *piece = &pieces->piece[i];
        if (piece->at > size || piece->count > size - piece->at) malformed("outside lent memory", "code or mem");
        memcpy(memory + piece->at, piece->bytes, piece->count);
    }
}

static int register_named(const char *name) {
    int index = 0;
    while (index < PPE42_WORDS && strcmp(registers[index].name, name)) index++;
    if (index == PPE42_WORDS) malformed("no register", name);
    return index;
}

static void start_with(struct test *test, const char *name, const char *value) {
    if (!strcmp(name, "word")) {
        test->word = number(value, 16);
        add_word(&test->given, test->start[PPE42_IAR], test->word);
        return;
    }
    int index = register_named(name);
    test->start[index] = number(value, 16);
    if (index == PPE42_IAR) test->cursor = test->start[PPE42_IAR];
}

static void end_with(struct test *test, const char *name, const char *value) {
    if (!strcmp(name, "steps")) {
        test->steps = number(value, 10);
        test->steps_named = true;
    } else if (!strcmp(name, "refusal")) {
        test->refusal = number(value, 10);
    } else if (!strcmp(name, "reach")) {
        test->reach = number(value, 10);
        if (test->reach > 1) malformed("neither 0 nor 1", value);
    } else {
        int index = register_named(name);
        test->named[index] = true;
        if (index == PPE42_EDR && !strcmp(value, "word")) test->edr_is_word = true;
        else test->want[index] = number(value, 16);
    }
}

// Hands each NAME=VALUE of a line on; text may follow those of a try line.
static void assign(struct test *test, char *rest, bool text_may_follow,
                   void take(struct test *, const char *name, const char *value)) {
    for (char *part = strtok(rest, " \t"); part; part = strtok(NULL, " \t")) {
        char *value = strchr(part, '=');
        if (!value && text_may_follow) return;
        if (!value) malformed("no assignment", part);
        *value++ = 0;
        take(test, part, value);
    }
}

static void differ(const struct test *test, const char *function, const char *form, ...) {
    va_list values;
    va_start(values, form);
    fprintf(stderr, "%s:%u: %s: %s_%s: ", file, test->line, test->name, test->core->prefix, function);
    vfprintf(stderr, form, values);
    fputc('\n', stderr);
    va_end(values);
    differences++;
}

static uint32_t wanted_word(const struct test *test, int index, uint32_t steps) {
    if (index == PPE42_EDR && test->edr_is_word) return test->word;
    if (test->named[index]) return test->want[index];
    if (index == PPE42_DEC && !(test->start[PPE42_TCR] & TCR_DS)) return test->start[index] - steps;
    return test->start[index];
}

static bool edges_kept(const uint8_t *room, size_t size) {
    for (size_t i = 0; i < GUARD; i++)
        if (room[i] != EDGE || room[GUARD + size + i] != EDGE) return false;
    return true;
}

// What one play of a case is lent, with bytes around it that must stay.
struct lent {
    uint8_t state_room[GUARD + PPE42_STATE + GUARD], *state;
    uint8_t *room, *memory;
    size_t room_len;
};

static void lend(const struct test *test, struct lent *lent) {
    lent->room_len = GUARD + (size_t)test->lend + GUARD;
    lent->room = room_for(lent->room_len);
    lent->memory = lent->room + GUARD;
    lent->state = lent->state_room + GUARD;
    memset(lent->state_room, EDGE, sizeof lent->state_room);
    memset(lent->room, EDGE, lent->room_len);
    memset(lent->memory, FILL, test->lend);
    lay(lent->memory, test->lend, &test->given);
    for (int i = 0; i < PPE42_WORDS; i++) ppe42_put(lent->state, i, test->start[i]);
}

static uint32_t wanted_steps(const struct test *test) {
    return test->steps_named ? test->steps : test->refusal ? 0 : test->budget;
}

// Compares an answer and all that a play left: registers, memory, the bytes around both.
static void compare(const struct test *test, const char *function, const struct lent *lent, uint64_t answer,
                    uint32_t wanted_reach) {
    uint32_t refusal = ppe42_refusal(answer), steps = ppe42_count(answer), reach = (uint32_t)ppe42_reached(answer);
    uint8_t *expected = room_for(lent->room_len);
    memset(expected, FILL, test->lend);
    lay(expected, test->lend, &test->given);
    lay(expected, test->lend, &test->wanted);

    if (refusal != test->refusal)
        differ(test, function, "refusal wanted %" PRIu32 ", found %" PRIu32, test->refusal, refusal);
    if (steps != wanted_steps(test))
        differ(test, function, "steps wanted %" PRIu32 ", found %" PRIu32, wanted_steps(test), steps);
    if (reach != wanted_reach)
        differ(test, function, "reach wanted %" PRIu32 ", found %" PRIu32, wanted_reach, reach);
    for (int i = 0; i < PPE42_WORDS; i++) {
        uint32_t wanted = wanted_word(test, i, wanted_steps(test)), found = ppe42_get(lent->state, i);
        if (found != wanted)
            differ(test, function, "%s wanted %08" PRIX32 ", found %08" PRIX32, registers[i].name, wanted, found);
    }
    for (uint32_t i = 0; i < test->lend; i++)
        if (lent->memory[i] != expected[i])
            differ(test, function, "byte %08" PRIX32 " wanted %02X, found %02X", i, expected[i], lent->memory[i]);
    if (!edges_kept(lent->state_room, PPE42_STATE) || !edges_kept(lent->room, test->lend))
        differ(test, function, "a byte around what was lent has changed");
    free(expected);
}

// Plays one case by one function.
static void check_by(const struct test *test, const char *function, player *play, uint32_t wanted_reach) {
    struct lent lent;
    lend(test, &lent);
    uint64_t answer = play(lent.state, PPE42_STATE, lent.memory, test->lend, test->events.bytes, test->events.count,
                           test->budget);
    compare(test, function, &lent, answer, wanted_reach);
    free(lent.room);
}

// The run by run_inside, gone on with after each reach until the budget is used or the core halts.
static uint64_t go_on_inside(const struct test *test, struct lent *lent) {
    uint32_t steps = 0;
    uint64_t reach = 0;
    for (;;) {
        bool left = test->events.count > steps;
        uint64_t answer = test->core->run_inside(lent->state, PPE42_STATE, lent->memory, test->lend,
                                                 left ? test->events.bytes + steps : NULL,
                                                 left ? test->events.count - steps : 0, test->budget - steps);
        uint32_t count = ppe42_count(answer);
        if (ppe42_refusal(answer) || count > test->budget - steps) return answer;
        steps += count;
        reach |= answer & REACHED;
        if (!ppe42_reached(answer) || !count) return reach | steps;
    }
}

static void check_inside(const struct test *test) {
    struct lent lent;
    lend(test, &lent);
    uint64_t answer = go_on_inside(test, &lent);
    compare(test, "run_inside", &lent, answer, test->reach);
    free(lent.room);
}

static uint8_t event_of(const struct test *test, size_t step) {
    return step < test->events.count ? test->events.bytes[step] : 0;
}

// Goes on by single steps up to the first that leaves IAR at a stop; answers how many it took.
static uint32_t step_until(const struct test *test, const struct list *stops, struct lent *lent, uint32_t taken) {
    uint32_t steps = 0, word;
    do {
        if (taken + steps == test->budget ||
            !test->core->step(lent->state, PPE42_STATE, lent->memory, test->lend, event_of(test, taken + steps)))
            return steps;
        steps++;
        word = ppe42_get(lent->state, PPE42_IAR) / 4;
    } while (word >= stops->count || !stops->bytes[word]);
    return steps;
}

// The run by run_until, gone on with after each stop until the budget is used or the core halts. Beside it single steps go to where
// each call must end.
static uint64_t go_on_until(const struct test *test, const struct list *stops, struct lent *lent, struct lent *beside) {
    uint32_t steps = 0;
    for (;;) {
        bool left = test->events.count > steps;
        uint64_t answer = test->core->run_until(lent->state, PPE42_STATE, lent->memory, test->lend,
                                                left ? test->events.bytes + steps : NULL,
                                                left ? test->events.count - steps : 0, stops->bytes, stops->count,
                                                test->budget - steps);
        if (test->refusal || ppe42_refusal(answer)) return answer;
        uint32_t wanted = step_until(test, stops, beside, steps);
        if (answer != wanted) {
            differ(test, "run_until", "after %" PRIu32 " steps %" PRIu32 " more wanted, found %016" PRIX64, steps, wanted,
                   answer);
            return answer;
        }
        steps += wanted;
        if (!wanted || steps == test->budget) return steps;
    }
}

static void check_until(const struct test *test, const struct list *stops) {
    struct lent lent, beside;
    lend(test, &lent);
    lend(test, &beside);
    uint64_t answer = go_on_until(test, stops, &lent, &beside);
    compare(test, "run_until", &lent, answer, 0);
    free(lent.room);
    free(beside.room);
}

// With an empty list, with a stop at every word, and with one where the case ends. What stands behind these two would be stops.
static void check_stops(const struct test *test) {
    static uint8_t bytes[STOPS + GUARD];
    uint32_t end = wanted_word(test, PPE42_IAR, wanted_steps(test)) / 4;
    memset(bytes, EDGE, sizeof bytes);
    check_until(test, &(struct list){NULL, 0});
    check_until(test, &(struct list){bytes, STOPS});
    if (end >= STOPS) return;
    memset(bytes, 0, end);
    check_until(test, &(struct list){bytes, end + 1});
}

// Asks about the next step; nothing may change by that.
static uint64_t ask(const struct test *test, const char *function, asker *asked, const struct lent *lent, size_t step) {
    struct lent before = *lent;
    before.room = room_for(lent->room_len);
    memcpy(before.room, lent->room, lent->room_len);
    uint64_t answer = asked(lent->state, PPE42_STATE, lent->memory, test->lend, event_of(test, step));
    if (memcmp(before.state_room, lent->state_room, sizeof before.state_room) ||
        memcmp(before.room, lent->room, lent->room_len))
        differ(test, function, "asking has changed state, memory or a byte around them");
    free(before.room);
    return answer;
}

// The refusal of a case's first step, which has neither the budget nor the rest of the list.
static uint32_t step_refusal(const struct test *test) {
    if (test->refusal >= PPE42_REFUSED_MEMORY && test->refusal <= PPE42_REFUSED_RESERVED) return test->refusal;
    return test->events.count && test->events.bytes[0] > 63 ? PPE42_REFUSED_EVENTS : PPE42_ACCEPTED;
}

static const char *access_text(uint64_t access, char text[static 40]) {
    if (!access) return "none";
    snprintf(text, 40, "%s %" PRIu32 " %08" PRIX32, ppe42_access_writes(access) ? "store" : "load",
             ppe42_access_bytes(access), ppe42_access_address(access));
    return text;
}

// Before the first step: refusals, and the access where the case names one.
static void check_asked(const struct test *test) {
    struct lent lent;
    char wanted_text[40], found_text[40];
    uint32_t refusal = step_refusal(test);
    lend(test, &lent);
    uint64_t told = ask(test, "tell", test->core->tell, &lent, 0);
    uint64_t access = ask(test, "access", test->core->access, &lent, 0);
    if (ppe42_refusal(told) != refusal || ppe42_reached(told))
        differ(test, "tell", "refusal wanted %" PRIu32 ", found answer %016" PRIX64, refusal, told);
    if (refusal && ppe42_count(told)) differ(test, "tell", "a count beside a refusal");
    if (refusal && access) differ(test, "access", "an access of a step that is refused");
    if (test->access_named && access != test->access)
        differ(test, "access", "wanted %s, found %s", access_text(test->access, wanted_text),
               access_text(access, found_text));
    free(lent.room);
}

// What run_inside must answer by what is told of each step: the two storage faults reach past memory.
static uint64_t wanted_inside(const struct test *test) {
    for (size_t i = 0; i < test->tells.count; i++) {
        uint8_t told = test->tells.bytes[i];
        if (told == PPE42_FAULTS_DATA_STORAGE || told == PPE42_FAULTS_INSTRUCTION_STORAGE) return REACHED | (i + 1);
    }
    return wanted_steps(test);
}

// Step by step, with what is told before each; and the run inside, once.
static void check_tells(const struct test *test) {
    struct lent lent;
    uint64_t steps = 0;
    if (test->refusal || test->tells.count < wanted_steps(test) || test->tells.count > test->budget)
        malformed("tells has a name for each step, and may have halted up to the budget", test->name);
    lend(test, &lent);
    for (size_t i = 0; i < test->tells.count; i++) {
        uint64_t told = ask(test, "tell", test->core->tell, &lent, i);
        if (told != test->tells.bytes[i])
            differ(test, "tell", "before step %zu wanted %s, found %s (%016" PRIX64 ")", i,
                   told_names[test->tells.bytes[i]], told < TOLD ? told_names[told] : "no name", told);
        steps += test->core->step(lent.state, PPE42_STATE, lent.memory, test->lend, event_of(test, i));
    }
    compare(test, "step", &lent, steps, 0);
    free(lent.room);

    lend(test, &lent);
    uint64_t inside = test->core->run_inside(lent.state, PPE42_STATE, lent.memory, test->lend, test->events.bytes,
                                             test->events.count, test->budget);
    if (inside != wanted_inside(test))
        differ(test, "run_inside", "wanted %016" PRIX64 ", found %016" PRIX64, wanted_inside(test), inside);
    free(lent.room);
}

// From the case's start on for as many steps as the engine wants that keeps decoded words: it must leave what the plain one does.
static void check_engines(const struct test *test, const char *function, player *plain, player *predecoded) {
    struct lent expected, given;
    lend(test, &expected);
    lend(test, &given);
    uint64_t wanted = plain(expected.state, PPE42_STATE, expected.memory, test->lend, test->events.bytes,
                            test->events.count, KEEPS);
    uint64_t answer = predecoded(given.state, PPE42_STATE, given.memory, test->lend, test->events.bytes,
                                 test->events.count, KEEPS);
    if (answer != wanted)
        differ(test, function, "in %d steps wanted %016" PRIX64 ", found %016" PRIX64, KEEPS, wanted, answer);
    if (memcmp(expected.state_room, given.state_room, sizeof given.state_room) ||
        memcmp(expected.room, given.room, given.room_len))
        differ(test, function, "in %d steps state or memory is not the plain engine's", KEEPS);
    free(expected.room);
    free(given.room);
}

// One case on one core, by each function that runs; run and run_predecoded say nothing of a reach.
static void check_on_core(const struct test *test) {
    unsigned before = differences;
    check_by(test, "run", test->core->run, 0);
    check_by(test, "run_reach", test->core->run_reach, test->reach);
    check_by(test, "run_predecoded", test->core->run_predecoded, 0);
    check_by(test, "run_predecoded_reach", test->core->run_predecoded_reach, test->reach);
    check_engines(test, "run_predecoded", test->core->run, test->core->run_predecoded);
    check_engines(test, "run_predecoded_reach", test->core->run_reach, test->core->run_predecoded_reach);
    check_inside(test);
    check_stops(test);
    check_asked(test);
    if (test->tells.count) check_tells(test);
    cases++;
    failures += differences != before;
}

static void check(const struct test *test) {
    struct test one = *test;
    for (unsigned i = 0; i < CORES; i++) {
        one.core = &cores[i];
        if (test->cores >> i & 1) check_on_core(&one);
    }
}

static void begin(struct test *test, const char *name) {
    *test = (struct test){.line = line, .cores = file_cores, .open = true, .lend = 512};
    snprintf(test->name, sizeof test->name, "%s", name);
    for (int i = 0; i < PPE42_WORDS; i++) test->start[i] = registers[i].start;
}

static void finish(struct test *test) {
    if (!test->open) return;
    if (!test->tried) {
        if (!test->ran || !test->wants) malformed("the case before this line has no run or no want", test->name);
        check(test);
    }
    free(test->events.bytes);
    free(test->tells.bytes);
    test->open = false;
}

static uint8_t event_named(const char *text) {
    uint32_t value = number(text, 10);
    if (value > 255) malformed("no byte", text);
    return (uint8_t)value;
}

static uint8_t told_named(const char *text) {
    uint8_t told = 0;
    while (told < TOLD && strcmp(told_names[told], text)) told++;
    if (told == TOLD) malformed("nothing that can be told", text);
    return told;
}

// Adds each VALUE or TIMES*VALUE of a line.
static void read_list(struct list *list, char *rest, uint8_t named(const char *text)) {
    for (char *part = strtok(rest, " \t"); part; part = strtok(NULL, " \t")) {
        char *times = strchr(part, '*');
        if (times) *times = 0;
        size_t count = times ? number(part, 10) : 1;
        uint8_t value = named(times ? times + 1 : part);
        uint8_t *longer = realloc(list->bytes, list->count + count);
        if (!longer) malformed("no room", "list");
        memset(longer + list->count, value, count);
        list->bytes = longer;
        list->count += count;
    }
}

static void name_access(struct test *test, bool store, uint32_t bytes, uint32_t address) {
    test->access_named = true;
    test->access = (store ? WRITES : 0) | (uint64_t)bytes << 32 | address;
}

static void read_access(struct test *test, char *rest) {
    char *bytes = split(rest), *address = split(bytes);
    bool store = !strcmp(rest, "store");
    test->access_named = true;
    if (!strcmp(rest, "none") && !*bytes) return;
    if (!store && strcmp(rest, "load")) malformed("neither none, load nor store", rest);
    name_access(test, store, number(bytes, 10), number(address, 16));
}

static void read_bytes(struct piece *piece, char *rest) {
    for (char *part = strtok(rest, " \t"); part; part = strtok(NULL, " \t")) {
        for (; *part; part += 2) {
            char pair[3] = {part[0], part[1], 0};
            if (!pair[1] || piece->count == sizeof piece->bytes) malformed("bytes are pairs of digits, at most 32 to a line", part);
            piece->bytes[piece->count++] = (uint8_t)number(pair, 16);
        }
    }
}

static void try_once(struct test *test, char *rest) {
    if (!test->ran || !test->wants) malformed("try comes after run and want", rest);
    test->tried = true;
    struct test one = *test;
    one.line = line;
    snprintf(one.name, sizeof one.name, "%s", rest);
    assign(&one, rest, true, start_with);
    check(&one);
}

// An access that is played at each address of a map.
struct each { bool store, update; uint32_t bytes, word; const char *text; };

static void want(struct test *test, int index, uint32_t value) {
    test->named[index] = true;
    test->want[index] = value;
}

// Up to eight bytes of memory as it is at the start.
static uint64_t given_bytes(const struct test *test, uint32_t address, uint32_t bytes) {
    uint8_t *memory = room_for(test->lend);
    uint64_t value = 0;
    memset(memory, FILL, test->lend);
    lay(memory, test->lend, &test->given);
    for (uint32_t i = 0; i < bytes; i++) value = value << 8 | memory[address + i];
    free(memory);
    return value;
}

static void want_loaded(struct test *test, uint32_t address, uint32_t bytes) {
    uint64_t value = given_bytes(test, address, bytes);
    want(test, PPE42_R28, (uint32_t)(bytes == 8 ? value >> 32 : value));
    if (bytes == 8) want(test, PPE42_R29, (uint32_t)value);
}

static void want_stored(struct test *test, uint32_t address, uint32_t bytes) {
    uint64_t value = test->start[PPE42_R28];
    if (bytes == 8) value = value << 32 | test->start[PPE42_R29];
    struct piece *piece = piece_of(&test->wanted, address);
    for (uint32_t left = bytes; left--;) piece->bytes[piece->count++] = (uint8_t)(value >> 8 * left);
}

static void want_served(struct test *test, const struct each *each, uint32_t address) {
    if (address + each->bytes > test->lend) malformed("the map serves what is outside lent memory", each->text);
    want(test, PPE42_IAR, test->start[PPE42_IAR] + 4);
    if (each->update) want(test, PPE42_R4, address);
    if (each->store) want_stored(test, address, each->bytes);
    else want_loaded(test, address, each->bytes);
}

// What 4.5.3 and 4.5.6 leave where MSR has UIE alone.
static void want_interrupt(struct test *test, bool store, uint32_t address, uint32_t vector) {
    want(test, PPE42_SRR0, test->start[PPE42_IAR]);
    want(test, PPE42_SRR1, test->start[PPE42_MSR]);
    want(test, PPE42_MSR, 0);
    want(test, PPE42_EDR, address);
    want(test, PPE42_ISR, store ? ISR_ST : 0);
    want(test, PPE42_IAR, vector);
}

static void play_at(const struct test *test, const struct each *each, uint32_t address) {
    struct test one = *test;
    uint8_t told;
    one.line = line;
    snprintf(one.name, sizeof one.name, "%s at %" PRIu32, each->text, address);
    one.start[PPE42_R4] = address - 8;
    one.start[PPE42_R5] = 8;
    add_word(&one.given, one.start[PPE42_IAR], each->word);
    switch (test->map[address]) {
    case '.':
        told = PPE42_EXECUTES;
        want_served(&one, each, address);
        break;
    case 'a':
        told = PPE42_FAULTS_ALIGNMENT;
        want_interrupt(&one, each->store, address, 0x0C0);
        break;
    default:
        told = PPE42_FAULTS_DATA_STORAGE;
        want_interrupt(&one, each->store, address, 0x060);
        one.reach = 1;
    }
    one.tells = (struct list){.bytes = &told, .count = 1};
    name_access(&one, each->store, each->bytes, address);
    check(&one);
}

// Plays a load or store at each address of the map.
static void play_each(struct test *test, char *kind) {
    char *bytes = split(kind), *word = split(bytes), *text = split(word), *update = strstr(kind, "-update");
    if (!test->ran || !*test->map) malformed("each comes after run and map", text);
    if (update) *update = 0;
    struct each each = {.store = !strcmp(kind, "store"), .update = update, .text = text};
    if (!each.store && strcmp(kind, "load")) malformed("neither load nor store", kind);
    each.bytes = number(bytes, 10);
    each.word = number(word, 16);
    if (each.bytes > 8) malformed("more than 8 bytes", text);
    test->tried = true;
    for (uint32_t address = 0; test->map[address]; address++) play_at(test, &each, address);
}

// The frame that the word of an lsku or stsku moves: (RA) as it was, the EA that RA gets, and the upper of the two, by which LR and
// the pairs lie.
struct frame { bool store; int ra; uint32_t sp, ea, upper, bytes; };

// What it loads or stores, each at an address of its own; BACK is the old (RA).
enum part { LINK, PAIR30, PAIR28, BACK };

static int register_numbered(uint32_t number) {
    return number >= 28 ? PPE42_R28 + (int)number - 28 : number == 13 ? PPE42_R13 : (int)number;
}

static struct frame frame_of(uint32_t word, uint32_t sp) {
    bool store = word >> 26 == 62;
    uint32_t ea = sp + (uint32_t)(int16_t)(word & 0xFFF8);
    return (struct frame){store, register_numbered(word >> 16 & 31), sp, ea, store ? sp : ea, store ? sp - ea : ea - sp};
}

// In the order of 9.4.45 and 9.4.89: LR last or first, and a pair for each doubleword beyond the first, two at most.
static unsigned parts_of(const struct frame *frame, enum part parts[static 4]) {
    unsigned count = 0;
    if (frame->store) parts[count++] = LINK;
    if (frame->bytes > 8) parts[count++] = PAIR30;
    if (frame->bytes > 16) parts[count++] = PAIR28;
    parts[count++] = frame->store ? BACK : LINK;
    return count;
}

static uint32_t address_of(const struct frame *frame, enum part part) {
    switch (part) {
    case LINK: return frame->upper + 4;
    case PAIR30: return frame->upper - 8;
    case PAIR28: return frame->upper - 16;
    default: return frame->ea;
    }
}

// A part that is served stays, whatever comes after it, but for LR, which is loaded last. RA is not loaded from its pair.
static void want_part(struct test *test, const struct frame *frame, enum part part) {
    uint32_t address = address_of(frame, part), bytes = part == PAIR30 || part == PAIR28 ? 8 : 4;
    int first = part == PAIR30 ? PPE42_R30 : part == PAIR28 ? PPE42_R28 : part == BACK ? frame->ra : PPE42_LR;
    if (address > test->lend || bytes > test->lend - address) malformed("a part outside lent memory is served", test->name);
    for (uint32_t i = 0; 4 * i < bytes; i++) {
        int index = first + (int)i;
        if (frame->store) add_word(&test->wanted, address + 4 * i, test->start[index]);
        else if (index != frame->ra) want(test, index, (uint32_t)given_bytes(test, address + 4 * i, 4));
    }
}

// By the letters of its parts, one for each that it gets to; what the step is told to be.
static uint8_t want_frame(struct test *test, const struct frame *frame, const char *letters) {
    enum part parts[4];
    unsigned count = parts_of(frame, parts), served = (unsigned)strspn(letters, ".");
    for (unsigned i = 0; i < served && i < count; i++) want_part(test, frame, parts[i]);
    if (!strcmp(letters, "a")) {
        want_interrupt(test, frame->store, frame->sp, 0x0C0);
        return PPE42_FAULTS_ALIGNMENT;
    }
    if (served < count && !strcmp(letters + served, "d")) {
        want_interrupt(test, frame->store, address_of(frame, parts[served]), 0x060);
        test->reach = 1;
        return PPE42_FAULTS_DATA_STORAGE;
    }
    if (served != count || letters[served]) malformed("neither a, nor a letter for each part up to the first d", letters);
    want(test, frame->ra, frame->ea);
    want(test, PPE42_EDR, frame->store ? frame->sp : frame->ea);
    want(test, PPE42_IAR, test->start[PPE42_IAR] + 4);
    return PPE42_EXECUTES;
}

static void play_frame(struct test *test, char *word) {
    char *sp = split(word), *letters = split(sp), *text = split(letters);
    struct frame frame = frame_of(number(word, 16), number(sp, 16));
    struct test one = *test;
    if (!test->ran) malformed("frame comes after run", text);
    test->tried = true;
    one.line = line;
    snprintf(one.name, sizeof one.name, "%s from %s", text, sp);
    one.start[frame.ra] = frame.sp;
    add_word(&one.given, one.start[PPE42_IAR], number(word, 16));
    uint8_t told = want_frame(&one, &frame, letters);
    one.tells = (struct list){.bytes = &told, .count = 1};
    name_access(&one, frame.store, frame.bytes + 8, frame.store ? frame.ea : frame.sp);
    check(&one);
}

// A letter for each address from 0 on; blanks set the groups apart.
static void read_map(struct test *test, const char *rest) {
    size_t count = 0;
    for (; *rest; rest++) {
        if (strchr(" \t", *rest)) continue;
        if (!strchr(".ad", *rest) || count == sizeof test->map - 1) malformed("a map has up to 63 of the letters . a d", rest);
        test->map[count++] = *rest;
    }
    test->map[count] = 0;
}

static unsigned cores_named(const char *name) {
    unsigned named = 0;
    for (unsigned i = 0; i < CORES; i++)
        if (!strcmp(cores[i].name, name) || !strcmp("both", name)) named |= 1u << i;
    if (!named) malformed("no core", name);
    return named;
}

static void read_part(struct test *test, const char *key, char *rest) {
    if (!strcmp(key, "core")) {
        test->cores = cores_named(rest);
    } else if (!strcmp(key, "lend")) {
        test->lend = number(rest, 10);
    } else if (!strcmp(key, "set")) {
        assign(test, rest, false, start_with);
    } else if (!strcmp(key, "at")) {
        test->cursor = number(rest, 16);
    } else if (!strcmp(key, "code")) {
        split(rest);
        add_word(&test->given, test->cursor, number(rest, 16));
        test->cursor += 4;
    } else if (!strcmp(key, "mem")) {
        char *bytes = split(rest);
        read_bytes(piece_of(test->ran ? &test->wanted : &test->given, number(rest, 16)), bytes);
    } else if (!strcmp(key, "events")) {
        read_list(&test->events, rest, event_named);
    } else if (!strcmp(key, "tells")) {
        read_list(&test->tells, rest, told_named);
    } else if (!strcmp(key, "access")) {
        read_access(test, rest);
    } else if (!strcmp(key, "map")) {
        read_map(test, rest);
    } else if (!strcmp(key, "run")) {
        test->budget = number(rest, 10);
        test->ran = true;
    } else if (!strcmp(key, "want")) {
        assign(test, rest, false, end_with);
        test->wants = true;
    } else {
        malformed("no such line", key);
    }
}

static void read_line(struct test *test, char *text) {
    char *section = strchr(text, '#');
    if (section) *section = 0;
    for (size_t end = strlen(text); end && strchr(" \t\r\n", text[end - 1]); end--) text[end - 1] = 0;
    if (!*text) return;
    char *rest = split(text);
    if (!strcmp(text, "case")) {
        finish(test);
        if (!section) malformed("no # behind the name, with what the case goes by", rest);
        begin(test, rest);
    } else if (!test->open && !strcmp(text, "core")) {
        file_cores = cores_named(rest);
    } else if (!test->open) {
        malformed("no case yet", text);
    } else if (!strcmp(text, "try")) {
        try_once(test, rest);
    } else if (!strcmp(text, "each")) {
        play_each(test, rest);
    } else if (!strcmp(text, "frame")) {
        play_frame(test, rest);
    } else if (test->tried) {
        malformed("only a try, an each, a frame or a case may follow one", text);
    } else {
        read_part(test, text, rest);
    }
}

static void check_file(const char *path) {
    static struct test test;
    char text[512];
    unsigned cases_before = cases, failures_before = failures;
    FILE *in = fopen(path, "r");
    file = path;
    file_cores = cores_named("42");
    line = 0;
    if (!in) malformed("cannot be read", path);
    while (fgets(text, sizeof text, in)) {
        line++;
        if (!strchr(text, '\n') && !feof(in)) malformed("too long", "line");
        read_line(&test, text);
    }
    fclose(in);
    finish(&test);
    if (cases == cases_before) malformed("no case", path);
    printf("%s: %u cases, %u failed\n", path, cases - cases_before, failures - failures_before);
}

int main(int count, char **paths) {
    if (count < 2) {
        fprintf(stderr, "usage: cases FILE..\n");
        return 2;
    }
    for (int i = 1; i < count; i++) check_file(paths[i]);
    printf("%u cases, %u failed\n", cases, failures);
    return failures != 0;
}
