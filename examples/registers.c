/* registers CAPTURE [STEPS]: runs a capture without events, for 1,000 steps or STEPS, and prints the registers by name.
 * Status 1 is a refusal, 2 anything else that is wrong. */
#include "capture.h"

/* in the order of enum ppe42_place */
static const char *const NAMES[PPE42_WORDS] = {
    "r0", "r1", "r2", "r3", "r4", "r5", "r6", "r7", "r8", "r9", "r10", "r13", "r28", "r29", "r30", "r31",
    "CR", "CTR", "DACR", "DBCR", "DEC", "EDR", "ISR", "IVPR", "LR", "MSR", "PIR", "PVR", "SPRG0", "SRR0", "SRR1", "TCR",
    "TSR", "XER", "IAR", "halt"};

/* A whole decimal number up to PPE42_MOST, in digits alone; -1 for any other text. */
static long steps_of(const char *text) {
    long steps = *text ? 0 : -1;
    for (; *text; text++) {
        if (*text < '0' || *text > '9')
            return -1;
        steps = 10 * steps + (*text - '0');
        if (steps > PPE42_MOST)
            return -1;
    }
    return steps;
}

int main(int argc, char **argv) {
    static uint8_t capture[CAPTURE_ROOM];
    if (argc < 2 || argc > 3) {
        fprintf(stderr, "registers: %s; write registers CAPTURE [STEPS]\n", argc < 2 ? "no capture" : "too many arguments");
        return 2;
    }
    long steps = argc > 2 ? steps_of(argv[2]) : 1000;
    if (steps < 0) {
        fprintf(stderr, "registers: STEPS is '%s'; give a whole decimal number from 0 to %d\n", argv[2], PPE42_MOST);
        return 2;
    }
    size_t length = read_capture("registers", argv[1], capture);
    uint8_t *state = capture + length;
    uint64_t answer = ppe42_run(state, PPE42_STATE, capture, length, NULL, 0, (uint32_t)steps);
    accepted("registers", argv[1], answer);
    printf("%u steps\n", ppe42_count(answer));
    for (int place = 0; place < PPE42_WORDS; place++)
        printf("%-5s %08X%s", NAMES[place], ppe42_get(state, place), place % 4 == 3 ? "\n" : "   ");
    return 0;
}
