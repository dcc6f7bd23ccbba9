// Runs the firmware with events and prints what its handlers counted.
#include "../capture.h"

enum { DOOR = 1, TICK = 4 }; // external request level, timer input 0

// The first door and the first tick come in steps with interrupts masked: the level is lost (D23), the tick is kept in TSR.
// The others come while main waits.
static const uint8_t EVENTS[] = {[1] = DOOR, [2] = TICK, [200] = DOOR, [300] = TICK, [400] = TICK};

static unsigned sent(uint8_t event) {
    unsigned count = 0;
    for (size_t step = 0; step < sizeof EVENTS; step++)
        count += EVENTS[step] == event;
    return count;
}

int main(int argc, char **argv) {
    static uint8_t capture[CAPTURE_ROOM];
    if (argc != 2) {
        fprintf(stderr, "harness: not one argument; write harness CAPTURE\n");
        return 2;
    }
    size_t length = read_capture("harness", argv[1], capture);
    uint8_t *state = capture + length;
    uint32_t steps = run_to_trap("harness", argv[1], capture, length, EVENTS, sizeof EVENTS);
    fprintf(stderr, "%u steps\n", steps); // not for ./expected, since the compiler decides them
    printf("halt %d\n", PPE42_HALT_TRAP);
    printf("ticks %u of %u: the first came while masked, and TSR[FIS] kept it\n", ppe42_get(state, PPE42_R3), sent(TICK));
    printf("doors %u of %u: the first came while masked, and nothing kept it\n", ppe42_get(state, PPE42_R4), sent(DOOR));
    return 0;
}
