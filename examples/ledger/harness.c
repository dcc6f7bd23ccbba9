// Runs the ledger's capture on the core, then once more with the old bench's fault, and prints what each run filed.
#include "../capture.h"
#include "ledger.h"

// a word of memory is read and written like the first of a state
static uint32_t word_at(const uint8_t *at) { return ppe42_get(at, PPE42_R0); }
static void put_word(uint8_t *at, uint32_t word) { ppe42_put(at, PPE42_R0, word); }

// The old bench's fault, put into the text: each extsh becomes the rlwinm that leaves the halfword positive.
static unsigned put_fault(uint8_t *text, size_t length) {
    unsigned changed = 0;
    for (size_t at = 0; at < length; at += 4) {
        uint32_t word = word_at(text + at);
        if ((word & 0xFC00FFFE) == 0x7C000734) {
            put_word(text + at, 0x5400043E | (word & 0x03FF0001));
            changed++;
        }
    }
    return changed;
}

static void print_batches(const uint8_t *ledger) {
    for (int place = 0; place < PLACES; place++)
        printf(" %6d", (int32_t)word_at(ledger + offsetof(struct ledger, entry[place].batch)));
}

int main(int argc, char **argv) {
    static uint8_t core[CAPTURE_ROOM], old[CAPTURE_ROOM];
    if (argc != 4) {
        fprintf(stderr, "harness: not three arguments; write harness CAPTURE LEDGER TEXT_END, the last two as addresses\n");
        return 2;
    }
    size_t length = read_capture("harness", argv[1], core);
    size_t ledger = strtoul(argv[2], NULL, 0), text_end = strtoul(argv[3], NULL, 0);
    if (ledger + sizeof(struct ledger) > length || text_end > length) {
        fprintf(stderr, "harness: an address outside the capture's memory; take both from the symbols of its build\n");
        return 2;
    }

    memcpy(old, core, sizeof old);
    if (put_fault(old, text_end) == 0) {
        fprintf(stderr, "harness: no extsh in the text, so no fault to put there; compile the ledger with ./flags\n");
        return 1;
    }
    run_to_trap("harness", argv[1], core, length, NULL, 0);
    run_to_trap("harness", argv[1], old, length, NULL, 0);

    printf("halt %d, counter %04X\n", PPE42_HALT_TRAP, word_at(core + ledger) >> 16);
    printf("filed by the core ");
    print_batches(core + ledger);
    printf("\nby the old bench  ");
    print_batches(old + ledger);
    printf("  (its fault: extsh left the value positive)\n");
    return 0;
}
