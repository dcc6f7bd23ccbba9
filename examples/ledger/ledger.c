// A freezer controller's batch ledger: a counter in a halfword numbers the batches, and each is filed by its number.
#include "ledger.h"

enum { TRAYS = 24 };

// A controller three batches short of 32767, with batch 1 still on file.
struct ledger ledger = {.counter = 32764, .filed = 1, .entry = {{.batch = 1, .trays = TRAYS}}};

// Files the batch frozen last, so that the smallest number stands first.
void file_batch(uint32_t trays) {
    int32_t batch = ledger.counter; // sign-extended: lhz and extsh
    unsigned place = ledger.filed++;
    while (place > 0 && ledger.entry[place - 1].batch > batch) {
        ledger.entry[place] = ledger.entry[place - 1];
        place--;
    }
    ledger.entry[place] = (struct entry){batch, trays};
}

int main(void) {
    while (ledger.filed < PLACES) {
        ledger.counter++;
        file_batch(TRAYS);
    }
    return 0;
}
