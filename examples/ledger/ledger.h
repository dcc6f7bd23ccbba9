// The ledger as the firmware keeps it and the bench reads it.
#include <stdint.h>

enum { PLACES = 5 };

struct entry {
    int32_t batch;
    uint32_t trays;
};

struct ledger {
    int16_t counter; // the batch frozen last
    uint16_t filed;  // places taken
    struct entry entry[PLACES];
};
