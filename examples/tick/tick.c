// Counts the ticks of a timer and the openings of a door, each in an interrupt's handler, and waits in between.
#include <stdint.h>

enum { TSR = 336, TCR = 340 };               // the PPE 42's numbers; mttsr and mttcr have those of the 405
enum { FIS = 0x04000000, FIE = 0x00800000 }; // the fixed interval timer: status in TSR, enable in TCR
enum { WE = 0x00040000, EE = 0x00008000 };   // MSR: wait, and let interrupts in

#define PUT_SPR(number, value) __asm__ volatile("mtspr %0,%1" : : "n"(number), "r"(value))

static volatile uint32_t ticks, doors;

void tick(void) {
    ticks++;
    PUT_SPR(TSR, FIS); // a 1 clears it; left set, it would interrupt again at once
}

void door(void) { doors++; }

static void put_msr(uint32_t msr) { __asm__ volatile("mtmsr %0" : : "r"(msr) : "memory"); }

// the ticks come back in r3, the doors in r4
uint64_t main(void) {
    PUT_SPR(TCR, FIE); // and FP zero: timer input 0
    while (ticks < 3) {
        put_msr(WE | EE);
        put_msr(0); // masked, or a tick between the look and the wait would be slept over
    }
    return (uint64_t)ticks << 32 | doors;
}
