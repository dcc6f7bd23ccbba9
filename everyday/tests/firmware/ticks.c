// Waits for five ticks of the decrementer.
#include <stdint.h>

enum { TCR = 340, DIE = 0x04000000 };      // the decrementer's interrupt enabled
enum { WE = 0x00040000, EE = 0x00008000 }; // MSR: wait, and let interrupts in

volatile uint32_t ticks;

static void put_msr(uint32_t msr) { __asm__ volatile("mtmsr %0" : : "r"(msr) : "memory"); }

int main(void) {
    __asm__ volatile("mtdec %0" : : "r"(50));
    __asm__ volatile("mtspr %0,%1" : : "n"(TCR), "r"(DIE));
    while (ticks < 5) {
        put_msr(WE | EE);
        put_msr(0); // masked, or a tick between the look and the wait would be slept over
    }
    return ticks;
}
