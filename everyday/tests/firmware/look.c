// Looks into a tray's place that the memory does not have.
#include <stdint.h>

uint32_t trays[8] = {24, 24, 24, 24};

uint32_t look(uint32_t place) __attribute__((noinline));
uint32_t look(uint32_t place) { return trays[place]; }

int main(void) { return look(3) + look(0x1000); }
