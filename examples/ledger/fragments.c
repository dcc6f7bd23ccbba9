// Everyday C for which a stock compiler may write what the PPE 42 lacks. `./build fragments.c` names what it writes in
// spite of ./flags; docs/FIRMWARE.md has the ways round, and the last part shows some of them.
#include <stdint.h>

extern int get(void);
extern void put(int), use(void *);

int16_t half;
uint32_t word;

// loads that extend the sign
int halfword(void) { return half; }
int indexed(const int16_t *from, int place) { return from[place]; }

int halfwords(const int16_t *from, int count) {
    int sum = 0;
    while (count--)
        sum += *from++;
    return sum;
}

// loads and stores with index and update
int strides(const uint32_t *from, int stride, int count) {
    int sum = 0;
    do
        sum += *(from += stride);
    while (--count);
    return sum;
}

void stores(uint32_t *to, int stride, int count) {
    do
        *(to += stride) = count;
    while (--count);
}

// products and quotients
int times(int a, int b) { return a * b; }
int64_t times_wide(int a, int b) { return (int64_t)a * b; }
int times_100(int a) { return a * 100; }
int times_added(int sum, int a, int b) { return sum + (int16_t)a * (int16_t)b; }
int times_high(int a, int b) { return (a >> 16) * (b >> 16); }
int divided(int a, int b) { return a / b; }
unsigned divided_by_10(unsigned a) { return a / 10; }
int divided_by_8(int a) { return a / 8; }

// bytes reversed on their way from or to memory
uint32_t reversed(const uint32_t *from) { return __builtin_bswap32(*from); }
void reverse(uint32_t *to, uint32_t value) { *to = __builtin_bswap32(value); }

// barriers and atomics
void barrier(void) { __sync_synchronize(); }
void release(void) { __atomic_thread_fence(__ATOMIC_RELEASE); }
uint32_t acquire(void) { return __atomic_load_n(&word, __ATOMIC_ACQUIRE); }
uint32_t count_up(void) { return __atomic_fetch_add(&word, 1, __ATOMIC_RELAXED); }

// a conditional trap, a call with variable arguments, floating point
void not_0(int a) {
    if (a == 0)
        __builtin_trap();
}

extern void print(const char *form, ...);
void variable(int a) { print("%d", a); }
float floating(float a, float b) { return a + b; }

// values and a condition kept over calls, many values at once
int five_kept(int a, int b, int c) {
    int d = get(), e = get();
    put(a);
    put(b);
    put(c);
    return a + b + c + d + e;
}

int condition_kept(int a, int b, const int *from, int count) {
    int sum = 0;
    for (int place = 0; place < count; place++) {
        sum += a < b ? from[place] : -from[place];
        if (sum > 100)
            put(sum);
    }
    return sum;
}

struct shelf {
    uint32_t reading[8];
} here, there;

void copied(void) { here = there; }

// frames that are not plain
void *frame(void) { return __builtin_frame_address(0); }

void sized_in_the_run(int count) {
    int array[count];
    use(array);
}

void taken_in_the_run(int count) { use(__builtin_alloca(count)); }

int nested(int a) {
    int inner(int b) { return a + b; }
    use((void *)inner);
    return inner(1);
}

void over_32_kib(void) {
    int array[10000];
    use(array);
}

// a field that is not aligned
struct __attribute__((packed)) entry {
    uint8_t kind;
    uint32_t value;
};

uint32_t packed_field(const struct entry *from) { return from->value; }

// the time base
uint32_t time_base(void) { return __builtin_ppc_mftb(); }

// a branch table, a field, a sum of 64 bits
void table(int a) {
    switch (a) {
    case 0: put(7); break;
    case 1: use(&half); break;
    case 2: put(get()); break;
    case 3: half = 0; break;
    case 4: put(get() + 1); break;
    case 5: put(9); use(&word); break;
    }
}

uint32_t field(uint32_t a, uint32_t b) { return (a & ~0xFF00u) | (b & 0xFF) << 8; }
int64_t sum_wide(int64_t a, int64_t b) { return a + b; }

// ways round: none of these may be named
static uint32_t product_of_halves(uint32_t a, uint32_t b) {
    uint32_t product;
    __asm__("mullhwu %0,%1,%2" : "=r"(product) : "r"(a), "r"(b));
    return product;
}

uint32_t product(uint32_t a, uint32_t b) {
    return product_of_halves(a, b) + ((product_of_halves(a >> 16, b) + product_of_halves(a, b >> 16)) << 16);
}

uint32_t quotient(uint32_t a, uint32_t b) {
    uint32_t quotient = 0, rest = 0;
    for (int bit = 0; bit < 32; bit++) {
        uint32_t over = rest >> 31;
        rest = rest << 1 | a >> 31;
        a <<= 1;
        quotient <<= 1;
        if (over || rest >= b) {
            rest -= b;
            quotient |= 1;
        }
    }
    return quotient;
}

// the empty assembly parts the load from the swap, so that the two do not become lwbrx
uint32_t reversed_here(const uint32_t *from) {
    uint32_t value = *from;
    __asm__("" : "+r"(value));
    return __builtin_bswap32(value);
}

uint32_t counted_up(void) {
    uint32_t msr;
    __asm__ volatile("mfmsr %0" : "=r"(msr));
    __asm__ volatile("wrteei 0" : : : "memory");
    uint32_t was = word++;
    __asm__ volatile("wrtee %0" : : "r"(msr) : "memory");
    return was;
}

uint32_t decrementer(void) {
    uint32_t dec;
    __asm__ volatile("mfspr %0,22" : "=r"(dec));
    return dec;
}
