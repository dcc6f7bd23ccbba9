// Reads words through the library, as a 42 and as a 42X, and writes them back.
//   sweep          all 2^32 words, of which 551,620,132 must be legal on the 42 and 573,385,749 on the 42X
//   sweep FROM TO  the words FROM to TO - 1, in hexadecimal
//   sweep COUNT    so many words, spread over all of them
#define _POSIX_C_SOURCE 200809L
#include <inttypes.h>
#include <stdbool.h>
#include <stdint.h>
#include <stdio.h>
#include <stdlib.h>
#include <sys/wait.h>
#include <unistd.h>

#include "ppe42.h"

enum { WORKERS = 2, PORTION = 1 << 27, COMPLAINTS = 10 };

#define ALL (UINT64_C(1) << 32)
#define LEGAL_42 UINT64_C(551620132)  // docs/DECISIONS.md, under Words
#define LEGAL_42X UINT64_C(573385749) // the same, under The 42X
#define STRIDE UINT64_C(2654435761) // odd, so that no word comes twice; 2^32 / 1.618, so that they lie evenly

struct part { uint64_t from, to, stride; };
struct count { uint64_t legal_42, legal_42x, wrong; };

// Whether a word that is legal or not was written back as itself or not at all.
static bool fits(uint32_t word, uint32_t legal, uint64_t written) {
    return legal <= 1 && written == (legal ? ALL + word : 0);
}

// What the 42 has the 42X has too.
static void look(uint32_t word, struct count *count) {
    uint32_t on_42 = ppe42_legal(word), on_42x = ppe42x_legal(word);
    uint64_t by_42 = ppe42_rewrite(word), by_42x = ppe42x_rewrite(word);
    count->legal_42 += on_42;
    count->legal_42x += on_42x;
    if (fits(word, on_42, by_42) && fits(word, on_42x, by_42x) && on_42 <= on_42x) return;
    if (count->wrong++ < COMPLAINTS)
        fprintf(stderr, "%08" PRIX32 ": legal %" PRIu32 " and %" PRIu32 ", written back %09" PRIX64 " and %09" PRIX64 "\n",
                word, on_42, on_42x, by_42, by_42x);
}

// The first worker's progress stands for all, since their parts are equal.
static struct count look_through(struct part part, bool shown) {
    struct count count = {0, 0, 0};
    for (uint64_t i = part.from; i < part.to; i++) {
        look((uint32_t)(i * part.stride), &count);
        uint64_t done = i + 1 - part.from;
        if (shown && done % PORTION == 0) fprintf(stderr, "sweep: %" PRIu64 "%%\n", 100 * done / (part.to - part.from));
    }
    return count;
}

static _Noreturn void stop(const char *why) {
    fprintf(stderr, "sweep: %s\n", why);
    exit(2);
}

// Starts a process for one part; its count comes through the pipe returned.
static int start(struct part part, bool shown) {
    int ends[2];
    if (pipe(ends)) stop("no pipe");
    pid_t child = fork();
    if (child < 0) stop("no process");
    if (child) {
        close(ends[1]);
        return ends[0];
    }
    struct count count = look_through(part, shown);
    _exit(write(ends[1], &count, sizeof count) != sizeof count);
}

static struct count sweep(struct part part) {
    int ends[WORKERS];
    uint64_t size = part.to - part.from;
    for (uint64_t i = 0; i < WORKERS; i++) {
        struct part own = {part.from + size * i / WORKERS, part.from + size * (i + 1) / WORKERS, part.stride};
        ends[i] = start(own, i == 0);
    }
    struct count sum = {0, 0, 0}, count;
    for (int i = 0; i < WORKERS; i++) {
        if (read(ends[i], &count, sizeof count) != sizeof count) stop("a part has no answer");
        sum.legal_42 += count.legal_42;
        sum.legal_42x += count.legal_42x;
        sum.wrong += count.wrong;
    }
    while (wait(NULL) > 0) {}
    return sum;
}

static uint64_t number(const char *text, int base) {
    char *end;
    uint64_t value = strtoull(text, &end, base);
    if (end == text || *end || value > ALL) stop("no number of words");
    return value;
}

int main(int count, char **arguments) {
    struct part part = {0, ALL, 1};
    if (count == 2) part = (struct part){0, number(arguments[1], 10), STRIDE};
    if (count == 3) part = (struct part){number(arguments[1], 16), number(arguments[2], 16), 1};
    if (count > 3 || part.from > part.to) stop("usage: sweep [COUNT | FROM TO]");

    struct count found = sweep(part);
    uint64_t words = part.to - part.from;
    printf("%" PRIu64 " legal on the 42 and %" PRIu64 " on the 42X of %" PRIu64 " words, ", found.legal_42, found.legal_42x, words);
    if (found.wrong) printf("%" PRIu64 " not written back as themselves, or on the 42 alone\n", found.wrong);
    else printf("each written back as itself\n");
    bool counted = words != ALL || (found.legal_42 == LEGAL_42 && found.legal_42x == LEGAL_42X);
    if (!counted) printf("expected %" PRIu64 " and %" PRIu64 " legal\n", LEGAL_42, LEGAL_42X);
    return found.wrong || !counted;
}
