// 1 MiB of memory from S-records and to them, by the library beside srec_cat. ./speed starts it.
//   convert read FILE OUT         S-records to raw memory
//   convert write FILE OUT        raw memory to S-records
//   convert make MEMORY RECORDS   raw memory from a fixed seed, and S3 records that name its bytes one by one, backwards
//   convert turns TURNS           a table: the call alone, this as a process and srec_cat, in turns, on the files of ./speed
#define _POSIX_C_SOURCE 200809L
#include <fcntl.h>
#include <inttypes.h>
#include <stdbool.h>
#include <stdint.h>
#include <stdio.h>
#include <stdlib.h>
#include <string.h>
#include <sys/wait.h>
#include <time.h>
#include <unistd.h>

#include "ppe42.h"

enum { MOST_FILE = 1 << 25 };
static uint8_t file[MOST_FILE], memory[PPE42_MOST];

static _Noreturn void stop(const char *why, const char *what) {
    fprintf(stderr, "convert: %s: %s\n", why, what);
    exit(2);
}

static size_t read_file(const char *path, uint8_t *bytes, size_t most) {
    FILE *in = fopen(path, "rb");
    if (!in) stop("cannot be read", path);
    size_t len = fread(bytes, 1, most, in);
    if (getc(in) != EOF) stop("too long", path);
    fclose(in);
    return len;
}

static void write_file(const char *path, const uint8_t *bytes, size_t len) {
    FILE *out = fopen(path, "wb");
    if (!out || fwrite(bytes, 1, len, out) != len || fclose(out)) stop("cannot be written", path);
}

static void convert_to_memory(const char *in, const char *out) {
    size_t len = read_file(in, file, MOST_FILE);
    if (ppe42_srec_read(memory, PPE42_MOST, file, len)) stop("refused", in);
    write_file(out, memory, PPE42_MOST);
}

static void convert_to_records(const char *in, const char *out) {
    size_t len = read_file(in, memory, PPE42_MOST);
    uint64_t answer = ppe42_srec_write(memory, len, file, MOST_FILE);
    if (ppe42_refusal(answer)) stop("refused", in);
    write_file(out, file, ppe42_count(answer));
}

static void make(const char *raw, const char *records) {
    uint64_t seed = 42;
    for (size_t i = 0; i < PPE42_MOST; i++) {
        seed ^= seed << 13;
        seed ^= seed >> 7;
        seed ^= seed << 17;
        memory[i] = (uint8_t)(seed >> 16);
    }
    write_file(raw, memory, PPE42_MOST);
    FILE *out = fopen(records, "w");
    if (!out) stop("cannot be written", records);
    for (unsigned at = PPE42_MOST; at--;) {
        unsigned sum = 6 + (at >> 16) + (at >> 8) + at + memory[at];
        fprintf(out, "S306%08X%02X%02X\n", at, memory[at], ~sum & 255);
    }
    fputs("S70500000000FA\n", out);
    if (fclose(out)) stop("cannot be written", records);
}

static double now(void) {
    struct timespec time;
    clock_gettime(CLOCK_MONOTONIC, &time);
    return 1e3 * (double)time.tv_sec + 1e-6 * (double)time.tv_nsec;
}

// The milliseconds of one call on what is already in memory.
static double call(bool reads, size_t len) {
    double began = now();
    uint64_t answer =
        reads ? ppe42_srec_read(memory, PPE42_MOST, file, len) : ppe42_srec_write(memory, PPE42_MOST, file, MOST_FILE);
    double took = now() - began;
    if (ppe42_refusal(answer)) stop("refused", reads ? "read" : "write");
    return took;
}

// The milliseconds from a process's start to its end; what it says is thrown away.
static double process(char *const *command) {
    double began = now();
    pid_t child = fork();
    if (!child) {
        int nowhere = open("/dev/null", O_WRONLY);
        dup2(nowhere, 2);
        execvp(command[0], command);
        _exit(127);
    }
    int status;
    if (child < 0 || waitpid(child, &status, 0) != child || status) stop("failed", command[0]);
    return now() - began;
}

static void keep_least(double *least, double took) {
    if (took < *least) *least = took;
}

// One row of the table; both processes must have written the same.
static void take_turns(const char *name, unsigned turns, char *const *own, char *const *theirs) {
    static uint8_t ours[MOST_FILE], other[MOST_FILE];
    bool reads = !strcmp(own[1], "read");
    double least[3] = {1e9, 1e9, 1e9};
    size_t len = reads ? read_file(own[2], file, MOST_FILE) : read_file(own[2], memory, PPE42_MOST);
    for (; turns; turns--) {
        keep_least(&least[0], call(reads, len));
        keep_least(&least[1], process(own));
        keep_least(&least[2], process(theirs));
    }
    size_t written = read_file(own[3], ours, MOST_FILE);
    if (written != read_file("theirs", other, MOST_FILE) || memcmp(ours, other, written)) stop("not the same", name);
    printf("| %s | %.1f | %.2f | %.2f | %.2f | %.2f | %.2f |\n", name, 1e-6 * (double)len, least[0], least[1], least[2],
           least[1] / least[2], least[0] / least[2]);
    fflush(stdout);
}

static void print_table(char *self, unsigned turns) {
    static const struct { const char *name; char *in; } reads[] = {
        {"read S3 lines of 32 bytes", "s3"},
        {"read srec_cat's own lines", "own"},
        {"read S3 lines of one byte, backwards", "bytes"},
    };
    puts("| milliseconds | MB | call alone | whole process | srec_cat | process/srec_cat | call/srec_cat |");
    puts("|---|---|---|---|---|---|---|");
    for (size_t i = 0; i < sizeof reads / sizeof *reads; i++)
        take_turns(reads[i].name, turns, (char *[]){self, "read", reads[i].in, "ours", NULL},
                   (char *[]){"srec_cat", reads[i].in, "-motorola", "-o", "theirs", "-binary", NULL});
    take_turns("write S3 lines of 32 bytes", turns, (char *[]){self, "write", "memory", "ours", NULL},
               (char *[]){"srec_cat", "memory", "-binary", "-o", "theirs", "-motorola", "-address-length=4", "-obs=32",
                          "-disable=header", "-disable=data-count", "-execution-start-address=0", NULL});
}

int main(int count, char **arguments) {
    const char *what = count > 1 ? arguments[1] : "";
    if (count == 4 && !strcmp(what, "read")) convert_to_memory(arguments[2], arguments[3]);
    else if (count == 4 && !strcmp(what, "write")) convert_to_records(arguments[2], arguments[3]);
    else if (count == 4 && !strcmp(what, "make")) make(arguments[2], arguments[3]);
    else if (count == 3 && !strcmp(what, "turns")) print_table(arguments[0], (unsigned)strtoul(arguments[2], NULL, 10));
    else stop("usage", "convert read | write | make, two files; or convert turns TURNS");
    return 0;
}
