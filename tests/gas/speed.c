// The line assembler's speed beside GNU as's, on one file of lines. ./speed starts it.
//   speed FILE OUT                        assembles the lines of FILE and writes their words, big-endian
//   speed turns TURNS FILE OUT AS..       in turns: the calls alone, that as a process, AS.. of no lines, AS.. FILE
#define _POSIX_C_SOURCE 200809L
#include <inttypes.h>
#include <stdbool.h>
#include <stdint.h>
#include <stdio.h>
#include <stdlib.h>
#include <string.h>
#include <sys/wait.h>
#include <time.h>
#include <unistd.h>

#include "ppe42.h"

enum { CALLS, PROCESS, AS_NONE, AS, MEASURED };
static const char *const heads[MEASURED] = {"calls", "process", "as, no lines", "as"};

static _Noreturn void stop(const char *why, const char *what) {
    fprintf(stderr, "speed: %s: %s\n", why, what);
    exit(2);
}

static double now(void) {
    struct timespec time;
    clock_gettime(CLOCK_MONOTONIC, &time);
    return (double)time.tv_sec + 1e-9 * (double)time.tv_nsec;
}

struct bytes { uint8_t *at; size_t len; };

static struct bytes read_file(const char *path) {
    FILE *in = fopen(path, "rb");
    if (!in || fseek(in, 0, SEEK_END)) stop("cannot be read", path);
    long len = ftell(in);
    rewind(in);
    struct bytes file = {malloc((size_t)len + 1), (size_t)len};
    if (!file.at || fread(file.at, 1, file.len, in) != file.len) stop("cannot be read", path);
    fclose(in);
    return file;
}

static void write_file(const char *path, struct bytes words) {
    FILE *out = fopen(path, "wb");
    if (!out || fwrite(words.at, 1, words.len, out) != words.len || fclose(out)) stop("cannot be written", path);
}

// The words of all lines; a line that is refused ends it.
static struct bytes assemble(struct bytes file) {
    struct bytes words = {malloc(4 * file.len + 4), 0};
    if (!words.at) stop("no room", "words");
    for (size_t from = 0; from < file.len;) {
        const uint8_t *end = memchr(file.at + from, '\n', file.len - from);
        size_t len = end ? (size_t)(end - file.at) - from : file.len - from;
        uint64_t answer = ppe42_assemble(file.at + from, len);
        if (answer >> 32) {
            file.at[from + len] = 0;
            stop("refused", (char *)file.at + from);
        }
        for (int shift = 24; shift >= 0; shift -= 8) words.at[words.len++] = (uint8_t)(answer >> shift);
        from += len + 1;
    }
    return words;
}

// The seconds from a process's start to its end.
static double process(char **command) {
    double began = now();
    pid_t child = fork();
    if (!child) {
        execvp(command[0], command);
        _exit(127);
    }
    int status;
    if (child < 0 || waitpid(child, &status, 0) != child || status) stop("failed", command[0]);
    return now() - began;
}

static void print_row(const char *name, const double seconds[MEASURED]) {
    printf("%-6s", name);
    for (int i = 0; i < MEASURED; i++) printf(" %12.5f", seconds[i]);
    putchar('\n');
}

// as_command has room for the name of its file behind it.
static void take_turns(unsigned turns, const char *path, char **own, char **as_command, int as_count) {
    struct bytes file = read_file(path);
    double least[MEASURED];
    size_t lines = 0;
    printf("%-6s", "turn");
    for (int i = 0; i < MEASURED; i++) printf(" %12s", heads[i]);
    puts("   seconds");
    for (unsigned turn = 1; turn <= turns; turn++) {
        double seconds[MEASURED], began = now();
        struct bytes words = assemble(file);
        seconds[CALLS] = now() - began;
        lines = words.len / 4;
        free(words.at);
        seconds[PROCESS] = process(own);
        as_command[as_count] = "/dev/null";
        seconds[AS_NONE] = process(as_command);
        as_command[as_count] = (char *)path;
        seconds[AS] = process(as_command);
        for (int i = 0; i < MEASURED; i++)
            if (turn == 1 || seconds[i] < least[i]) least[i] = seconds[i];
        char name[16];
        snprintf(name, sizeof name, "%u", turn);
        print_row(name, seconds);
    }
    print_row("least", least);
    printf("%zu lines of %zu bytes: %.0f a second by calls, %.0f as a process, %.0f by as\n", lines, file.len,
           (double)lines / least[CALLS], (double)lines / least[PROCESS], (double)lines / least[AS]);
    printf("the process takes %.2f times as long as as, the calls %.2f times\n", least[PROCESS] / least[AS],
           least[CALLS] / least[AS]);
    free(file.at);
}

int main(int count, char **arguments) {
    if (count == 3) {
        struct bytes file = read_file(arguments[1]), words = assemble(file);
        write_file(arguments[2], words);
    } else if (count > 5 && !strcmp(arguments[1], "turns")) {
        char *own[] = {arguments[0], arguments[3], arguments[4], NULL}, *as_command[16] = {NULL};
        if (count - 5 > 14) stop("too many words", "AS");
        memcpy(as_command, arguments + 5, (size_t)(count - 5) * sizeof *as_command);
        take_turns((unsigned)strtoul(arguments[2], NULL, 10), arguments[3], own, as_command, count - 5);
    } else {
        stop("usage", "speed FILE OUT | speed turns TURNS FILE OUT AS..");
    }
    return 0;
}
