// lacking SYMBOLS: names each instruction of a disassembly (objdump -dz, on standard input) that the PPE 42 lacks, with its
// function; SYMBOLS (readelf -sW) has the functions' sizes. Zero words behind a function's end, or in assembly behind a label
// without a size, are fill where the next label or the end of the section follows them.
#include "ppe42.h"
#include <stdio.h>
#include <string.h>

// The end of the function at a label. Where assembly gives no size, the word at the label is an instruction all the same.
static unsigned end_of(FILE *symbols, unsigned label, const char *name) {
    char line[512], symbol[256];
    unsigned at;
    int size;
    rewind(symbols);
    while (fgets(line, sizeof line, symbols))
        if (sscanf(line, "%*d: %x %i FUNC %*s %*s %*s %255s", &at, &size, symbol) == 3 && at == label && size > 0 &&
            strcmp(symbol, name) == 0)
            return label + size;
    return label + 4;
}

int main(int argc, char **argv) {
    FILE *symbols = argc == 2 ? fopen(argv[1], "r") : NULL;
    if (!symbols) {
        fprintf(stderr, "lacking: no symbols to read; write lacking SYMBOLS <DISASSEMBLY\n");
        return 2;
    }
    char line[512], function[256] = "";
    unsigned at, a, b, c, d, end = 0, zeros = 0, words = 0, lacking = 0;
    while (fgets(line, sizeof line, stdin)) {
        if (strncmp(line, "Disassembly", 11) == 0)
            end = 0;
        if (sscanf(line, "%x <%255[^>]>:", &at, function) == 2) {
            unsigned function_end = end_of(symbols, at, function);
            end = function_end > end ? function_end : end;
            zeros = 0;
        }
        if (sscanf(line, " %x:\t%2x %2x %2x %2x", &at, &a, &b, &c, &d) != 5)
            continue;
        uint32_t word = (uint32_t)a << 24 | b << 16 | c << 8 | d;
        if (word == 0 && at >= end) {
            zeros++;
            continue;
        }
        if (zeros > 0)
            printf("%s:%8x:\tzero words (%u), and no label behind them\n", function, at - 4 * zeros, zeros);
        words += zeros + 1;
        lacking += zeros;
        zeros = 0;
        if (ppe42_legal(word))
            continue;
        lacking++;
        printf("%s:%s", function, line);
    }
    printf("%u words, of which the PPE 42 lacks %u\n", words, lacking);
    return words == 0 ? 2 : lacking > 0;
}
