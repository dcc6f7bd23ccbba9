/* A capture for the programs of this folder: read and checked here, and what is wrong with it said in a sentence. */
#ifndef CAPTURE_H
#define CAPTURE_H

#include "ppe42.h"
#include <errno.h>
#include <stdio.h>
#include <stdlib.h>
#include <string.h>

/* The longest capture and one byte, by which a longer file is known. */
enum { CAPTURE_ROOM = PPE42_MOST + PPE42_TRAILER + 1 };

/* What a refusal says of a capture, and what to do. */
static inline const char *refusal_words(uint32_t refusal) {
    switch (refusal) {
    case PPE42_REFUSED_CAPTURE:
        return "it is under 188 bytes, or its last words are not 156, its length less 156, and 1; have it sent again, whole";
    case PPE42_REFUSED_MEMORY:
        return "its memory is no multiple of 32 bytes; write it again with whole blocks of 32";
    case PPE42_REFUSED_IAR:
        return "its IAR is no multiple of 4; correct that word of its state";
    case PPE42_REFUSED_RESERVED:
        return "a reserved register bit is set, or its halt code is over 5; clear the bits that include/ppe42.h leaves out";
    default:
        return "see that number in include/ppe42.h";
    }
}

/* Ends the program if the answer is a refusal. */
static inline void accepted(const char *program, const char *name, uint64_t answer) {
    uint32_t refusal = ppe42_refusal(answer);
    if (refusal == PPE42_ACCEPTED)
        return;
    fprintf(stderr, "%s: %s is refused with %u: %s\n", program, name, refusal, refusal_words(refusal));
    exit(1);
}

/* Reads a capture into CAPTURE_ROOM bytes; the answer is the length of its memory, and the state follows that. */
static inline size_t read_capture(const char *program, const char *name, uint8_t *capture) {
    FILE *file = fopen(name, "rb");
    size_t length = file ? fread(capture, 1, CAPTURE_ROOM, file) : 0;
    int error = !file || ferror(file) ? errno : 0;
    if (file)
        fclose(file);
    if (error == EISDIR)
        fprintf(stderr, "%s: %s is a directory; name a capture in it\n", program, name);
    else if (error)
        fprintf(stderr, "%s: cannot read %s: %s; name a capture that can be read\n", program, name, strerror(error));
    else if (length == CAPTURE_ROOM)
        fprintf(stderr, "%s: %s is longer than any capture (%d bytes); name a capture\n", program, name, CAPTURE_ROOM - 1);
    if (error || length == CAPTURE_ROOM)
        exit(2);
    uint64_t answer = ppe42_capture_check(capture, length);
    accepted(program, name, answer);
    return ppe42_count(answer);
}

/* Runs a capture in place to the trap that ends a firmware; the answer is the number of steps. */
static inline uint32_t run_to_trap(const char *program, const char *name, uint8_t *capture, size_t length,
                                   const uint8_t *events, size_t events_length) {
    uint8_t *state = capture + length;
    uint64_t answer = ppe42_run(state, PPE42_STATE, capture, length, events, events_length, PPE42_MOST);
    accepted(program, name, answer);
    uint32_t halt = ppe42_get(state, PPE42_HALT);
    if (halt != PPE42_HALT_TRAP) {
        fprintf(stderr, "%s: %s came to no trap, but to steps %u halt %u iar %08X; look for the reason there\n", program, name,
                ppe42_count(answer), halt, ppe42_get(state, PPE42_IAR));
        exit(1);
    }
    return ppe42_count(answer);
}

#endif
