/* Runs a whole trace by one call, and prints what it answers. The trace is on standard input. `run`
   takes one that drives its cycles itself, or has none. `run MARK` takes one of commands alone, on a
   heap that collects by itself: where fewer than MARK words are free, and with 0 as it keeps up.
   The exit status is that of the call, 1 where the text can't be written, 2 for more arguments. */
#include "rheap.h"
#include <stdio.h>
#include <stdlib.h>

/* A block of so many bytes that begins as the old one. It has one byte at least, since no pointer of
   a call may be null. */
static uint8_t *resized(uint8_t *old, size_t length) {
    uint8_t *block = (uint8_t *)realloc(old, length > 0 ? length : 1);
    if (block == NULL) {
        fputs("run: memory was refused\n", stderr);
        exit(RHEAP_RUN_NO_MEMORY);
    }
    return block;
}

/* All of standard input. */
static uint8_t *read_all(size_t *length) {
    size_t room = 4096;
    uint8_t *bytes = resized(NULL, room);
    size_t count;
    *length = 0;
    while ((count = fread(bytes + *length, 1, room - *length, stdin)) > 0) {
        *length += count;
        if (*length == room) {
            room *= 2;
            bytes = resized(bytes, room);
        }
    }
    return bytes;
}

/* Runs the trace, in the way that the words ask for. */
static uint8_t run(char **words, const uint8_t *trace, size_t trace_length, uint8_t *answers,
                   size_t room, size_t *length) {
    if (words[1] == NULL) {
        return rheap_run(trace, trace_length, answers, room, length);
    }
    return rheap_run_paced(trace, trace_length, (uint32_t)strtoul(words[1], NULL, 10), answers, room,
                           length);
}

int main(int argc, char **argv) {
    uint8_t *trace;
    uint8_t *answers;
    size_t trace_length;
    size_t length;
    uint8_t status;

    if (argc > 2) {
        fputs("run: it takes at most a MARK\n", stderr);
        return 2;
    }
    trace = read_all(&trace_length);
    answers = resized(NULL, trace_length);
    status = run(argv, trace, trace_length, answers, trace_length, &length);
    if (status == RHEAP_RUN_NO_ROOM) {
        /* The call told how many bytes are due. Nothing is kept of it, so it is made anew. */
        answers = resized(answers, length);
        status = run(argv, trace, trace_length, answers, length, &length);
    }
    if (status == RHEAP_RUN_DONE && fwrite(answers, 1, length, stdout) != length) {
        status = 1;
    }
    free(answers);
    free(trace);
    return status;
}
