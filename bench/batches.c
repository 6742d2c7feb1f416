/* Notes the long batches of a program that reads the clock after each: preloaded by
   `LD_PRELOAD=batches.so`, built by `cc -O2 -shared -fPIC -o batches.so bench/batches.c`.

   A batch is the time from one reading of the monotonic clock to the next. At its end the program
   leaves a text in the file that BATCHES_TO names: a line for each batch of BATCHES_FROM nanoseconds
   or more (10,000), with when it ended and how long it took, in nanoseconds. The last line has the
   last reading, and 0. At most 1,048,576 batches are noted, the first ones. A program that reads no
   clock leaves nothing. */
#define _GNU_SOURCE
#include <dlfcn.h>
#include <stdint.h>
#include <stdio.h>
#include <stdlib.h>
#include <sys/mman.h>
#include <time.h>

#define MOST 1048576

struct batch {
    uint64_t ended;
    uint64_t took;
};

static int (*real)(clockid_t, struct timespec *);
static struct batch *batches;
static uint64_t noted, last;
static uint64_t least = 10000;

/* The notes are mapped, and touched at once, so that no collector looks through them and no page is
   made while a batch runs. */
__attribute__((constructor)) static void begin(void) {
    const char *from = getenv("BATCHES_FROM");
    real = (int (*)(clockid_t, struct timespec *))dlsym(RTLD_NEXT, "clock_gettime");
    least = from ? strtoull(from, NULL, 10) : least;
    batches = mmap(NULL, MOST * sizeof *batches, PROT_READ | PROT_WRITE,
                   MAP_PRIVATE | MAP_ANONYMOUS | MAP_POPULATE, -1, 0);
    if (batches == MAP_FAILED) {
        abort();
    }
}

int clock_gettime(clockid_t clock, struct timespec *at) {
    int status = real(clock, at);
    if (clock == CLOCK_MONOTONIC && status == 0 && batches) {
        uint64_t now = (uint64_t)at->tv_sec * 1000000000 + (uint64_t)at->tv_nsec;
        if (last && now - last >= least && noted < MOST) {
            batches[noted++] = (struct batch){now, now - last};
        }
        last = now;
    }
    return status;
}

__attribute__((destructor)) static void end(void) {
    const char *to = getenv("BATCHES_TO");
    FILE *text = to && last ? fopen(to, "w") : NULL;
    if (!text) {
        return;
    }
    for (uint64_t at = 0; at < noted; at++) {
        fprintf(text, "%lu %lu\n", batches[at].ended, batches[at].took);
    }
    fprintf(text, "%lu 0\n", last);
    fclose(text);
}
