/* time_calls FILE ROUNDS CALLS CALL: calls a function of the library on a file so many times in each round, and prints the
 * microseconds of processor time of one call in the quickest round. CALL: canonical or events. */
#include "yamlcanon.h"
#include <stdio.h>
#include <stdlib.h>
#include <string.h>
#include <time.h>

enum { MOST_INPUT = 1 << 20, BUFFER = 1 << 24 };

static double now(void)
{
    struct timespec time;
    clock_gettime(CLOCK_PROCESS_CPUTIME_ID, &time);
    return (double)time.tv_sec * 1e6 + (double)time.tv_nsec / 1e3;
}

static uint32_t call(const char *name, const uint8_t *input, size_t n, uint8_t *buffer)
{
    yamlcanon_fault fault = {0};
    size_t len = 0;
    if (!strcmp(name, "canonical")) return yamlcanon_canonical(input, n, buffer, BUFFER, &len, &fault);
    return yamlcanon_events(input, n, buffer, BUFFER, &len, &fault);
}

int main(int count, char **words)
{
    if (count != 5) return 3;
    FILE *file = fopen(words[1], "rb");
    uint8_t *input = malloc(MOST_INPUT), *buffer = malloc(BUFFER);
    if (!file || !input || !buffer) return 3;
    size_t n = fread(input, 1, MOST_INPUT, file);
    long rounds = atol(words[2]), calls = atol(words[3]);
    double least = -1;
    for (long round = 0; round < rounds; round++) {
        double since = now();
        for (long done = 0; done < calls; done++)
            if (call(words[4], input, n, buffer) != YAMLCANON_DONE) return 2;
        double took = (now() - since) / (double)calls;
        if (least < 0 || took < least) least = took;
    }
    printf("%f\n", least);
    return 0;
}
