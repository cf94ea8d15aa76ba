/* Reads standard input into memory, scans it so many times with libyaml's scanner, and prints the
 * microseconds of processor time of the quickest pass and how many tags a pass finds. */
#include <stdio.h>
#include <stdlib.h>
#include <time.h>
#include <yaml.h>

static unsigned char text[1 << 24];

static long now(void) {
    struct timespec time;
    clock_gettime(CLOCK_PROCESS_CPUTIME_ID, &time);
    return time.tv_sec * 1000000L + time.tv_nsec / 1000;
}

/* How many tags stand there, or -1. */
static long scan(size_t size) {
    yaml_parser_t parser;
    yaml_token_t token;
    long tags = 0;
    int done = 0;

    if (!yaml_parser_initialize(&parser))
        return -1;
    yaml_parser_set_input_string(&parser, text, size);
    while (!done) {
        if (!yaml_parser_scan(&parser, &token)) {
            fprintf(stderr, "libyaml: %s at byte %lu\n", parser.problem,
                    (unsigned long)parser.problem_offset);
            return -1;
        }
        if (token.type == YAML_TAG_TOKEN)
            tags++;
        done = token.type == YAML_STREAM_END_TOKEN;
        yaml_token_delete(&token);
    }
    yaml_parser_delete(&parser);
    return tags;
}

int main(int count, char **words) {
    int passes = count > 1 ? atoi(words[1]) : 1;
    size_t size = fread(text, 1, sizeof text, stdin);
    long best = -1, tags = 0;

    for (int pass = 0; pass < passes; pass++) {
        long start = now();
        tags = scan(size);
        long spent = now() - start;
        if (tags < 0)
            return 1;
        if (best < 0 || spent < best)
            best = spent;
    }
    printf("%ld %ld\n", best, tags);
    return 0;
}
