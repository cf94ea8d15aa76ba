/* Reads standard input into memory, parses it so many times with libyaml, and prints the
 * microseconds of the quickest pass and how many bytes of scalar content a pass finds. */
#include <stdio.h>
#include <stdlib.h>
#include <time.h>
#include <yaml.h>

static unsigned char text[1 << 24];

static long now(void) {
    struct timespec time;
    clock_gettime(CLOCK_MONOTONIC, &time);
    return time.tv_sec * 1000000L + time.tv_nsec / 1000;
}

/* The bytes of content of all scalars, or -1. */
static long parse(size_t size) {
    yaml_parser_t parser;
    yaml_event_t event;
    long content = 0;
    int done = 0;

    if (!yaml_parser_initialize(&parser))
        return -1;
    yaml_parser_set_input_string(&parser, text, size);
    while (!done) {
        if (!yaml_parser_parse(&parser, &event)) {
            fprintf(stderr, "libyaml: %s at byte %lu\n", parser.problem,
                    (unsigned long)parser.problem_offset);
            return -1;
        }
        if (event.type == YAML_SCALAR_EVENT)
            content += event.data.scalar.length;
        done = event.type == YAML_STREAM_END_EVENT;
        yaml_event_delete(&event);
    }
    yaml_parser_delete(&parser);
    return content;
}

int main(int count, char **words) {
    int passes = count > 1 ? atoi(words[1]) : 1;
    size_t size = fread(text, 1, sizeof text, stdin);
    long best = -1, content = 0;

    for (int pass = 0; pass < passes; pass++) {
        long start = now();
        content = parse(size);
        long spent = now() - start;
        if (content < 0)
            return 1;
        if (best < 0 || spent < best)
            best = spent;
    }
    printf("%ld %ld\n", best, content);
    return 0;
}
