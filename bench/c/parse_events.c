/* Reads standard input with libyaml's parser, and prints how many events it has. */
#include <stdio.h>
#include <yaml.h>

int main(void) {
    yaml_parser_t parser;
    yaml_event_t event;
    unsigned long count = 0;
    int done = 0;

    if (!yaml_parser_initialize(&parser))
        return 2;
    yaml_parser_set_input_file(&parser, stdin);
    while (!done) {
        if (!yaml_parser_parse(&parser, &event)) {
            fprintf(stderr, "libyaml: %s at byte %lu\n", parser.problem,
                    (unsigned long)parser.problem_offset);
            return 1;
        }
        done = event.type == YAML_STREAM_END_EVENT;
        count++;
        yaml_event_delete(&event);
    }
    yaml_parser_delete(&parser);
    printf("%lu\n", count);
    return 0;
}
