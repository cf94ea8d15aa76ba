/* Reads standard input with libyaml's parser, and writes its events as `yamlcanon events` does: one line
 * for each, in the notation of yaml-test-suite. */
#include <stdio.h>
#include <string.h>
#include <yaml.h>

/* The ASCII characters that stand in a tag as themselves, beside letters and digits. */
static const char plain_in_tags[] = "-#;/?:@&=+$,_.!~*'()[]";

static char buffer[1 << 16];
static size_t held;

static void flush_out(void) {
    fwrite(buffer, 1, held, stdout);
    held = 0;
}

static void put_byte(char byte) {
    if (held == sizeof buffer)
        flush_out();
    buffer[held++] = byte;
}

static void put_bytes(const char *bytes, size_t length) {
    if (length > sizeof buffer - held)
        flush_out();
    if (length > sizeof buffer) {
        fwrite(bytes, 1, length, stdout);
        return;
    }
    memcpy(buffer + held, bytes, length);
    held += length;
}

static void put(const char *text) {
    put_bytes(text, strlen(text));
}

static int stands_in_tags(unsigned char byte) {
    return (byte >= 'a' && byte <= 'z') || (byte >= 'A' && byte <= 'Z') ||
           (byte >= '0' && byte <= '9') || (byte && strchr(plain_in_tags, byte));
}

static void put_properties(const yaml_char_t *anchor, const yaml_char_t *tag) {
    static const char digits[] = "0123456789ABCDEF";

    if (anchor) {
        put(" &");
        put((const char *)anchor);
    }
    if (!tag)
        return;
    put(" <");
    for (; *tag; tag++) {
        if (stands_in_tags(*tag)) {
            put_byte((char)*tag);
        } else {
            put_byte('%');
            put_byte(digits[*tag >> 4]);
            put_byte(digits[*tag & 15]);
        }
    }
    put(">");
}

static const char *escape_of(char byte) {
    switch (byte) {
    case '\\': return "\\\\";
    case '\n': return "\\n";
    case '\t': return "\\t";
    case '\r': return "\\r";
    case '\b': return "\\b";
    default: return NULL;
    }
}

/* A run of bytes that stand as themselves is put whole. */
static void put_value(const char *value, size_t length) {
    size_t start = 0;

    for (size_t at = 0; at < length; at++) {
        const char *escape = escape_of(value[at]);
        if (escape) {
            put_bytes(value + start, at - start);
            put_bytes(escape, 2);
            start = at + 1;
        }
    }
    put_bytes(value + start, length - start);
}

static const char *sign_of(yaml_scalar_style_t style) {
    switch (style) {
    case YAML_SINGLE_QUOTED_SCALAR_STYLE: return " '";
    case YAML_DOUBLE_QUOTED_SCALAR_STYLE: return " \"";
    case YAML_LITERAL_SCALAR_STYLE: return " |";
    case YAML_FOLDED_SCALAR_STYLE: return " >";
    default: return " :";
    }
}

static void put_event(const yaml_event_t *event) {
    switch (event->type) {
    case YAML_STREAM_START_EVENT:
        put("+STR");
        break;
    case YAML_STREAM_END_EVENT:
        put("-STR");
        break;
    case YAML_DOCUMENT_START_EVENT:
        put(event->data.document_start.implicit ? "+DOC" : "+DOC ---");
        break;
    case YAML_DOCUMENT_END_EVENT:
        put(event->data.document_end.implicit ? "-DOC" : "-DOC ...");
        break;
    case YAML_SEQUENCE_START_EVENT:
        put(event->data.sequence_start.style == YAML_FLOW_SEQUENCE_STYLE ? "+SEQ []" : "+SEQ");
        put_properties(event->data.sequence_start.anchor, event->data.sequence_start.tag);
        break;
    case YAML_SEQUENCE_END_EVENT:
        put("-SEQ");
        break;
    case YAML_MAPPING_START_EVENT:
        put(event->data.mapping_start.style == YAML_FLOW_MAPPING_STYLE ? "+MAP {}" : "+MAP");
        put_properties(event->data.mapping_start.anchor, event->data.mapping_start.tag);
        break;
    case YAML_MAPPING_END_EVENT:
        put("-MAP");
        break;
    case YAML_SCALAR_EVENT:
        put("=VAL");
        put_properties(event->data.scalar.anchor, event->data.scalar.tag);
        put(sign_of(event->data.scalar.style));
        put_value((const char *)event->data.scalar.value, event->data.scalar.length);
        break;
    case YAML_ALIAS_EVENT:
        put("=ALI *");
        put((const char *)event->data.alias.anchor);
        break;
    case YAML_NO_EVENT:
        return;
    }
    put_byte('\n');
}

int main(void) {
    yaml_parser_t parser;
    yaml_event_t event;
    int done = 0;

    if (!yaml_parser_initialize(&parser))
        return 2;
    yaml_parser_set_input_file(&parser, stdin);
    while (!done) {
        if (!yaml_parser_parse(&parser, &event)) {
            fprintf(stderr, "libyaml: %s at byte %lu\n", parser.problem,
                    (unsigned long)parser.problem_offset);
            return 1;
        }
        done = event.type == YAML_STREAM_END_EVENT;
        put_event(&event);
        yaml_event_delete(&event);
    }
    yaml_parser_delete(&parser);
    flush_out();
    return 0;
}
