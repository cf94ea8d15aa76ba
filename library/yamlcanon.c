/* The commands canon, same and events of the program, over the library: what a caller in C looks like. */
#include "yamlcanon.h"
#include <signal.h>
#include <stdio.h>
#include <stdlib.h>
#include <string.h>

struct bytes {
    uint8_t *at;
    size_t n;
};

typedef uint32_t text_call(const uint8_t *, size_t, uint8_t *, size_t, size_t *, yamlcanon_fault *);

static int read_stream(FILE *file, struct bytes *b)
{
    size_t room = 4096, got;
    b->n = 0;
    b->at = malloc(room);
    while (b->at && (got = fread(b->at + b->n, 1, room - b->n, file)) > 0) {
        b->n += got;
        if (b->n == room) {
            uint8_t *more = realloc(b->at, room *= 2);
            if (!more) free(b->at);
            b->at = more;
        }
    }
    return b->at != NULL;
}

static int read_file(const char *name, struct bytes *b)
{
    FILE *file = name ? fopen(name, "rb") : stdin;
    int is_read;
    if (!file) {
        fprintf(stderr, "yaml: cannot open %s\n", name);
        return 0;
    }
    is_read = read_stream(file, b);
    if (ferror(file)) {
        fprintf(stderr, "yaml: 22 ReadFault\n");
        is_read = 0;
    }
    if (name) fclose(file);
    return is_read;
}

static void tell(const yamlcanon_fault *f, const char *side)
{
    char message[YAMLCANON_MESSAGE];
    size_t len = 0;
    if (yamlcanon_message(f, message, sizeof message, &len) == YAMLCANON_DONE) fprintf(stderr, "yaml: %s%s\n", side, message);
}

/* Room of two bytes for each of the input is mostly enough; where it is not, the length is told, and a second call has room. */
static uint32_t text_of(text_call *call, const struct bytes *in, struct bytes *out, yamlcanon_fault *fault)
{
    size_t cap = in->n * 2 + 64;
    uint32_t status;
    out->n = 0;
    out->at = calloc(cap, 1);
    if (!out->at) return YAMLCANON_SHORT;
    status = call(in->at, in->n, out->at, cap, &out->n, fault);
    if (status != YAMLCANON_SHORT) return status;
    free(out->at);
    cap = out->n;
    out->at = calloc(cap, 1);
    return out->at ? call(in->at, in->n, out->at, cap, &out->n, fault) : YAMLCANON_SHORT;
}

static int text(text_call *call, const char *name)
{
    struct bytes in, out;
    yamlcanon_fault fault = {0};
    uint32_t status;
    if (!read_file(name, &in)) return 3;
    status = text_of(call, &in, &out, &fault);
    if (status == YAMLCANON_DONE) fwrite(out.at, 1, out.n, stdout);
    if (status == YAMLCANON_REFUSED) tell(&fault, "");
    free(out.at);
    free(in.at);
    return (int)status;
}

static int same(const char *left_name, const char *right_name)
{
    struct bytes left, right;
    yamlcanon_fault fault = {0};
    uint32_t status;
    if (!read_file(left_name, &left) || !read_file(right_name, &right)) return 3;
    status = yamlcanon_same(left.at, left.n, right.at, right.n, &fault);
    if (status == YAMLCANON_REFUSED) tell(&fault, fault.side ? "right: " : "left: ");
    else puts(status ? "different" : "same");
    free(left.at);
    free(right.at);
    return (int)status;
}

/* The status, or 3 where the output fails. */
static int ended(int status)
{
    if (!fflush(stdout) && !ferror(stdout)) return status;
    fputs("yaml: 23 WriteFault\n", stderr);
    return 3;
}

int main(int n, char **words)
{
    const char *file = n == 3 ? words[2] : NULL;
#ifdef SIGPIPE
    signal(SIGPIPE, SIG_IGN); /* A pipe that nobody reads is error 23, as in the proved program. */
#endif
    if (n >= 2 && n <= 3 && !strcmp(words[1], "canon")) return ended(text(yamlcanon_canonical, file));
    if (n >= 2 && n <= 3 && !strcmp(words[1], "events")) return ended(text(yamlcanon_events, file));
    if (n == 4 && !strcmp(words[1], "same")) return ended(same(words[2], words[3]));
    fputs("yaml: usage\n", stderr);
    return 3;
}
