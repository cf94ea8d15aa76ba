/* records < NAMES > RECORDS: what the library answers on each file named on standard input, a name a line. Two builds of the library agree
 * where their records are the same bytes: of each file all four texts, `same` of it with itself, with the file before, and with its own
 * canonical text, and the differences from the file before. */
#include "yamlcanon.h"
#include <inttypes.h>
#include <stdio.h>
#include <stdlib.h>
#include <string.h>

struct bytes {
    uint8_t *at;
    size_t n;
};

typedef uint32_t text_call(const uint8_t *, size_t, uint8_t *, size_t, size_t *, yamlcanon_fault *);

static void *had(void *at)
{
    if (at) return at;
    fputs("records: no memory\n", stderr);
    exit(3);
}

static struct bytes read_whole(const char *name)
{
    FILE *file = fopen(name, "rb");
    struct bytes b = {0, 0};
    if (file && !fseek(file, 0, SEEK_END)) {
        b.n = (size_t)ftell(file);
        b.at = had(malloc(b.n + 1));
        rewind(file);
        if (fread(b.at, 1, b.n, file) == b.n && !fclose(file)) return b;
    }
    fprintf(stderr, "records: cannot read %s\n", name);
    exit(3);
}

static void put(const char *call, uint32_t status, const yamlcanon_fault *fault)
{
    printf("%s %" PRIu32, call, status);
    if (status == YAMLCANON_REFUSED)
        printf(" %" PRIu32 " %" PRIu32 " %" PRIu64 " %" PRIu64 " %" PRIu64 " %.16s", fault->number, fault->side, fault->place, fault->first,
               fault->second, fault->name);
    putchar('\n');
}

/* The text of a call, empty where it is refused. */
static struct bytes text(const char *name, text_call *call, struct bytes in)
{
    yamlcanon_fault fault = {0};
    size_t cap = 2 * in.n + 64;
    struct bytes out = {had(calloc(cap, 1)), 0};
    uint32_t status = call(in.at, in.n, out.at, cap, &out.n, &fault);
    if (status == YAMLCANON_SHORT) {
        free(out.at);
        out.at = had(calloc(out.n, 1));
        status = call(in.at, in.n, out.at, out.n, &out.n, &fault);
    }
    put(name, status, &fault);
    if (status) out.n = 0;
    printf("%zu\n", out.n);
    fwrite(out.at, 1, out.n, stdout);
    return out;
}

static void same(struct bytes left, struct bytes right)
{
    yamlcanon_fault fault = {0};
    put("same", yamlcanon_same(left.at, left.n, right.at, right.n, &fault), &fault);
}

static void differences(struct bytes left, struct bytes right)
{
    yamlcanon_fault fault = {0};
    size_t len = 0;
    uint32_t status = yamlcanon_diff(left.at, left.n, right.at, right.n, 1000, NULL, 0, &len, &fault);
    struct bytes out = {had(calloc(len + 1, 1)), len};
    if (status == YAMLCANON_SHORT) status = yamlcanon_diff(left.at, left.n, right.at, right.n, 1000, out.at, out.n, &len, &fault);
    put("diff", status, &fault);
    fwrite(out.at, 1, out.n, stdout);
    free(out.at);
}

int main(void)
{
    char name[4096];
    struct bytes before = {had(calloc(1, 1)), 0};
    while (fgets(name, sizeof name, stdin)) {
        name[strcspn(name, "\n")] = 0;
        struct bytes in = read_whole(name), canonical, events, shown, json;
        printf("= %s\n", name);
        canonical = text("canonical", yamlcanon_canonical, in);
        events = text("events", yamlcanon_events, in);
        shown = text("show", yamlcanon_show, in);
        json = text("json", yamlcanon_json, in);
        same(in, in);
        same(in, before);
        same(canonical, in);
        differences(in, before);
        free(before.at);
        free(canonical.at);
        free(events.at);
        free(shown.at);
        free(json.at);
        before = in;
    }
    free(before.at);
    return ferror(stdout) || fflush(stdout) ? 3 : 0;
}
