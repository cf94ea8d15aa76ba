/* Calls yamlcanon_values on each file named on standard input, and says what breaks the header: rooms that are exact, larger, null, or
 * short of one value, part or byte; bounds of memory; numbers of parts and places that are not what the header promises. */
#include "yamlcanon.h"
#include <stdio.h>
#include <stdlib.h>
#include <string.h>

#define ROOM_BYTE 0xa5
#define UNTOLD ((size_t)-7)

static int failed;
static const char *name;
static yamlcanon_fault clean;

static void wrong(const char *what)
{
    fprintf(stderr, "values_test: %s: %s\n", name, what);
    failed = 1;
}

/* What a call left behind it, in rooms of these lengths. */
struct answer {
    uint32_t status;
    yamlcanon_lengths caps, lengths;
    yamlcanon_rooms rooms;
    yamlcanon_fault fault;
};

static void *room(size_t bytes)
{
    void *at = malloc(bytes ? bytes : 1);
    if (!at) exit(3);
    return memset(at, ROOM_BYTE, bytes ? bytes : 1);
}

static struct answer answer_of(const uint8_t *input, size_t n, yamlcanon_lengths caps, size_t memory)
{
    struct answer a = {0, caps, {UNTOLD, UNTOLD, UNTOLD, UNTOLD}, {0}, clean};
    a.rooms.values_cap = caps.values;
    a.rooms.parts_cap = caps.parts;
    a.rooms.texts_cap = caps.texts;
    a.rooms.values = caps.values ? room(caps.values * sizeof *a.rooms.values) : NULL;
    a.rooms.parts = caps.parts ? room(caps.parts * sizeof *a.rooms.parts) : NULL;
    a.rooms.texts = caps.texts ? room(caps.texts) : NULL;
    a.status = memory ? yamlcanon_values_within(n ? input : NULL, n, &a.rooms, &a.lengths, &a.fault, memory)
                      : yamlcanon_values(n ? input : NULL, n, &a.rooms, &a.lengths, &a.fault);
    return a;
}

static void let_go(struct answer *a)
{
    free(a->rooms.values);
    free(a->rooms.parts);
    free(a->rooms.texts);
}

static int is_untouched(const void *at, size_t from, size_t to)
{
    for (size_t i = from; i < to; i++)
        if (((const uint8_t *)at)[i] != ROOM_BYTE) return 0;
    return 1;
}

/* Behind what was given, or everywhere, the rooms are as they were. */
static void judge_rooms(const struct answer *a, yamlcanon_lengths given)
{
    size_t one = sizeof *a->rooms.values, part = sizeof *a->rooms.parts;
    if (!is_untouched(a->rooms.values, given.values * one, a->caps.values * one)) wrong("something behind the values");
    if (!is_untouched(a->rooms.parts, given.parts * part, a->caps.parts * part)) wrong("something behind the parts");
    if (!is_untouched(a->rooms.texts, given.texts, a->caps.texts)) wrong("something behind the texts");
}

static void judge_value(const struct answer *a, size_t i)
{
    const yamlcanon_value *v = &a->rooms.values[i];
    size_t most = v->kind < YAMLCANON_KIND_SEQUENCE ? a->lengths.texts : a->lengths.parts;
    if (v->kind > YAMLCANON_KIND_MAPPING) wrong("a kind above 7");
    if (v->tag_start >= v->tag_end || v->tag_end > a->lengths.texts) wrong("a tag is not among the texts");
    if (v->start > v->end || v->end > most) {
        wrong("a place is not among the texts or the parts");
        return;
    }
    if (v->kind == YAMLCANON_KIND_MAPPING && (v->end - v->start) % 2) wrong("a key without a value");
    for (size_t k = v->start; v->kind >= YAMLCANON_KIND_SEQUENCE && k < v->end; k++)
        if (a->rooms.parts[k] >= i) wrong("a part is not before its value");
}

static void judge(const struct answer *a)
{
    yamlcanon_lengths none = {0, 0, 0, 0};
    judge_rooms(a, a->status == YAMLCANON_DONE ? a->lengths : none);
    if (a->status != YAMLCANON_REFUSED && memcmp(&a->fault, &clean, sizeof clean)) wrong("a fault beside values or lengths");
    if (a->status == YAMLCANON_REFUSED && (a->lengths.values != UNTOLD || a->lengths.documents != UNTOLD)) wrong("lengths beside a refusal");
    if (a->status != YAMLCANON_DONE) return;
    if (a->lengths.documents > a->lengths.parts) wrong("more documents than parts");
    for (size_t k = 0; k < a->lengths.documents; k++)
        if (a->rooms.parts[k] >= a->lengths.values) wrong("a document is no value");
    for (size_t i = 0; i < a->lengths.values; i++) judge_value(a, i);
}

static int are_same(const struct answer *a, const struct answer *b)
{
    return !memcmp(&a->lengths, &b->lengths, sizeof a->lengths) && (!a->lengths.values || !memcmp(a->rooms.values, b->rooms.values, a->lengths.values * sizeof *a->rooms.values))
        && (!a->lengths.parts || !memcmp(a->rooms.parts, b->rooms.parts, a->lengths.parts * sizeof *a->rooms.parts))
        && (!a->lengths.texts || !memcmp(a->rooms.texts, b->rooms.texts, a->lengths.texts));
}

/* One room less or larger than it has to be. */
static void try_room(const uint8_t *input, size_t n, const struct answer *exact, yamlcanon_lengths caps, uint32_t wanted, const char *what)
{
    struct answer a = answer_of(input, n, caps, 0);
    if (a.status != wanted) wrong(what);
    if (memcmp(&a.lengths, &exact->lengths, sizeof a.lengths)) wrong("other lengths in other rooms");
    if (a.status == YAMLCANON_DONE && !are_same(&a, exact)) wrong("other values in other rooms");
    judge(&a);
    let_go(&a);
}

static void try_rooms(const uint8_t *input, size_t n, const struct answer *exact)
{
    yamlcanon_lengths caps = exact->lengths, more = {caps.values + 1, caps.parts + 7, caps.texts + 100, 0};
    try_room(input, n, exact, more, YAMLCANON_DONE, "short though there is room");
    size_t *less[] = {&caps.values, &caps.parts, &caps.texts};
    for (size_t k = 0; k < 3; k++) {
        if (!*less[k]) continue;
        --*less[k];
        try_room(input, n, exact, caps, YAMLCANON_SHORT, "not short though a room lacks one");
        ++*less[k];
    }
}

/* Under each of some bounds the values, or want of memory. */
static void try_bounds(const uint8_t *input, size_t n, const struct answer *exact)
{
    for (size_t memory = 1 << 10; memory < 1 << 22; memory *= 2) {
        struct answer a = answer_of(input, n, exact->lengths, memory);
        if (a.status == YAMLCANON_REFUSED ? a.fault.number != YAMLCANON_FAULT_OUT_OF_MEMORY : !are_same(&a, exact)) wrong("another answer under a bound");
        if (yamlcanon_peak() > memory || yamlcanon_held()) wrong("more memory than the bound, or some that is kept");
        judge(&a);
        let_go(&a);
    }
}

/* The rejection is that of the canonical text. */
static void try_refusal(const uint8_t *input, size_t n, const struct answer *a)
{
    yamlcanon_fault fault = clean;
    uint8_t byte;
    size_t len = 0;
    if (yamlcanon_canonical(input, n, &byte, 0, &len, &fault) != YAMLCANON_REFUSED || memcmp(&fault, &a->fault, sizeof fault))
        wrong("another refusal than that of the canonical text");
}

static void try_file(const uint8_t *input, size_t n)
{
    yamlcanon_lengths none = {0, 0, 0, 0};
    struct answer first = answer_of(input, n, none, 0);
    judge(&first);
    if (first.status == YAMLCANON_REFUSED) {
        try_refusal(input, n, &first);
        return;
    }
    struct answer exact = answer_of(input, n, first.lengths, 0);
    if (exact.status != YAMLCANON_DONE || memcmp(&first.lengths, &exact.lengths, sizeof first.lengths)) wrong("no values in rooms of their lengths");
    if (first.status == YAMLCANON_DONE && first.lengths.values) wrong("values without rooms");
    judge(&exact);
    try_rooms(input, n, &exact);
    try_bounds(input, n, &exact);
    let_go(&exact);
}

int main(void)
{
    char line[4096];
    size_t files = 0;
    memset(&clean, 0x11, sizeof clean);
    for (; fgets(line, sizeof line, stdin); files++) {
        line[strcspn(line, "\n")] = 0;
        name = line;
        FILE *file = fopen(line, "rb");
        if (!file || fseek(file, 0, SEEK_END)) return 3;
        size_t n = (size_t)ftell(file);
        uint8_t *input = room(n);
        rewind(file);
        if (fread(input, 1, n, file) != n) return 3;
        fclose(file);
        try_file(input, n);
        free(input);
    }
    printf("%zu files\n", files);
    return failed || !files;
}
