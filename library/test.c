/* Calls the library on each file named on standard input, and says what breaks the header:
 *     test                rooms of every kind, null pointers, digests, messages and positions
 *     test threads N      the same on N threads at once
 *     test stack          on threads with no more stack than the header says that an input of its length takes
 *     test budget         under bounds of memory up to what a call needs
 *     test share          under a bound of 64 times the input and 1 MB
 *     test refused        each request for memory refused in turn (built with -DREFUSE and --wrap for the heap's calls)
 */
#include "yamlcanon.h"
#include <limits.h>
#include <pthread.h>
#include <stdio.h>
#include <stdlib.h>
#include <string.h>

#define UNTOLD ((size_t)-7)
#define ROOM_BYTE 0xa5
#define MOST_THREADS 100
#define MOST_LEVELS 1024

typedef uint32_t text_call(const uint8_t *, size_t, uint8_t *, size_t, size_t *, yamlcanon_fault *);

struct file {
    char name[4096];
    uint8_t *at;
    size_t n;
};

/* What a call left behind it. The room has exactly cap bytes, so that valgrind sees a byte past it. */
struct answer {
    uint32_t status;
    size_t len, cap;
    uint8_t *room;
    yamlcanon_fault fault;
};

static int failed;
static struct file *files;
static size_t count;

static void wrong(const struct file *file, const char *what)
{
    fprintf(stderr, "test: %s: %s\n", file->name, what);
    failed = 1;
}

static int is_untouched(const uint8_t *p, size_t n)
{
    for (size_t i = 0; i < n; i++)
        if (p[i] != ROOM_BYTE) return 0;
    return 1;
}

/* Whether two answers are equal: the same text, the same length, or the same fault. */
static int is_own(const struct answer *a, const struct answer *b)
{
    if (a->status != b->status || a->len != b->len) return 0;
    if (a->status == YAMLCANON_REFUSED) return !memcmp(&a->fault, &b->fault, sizeof a->fault);
    return a->status != YAMLCANON_DONE || !memcmp(a->room, b->room, a->len);
}

/* What the header says of each status. */
static void judge(const struct file *file, const struct answer *a, const yamlcanon_fault *clean)
{
    if (a->status == YAMLCANON_DONE) {
        if (a->len > a->cap) wrong(file, "a text of more bytes than the room");
        else if (!is_untouched(a->room + a->len, a->cap - a->len)) wrong(file, "something behind the text");
    } else if (!is_untouched(a->room, a->cap)) {
        wrong(file, "a room is written though no text is given");
    }
    if (a->status == YAMLCANON_SHORT && a->len <= a->cap) wrong(file, "short though there is room");
    if (a->status > YAMLCANON_SHORT && a->len != UNTOLD) wrong(file, "a length though JSON cannot express it");
    if (a->status != YAMLCANON_REFUSED) {
        if (memcmp(&a->fault, clean, sizeof *clean)) wrong(file, "a fault beside a text or a length");
        return;
    }
    if (a->len != UNTOLD) wrong(file, "a length beside a refusal");
    if (a->fault.number < 1 || a->fault.number > 21 || a->fault.side) wrong(file, "no fault of one input");
    if (a->fault.name[15] || strlen(a->fault.name) < 3) wrong(file, "no name of a fault");
}

static struct answer answer_of(text_call *call, const struct file *file, size_t cap)
{
    struct answer a = {0, UNTOLD, cap, malloc(cap ? cap : 1), {0}};
    yamlcanon_fault clean;
    memset(&a.fault, 0x5a, sizeof a.fault);
    clean = a.fault;
    memset(a.room, ROOM_BYTE, cap);
    a.status = call(file->at, file->n, cap ? a.room : NULL, cap, &a.len, &a.fault);
    if (a.status == YAMLCANON_DIFFERENT || a.status > (call == yamlcanon_json ? YAMLCANON_NO_JSON : YAMLCANON_SHORT)) wrong(file, "no status");
    judge(file, &a, &clean);
    if (yamlcanon_held()) wrong(file, "memory is kept");
    return a;
}

/* The digest as a text of 32 bytes. */
static uint32_t digest(const uint8_t *input, size_t n, uint8_t *out, size_t cap, size_t *len, yamlcanon_fault *fault)
{
    struct file file = {"a digest", NULL, 0};
    uint8_t own[32];
    memset(own, ROOM_BYTE, sizeof own);
    uint32_t status = yamlcanon_sha256(input, n, own, fault);
    if (status != YAMLCANON_DONE) {
        if (!is_untouched(own, sizeof own)) wrong(&file, "written beside a refusal");
        return status;
    }
    *len = sizeof own;
    if (cap < sizeof own) return YAMLCANON_SHORT;
    memcpy(out, own, sizeof own);
    return status;
}

/* The differences of a file from one with another letter at its end, as a text, and a fault of either as one of the file. The copy is no
 * request that a test refuses. */
static uint32_t differences(const uint8_t *input, size_t n, uint8_t *out, size_t cap, size_t *len, yamlcanon_fault *fault)
{
    uint8_t *other = calloc(n + 1, 1);
    size_t at = n;
    if (n) memcpy(other, input, n);
    while (at && (other[at - 1] < 'a' || other[at - 1] > 'y')) at--;
    if (at) other[at - 1]++;
    uint32_t status = yamlcanon_diff(input, n, other, n, 1000, out, cap, len, fault);
    free(other);
    if (status == YAMLCANON_REFUSED) fault->side = 0;
    return status == YAMLCANON_DIFFERENT ? YAMLCANON_DONE : status;
}

/* Lines of JSON. */
static void in_lines(const struct file *file, const struct answer *text)
{
    if (text->room[0] != '{' || text->room[text->len - 1] != '\n') wrong(file, "differences without a start or an end");
}

static void its_own(const struct file *file, const struct answer *text)
{
    struct file written = {"", text->room, text->len};
    struct answer again = answer_of(yamlcanon_canonical, &written, text->len);
    struct answer sum = answer_of(digest, file, 32), its = answer_of(digest, &written, 32);
    yamlcanon_fault fault = {0};
    if (!is_own(&sum, &its)) wrong(file, "another digest than its text");
    free(sum.room);
    free(its.room);
    if (!is_own(&again, text)) wrong(file, "the text is not its own");
    if (yamlcanon_same(file->at, file->n, text->room, text->len, &fault) != YAMLCANON_DONE) wrong(file, "not the same as its text");
    if (yamlcanon_same(file->at, file->n, file->at, file->n, &fault) != YAMLCANON_DONE) wrong(file, "not the same as itself");
    free(again.room);
}

/* The readable text is its own, means what the file means, and is that of the canonical text. */
static void shown(const struct file *file, const struct answer *text)
{
    struct file written = {"", text->room, text->len}, canonical = {"", NULL, 0};
    struct answer again = answer_of(yamlcanon_show, &written, text->len), first = answer_of(yamlcanon_canonical, file, 0);
    struct answer its = answer_of(yamlcanon_canonical, file, first.len);
    yamlcanon_fault fault = {0};
    if (!is_own(&again, text)) wrong(file, "the readable text is not its own");
    if (yamlcanon_same(file->at, file->n, text->room, text->len, &fault) != YAMLCANON_DONE) wrong(file, "not the same as its readable text");
    canonical.at = its.room, canonical.n = its.len;
    free(again.room);
    again = answer_of(yamlcanon_show, &canonical, text->len);
    if (!is_own(&again, text)) wrong(file, "another readable text of the canonical text");
    free(again.room);
    free(first.room);
    free(its.room);
}

/* JSON on one line means what the file means. */
static void in_json(const struct file *file, const struct answer *text)
{
    yamlcanon_fault fault = {0};
    if (!text->len || text->room[text->len - 1] != '\n') wrong(file, "JSON without an end");
    else if (memchr(text->room, '\n', text->len - 1)) return;
    else if (yamlcanon_same(file->at, file->n, text->room, text->len, &fault) != YAMLCANON_DONE) wrong(file, "not the same as its JSON");
}

/* From the line and the column of a byte to those of the next one: a line more where a break ends. */
static void step(const uint8_t *text, size_t k, size_t n, size_t *line, size_t *column)
{
    if (text[k] == '\n' || (text[k] == '\r' && !(k + 1 < n && text[k + 1] == '\n'))) ++*line, *column = 1;
    else *column += text[k] < 128 || text[k] >= 192;
}

/* The line and the column of a byte, counted from the start. */
static void by_definition(const uint8_t *text, size_t at, size_t n, size_t *line, size_t *column)
{
    *line = *column = 1;
    for (size_t k = 0; k < at; k++) step(text, k, n, line, column);
}

/* Whether a file has this line and this column. */
static int is_in(const struct file *file, size_t line, size_t column)
{
    size_t at = file->n >= 3 && !memcmp(file->at, "\xef\xbb\xbf", 3) ? 3 : 0, own_line = 1, own_column = 1;
    for (; at < file->n && !(own_line == line && own_column == column); at++) step(file->at, at, file->n, &own_line, &own_column);
    return own_line == line && own_column == column;
}

/* Of what JSON cannot express. */
static void json_position_of(const struct file *file)
{
    size_t line = UNTOLD, column = UNTOLD, other_line = UNTOLD, other_column = UNTOLD;
    if (yamlcanon_json_position(file->at, file->n, &line, &column) != YAMLCANON_DONE) wrong(file, "no position of what JSON lacks");
    else if (!is_in(file, line, column)) wrong(file, "a position of what JSON lacks that the file does not have");
    if (yamlcanon_json_position_within(file->at, file->n, &other_line, &other_column, 1) != YAMLCANON_NO_MEMORY || other_line != UNTOLD
        || other_column != UNTOLD)
        wrong(file, "a position of what JSON lacks within 1 byte");
}

static void position_of(const struct file *file, const yamlcanon_fault *fault)
{
    size_t line = UNTOLD, column = UNTOLD, own_line, own_column;
    size_t mark = file->n >= 3 && !memcmp(file->at, "\xef\xbb\xbf", 3) ? 3 : 0;
    uint32_t status = yamlcanon_position(file->at, file->n, fault, &line, &column);
    if (yamlcanon_held()) wrong(file, "memory is kept by position");
    if (status != YAMLCANON_DONE) {
        if (fault->number >= 2 && fault->number <= 19) wrong(file, "no position");
        if (line != UNTOLD || column != UNTOLD) wrong(file, "a position beside a refusal");
        return;
    }
    if (fault->number > 11) {
        if (!is_in(file, line, column)) wrong(file, "a position that the file does not have");
        return;
    }
    by_definition(file->at + mark, fault->place - mark, file->n - mark, &own_line, &own_column);
    if (line != own_line || column != own_column) wrong(file, "another position");
}

/* The message of a fault, in the words of the header of 1.0. */
static void own_message(const yamlcanon_fault *f, char *text, size_t room)
{
    const char *words = f->number < 12 ? " at byte" : f->number < 18 ? " at event" : f->number == 18 ? " in document" : " in node";
    int n = snprintf(text, room, "%u %s", (unsigned)f->number, f->name);
    if (f->number >= 2 && f->number <= 19) n += snprintf(text + n, room - (size_t)n, "%s %llu", words, (unsigned long long)f->place);
    if (f->number == 19)
        snprintf(text + n, room - (size_t)n, ", entries %llu and %llu", (unsigned long long)f->first, (unsigned long long)f->second);
}

/* Rooms of every length up to the one that is always enough. */
static void message_of(const struct file *file, const yamlcanon_fault *fault)
{
    char own[200], *text = malloc(YAMLCANON_MESSAGE);
    own_message(fault, own, sizeof own);
    size_t n = strlen(own);
    for (size_t cap = 0; cap <= YAMLCANON_MESSAGE; cap++) {
        size_t len = UNTOLD, written = cap > n ? n + 1 : 0;
        memset(text, ROOM_BYTE, YAMLCANON_MESSAGE);
        uint32_t status = yamlcanon_message(fault, cap ? text : NULL, cap, &len);
        if (status != (cap > n ? YAMLCANON_DONE : YAMLCANON_SHORT) || len != n) wrong(file, "another status or length of a message");
        if (written && strcmp(text, own)) wrong(file, "another message");
        if (!is_untouched((uint8_t *)text + written, YAMLCANON_MESSAGE - written)) wrong(file, "something behind a message");
    }
    free(text);
}

/* Null pointers where a length or a room is 0. */
static void nulls(void)
{
    static const uint8_t of_nothing[] = {0xe3, 0xb0, 0xc4, 0x42, 0x98, 0xfc, 0x1c, 0x14};
    struct file null = {"null pointers", NULL, 0};
    yamlcanon_fault fault = {0};
    size_t len = UNTOLD, line = UNTOLD, column = UNTOLD;
    uint8_t digest[32] = {0};
    if (yamlcanon_canonical(NULL, 0, NULL, 0, &len, &fault) || len) wrong(&null, "canonical");
    if (yamlcanon_canonical_within(NULL, 0, NULL, 0, &len, &fault, 0) || len) wrong(&null, "canonical_within");
    if (yamlcanon_events(NULL, 0, NULL, 0, &len, &fault) != YAMLCANON_SHORT || len != 10) wrong(&null, "events");
    if (yamlcanon_events_within(NULL, 0, NULL, 0, &len, &fault, 0) != YAMLCANON_SHORT || len != 10) wrong(&null, "events_within");
    if (yamlcanon_show(NULL, 0, NULL, 0, &len, &fault) || len) wrong(&null, "show");
    if (yamlcanon_show_within((const uint8_t *)"a", 1, NULL, 0, &len, &fault, 0) != YAMLCANON_SHORT || len != 6) wrong(&null, "show_within");
    if (yamlcanon_json(NULL, 0, NULL, 0, &len, &fault) || len) wrong(&null, "json");
    if (yamlcanon_json_within((const uint8_t *)"a", 1, NULL, 0, &len, &fault, 0) != YAMLCANON_SHORT || len != 4) wrong(&null, "json_within");
    if (yamlcanon_same(NULL, 0, NULL, 0, &fault)) wrong(&null, "same");
    if (yamlcanon_same_within((const uint8_t *)"a", 1, NULL, 0, &fault, 0) != YAMLCANON_DIFFERENT) wrong(&null, "same_within");
    if (yamlcanon_diff(NULL, 0, NULL, 0, 1000, NULL, 0, &len, &fault) || len) wrong(&null, "diff");
    if (yamlcanon_diff_within((const uint8_t *)"a", 1, NULL, 0, 0, NULL, 0, &len, &fault, 0) != YAMLCANON_DIFFERENT || len)
        wrong(&null, "diff_within");
    if (yamlcanon_diff_within((const uint8_t *)"a", 1, NULL, 0, 1, NULL, 0, &len, &fault, 0) != YAMLCANON_SHORT || !len)
        wrong(&null, "diff_within without room");
    if (yamlcanon_sha256(NULL, 0, digest, &fault) || memcmp(digest, of_nothing, sizeof of_nothing)) wrong(&null, "sha256");
    if (yamlcanon_sha256_within(NULL, 0, digest, &fault, 0)) wrong(&null, "sha256_within");
    for (size_t i = 0; i < sizeof fault; i++)
        if (((const uint8_t *)&fault)[i]) wrong(&null, "a fault of nothing");
    fault.number = YAMLCANON_FAULT_SYNTAX;
    if (yamlcanon_message(&fault, NULL, 0, &len) != YAMLCANON_SHORT || len != 18) wrong(&null, "message");
    if (yamlcanon_position(NULL, 0, &fault, &line, &column) != YAMLCANON_DONE || line != 1 || column != 1) wrong(&null, "position");
    fault.place = 1;
    if (yamlcanon_position(NULL, 0, &fault, &line, &column) != YAMLCANON_REFUSED) wrong(&null, "position behind the end");
    fault.number = YAMLCANON_FAULT_EQUAL_KEYS;
    if (yamlcanon_position(NULL, 0, &fault, &line, &column) != YAMLCANON_REFUSED) wrong(&null, "position of no node");
    if (yamlcanon_position_within(NULL, 0, &fault, &line, &column, 1) != YAMLCANON_NO_MEMORY) wrong(&null, "position within 1 byte");
    if (yamlcanon_json_position(NULL, 0, &line, &column) != YAMLCANON_REFUSED) wrong(&null, "json_position");
    if (line != 1 || column != 1) wrong(&null, "a position beside a refusal");
    if (yamlcanon_held()) wrong(&null, "memory is kept");
}

/* Numbers that no call gives, and the greatest. It runs on a stack of 16 KiB. */
static void *numbers(void *unused)
{
    struct file own = {"numbers of a caller", NULL, 0};
    yamlcanon_fault fault = {.name = "TooLong"};
    size_t len = UNTOLD;
    if (yamlcanon_message(&fault, NULL, 0, &len) != YAMLCANON_REFUSED || len != UNTOLD) wrong(&own, "0 is a fault");
    fault.number = 24;
    if (yamlcanon_message(&fault, NULL, 0, &len) != YAMLCANON_REFUSED || len != UNTOLD) wrong(&own, "24 is a fault");
    fault = (yamlcanon_fault){19, 1, UINT64_MAX, UINT64_MAX, UINT64_MAX, "EqualKeys"};
    message_of(&own, &fault);
    if (yamlcanon_version() != YAMLCANON_VERSION || yamlcanon_form() != YAMLCANON_FORM) wrong(&own, "another version or form");
    if (strcmp(yamlcanon_release(), YAMLCANON_RELEASE)) wrong(&own, "another release");
    return unused;
}

/* No room, one byte too little, as much as the text has, more. */
static void rooms(text_call *call, const struct file *file)
{
    struct answer none = answer_of(call, file, 0), other = answer_of(call, file, none.status == YAMLCANON_SHORT ? none.len : 1000);
    if (none.status == YAMLCANON_SHORT) {
        struct answer less = answer_of(call, file, none.len - 1), more = answer_of(call, file, none.len + 100);
        if (less.status != YAMLCANON_SHORT || less.len != none.len) wrong(file, "a room of one byte less");
        if (other.status != YAMLCANON_DONE || other.len != none.len) wrong(file, "a room of the length");
        if (!is_own(&other, &more)) wrong(file, "two texts");
        if (call == yamlcanon_canonical) its_own(file, &other);
        if (call == yamlcanon_show) shown(file, &other);
        if (call == yamlcanon_json) in_json(file, &other);
        if (call == differences) in_lines(file, &other);
        free(less.room);
        free(more.room);
    } else if (none.status == YAMLCANON_REFUSED) {
        if (!is_own(&other, &none)) wrong(file, "two refusals");
        message_of(file, &none.fault);
        position_of(file, &none.fault);
    } else if (none.status == YAMLCANON_NO_JSON && is_own(&other, &none)) {
        json_position_of(file);
    } else if (none.status == YAMLCANON_DONE ? none.len : !is_own(&other, &none)) {
        wrong(file, "an empty room with a text, or two answers");
    }
    free(none.room);
    free(other.room);
}

static text_call *const calls[] = {yamlcanon_canonical, yamlcanon_events, yamlcanon_show, yamlcanon_json, differences, digest};
#define CALLS (sizeof calls / sizeof *calls)

/* All inputs, under this bound of memory for the thread. */
static void *all_rooms(void *bound)
{
    yamlcanon_budget((uintptr_t)bound);
    for (size_t i = 0; i < count; i++)
        for (size_t call = 0; call < CALLS; call++) rooms(calls[call], &files[i]);
    return NULL;
}

/* Each thread has a bound of its own, which its calls don't reach. */
static void on_threads(int threads)
{
    pthread_t ids[MOST_THREADS];
    pthread_attr_t large;
    pthread_attr_init(&large);
    pthread_attr_setstacksize(&large, 8 << 20);
    for (int i = 0; i < threads; i++)
        if (pthread_create(&ids[i], &large, all_rooms, (void *)((uintptr_t)(i + 1) << 30))) exit(2);
    for (int i = 0; i < threads; i++) pthread_join(ids[i], NULL);
}

static void *on_its_stack(void *file)
{
    for (size_t call = 0; call < CALLS; call++) rooms(calls[call], file);
    return NULL;
}

/* The texts that `rooms` gives back to the calls are longer than their inputs may be, and no deeper. */
static void on_small_stacks(void)
{
    pthread_t id;
    pthread_attr_t small;
    pthread_attr_init(&small);
    if (pthread_attr_setstacksize(&small, 16384 < PTHREAD_STACK_MIN ? PTHREAD_STACK_MIN : 16384)) exit(2);
    if (pthread_create(&id, &small, numbers, NULL)) exit(2);
    pthread_join(id, NULL);
    for (size_t i = 0; i < count; i++) {
        pthread_attr_setstacksize(&small, (256 << 10) + 1536 * (files[i].n < MOST_LEVELS ? files[i].n : MOST_LEVELS));
        if (pthread_create(&id, &small, on_its_stack, &files[i])) exit(2);
        pthread_join(id, NULL);
    }
}

/* Where memory was refused, the answer is 21 with nothing written, or the own one. */
static void without_memory(const struct file *file, const struct answer *own, const struct answer *a)
{
    if (a->status == YAMLCANON_REFUSED && a->fault.number == 21) {
        if (strcmp(a->fault.name, "OutOfMemory") || a->fault.place) wrong(file, "another name or place of 21");
    } else if (!is_own(a, own)) {
        wrong(file, "another answer for want of memory");
    }
}

/* A call answers under a bound of its peak; under less it is refused, or goes a way that takes less. A bound holds for its thread. */
static void bounds(text_call *call, const struct file *file)
{
    size_t cap = file->n * 40 + 5000, peak;
    yamlcanon_budget(0);
    struct answer own = answer_of(call, file, cap);
    peak = yamlcanon_peak();
    for (size_t step = peak / 64 + 1, bound = 1; peak && bound < peak + step; bound += step) {
        size_t bytes = bound < peak ? bound : peak;
        yamlcanon_budget(bytes);
        struct answer a = answer_of(call, file, cap);
        if (yamlcanon_peak() > bytes) wrong(file, "more than the bound is held");
        if (bytes == peak && a.status != own.status) wrong(file, "refused under a bound of the peak");
        without_memory(file, &own, &a);
        free(a.room);
    }
    if (peak) {
        yamlcanon_budget(peak - 1);
        struct answer a = answer_of(call, file, cap);
        if (yamlcanon_peak() >= peak) wrong(file, "the bound is passed");
        without_memory(file, &own, &a);
        free(a.room);
    }
    yamlcanon_budget(0);
    free(own.room);
}

/* An event text stands in the room and nowhere else, so a call takes no more memory where it gives the text. */
static void held_once(const struct file *file)
{
    yamlcanon_budget(0);
    struct answer none = answer_of(yamlcanon_events, file, 0);
    size_t peak = yamlcanon_peak();
    yamlcanon_budget(0);
    struct answer own = answer_of(yamlcanon_events, file, none.status == YAMLCANON_SHORT ? none.len : 0);
    if (yamlcanon_peak() != peak) wrong(file, "an event text takes memory beside its room");
    free(none.room);
    free(own.room);
}

/* A bound that a call is given is as one of the thread, which is then as it was: a byte below the peak, where a call is refused. */
static void within(const struct file *file)
{
    size_t cap = file->n * 40 + 5000, peak;
    uint32_t below;
    uint8_t digest[32];
    yamlcanon_budget(0);
    struct answer own = answer_of(yamlcanon_canonical, file, cap), a = {0, UNTOLD, cap, own.room, {0}};
    peak = yamlcanon_peak();
    if (peak < 2) return;
    yamlcanon_budget(peak - 1);
    a.status = yamlcanon_canonical_within(file->at, file->n, own.room, cap, &a.len, &a.fault, peak);
    if (a.status != own.status || yamlcanon_peak() != peak) wrong(file, "refused within its peak");
    below = yamlcanon_canonical_within(file->at, file->n, own.room, cap, &a.len, &a.fault, peak - 1);
    if (own.status == YAMLCANON_DONE && below != YAMLCANON_REFUSED) wrong(file, "not refused below its peak");
    if (yamlcanon_sha256_within(file->at, file->n, digest, &a.fault, 1) != YAMLCANON_REFUSED) wrong(file, "a digest within 1 byte");
    if (yamlcanon_same_within(file->at, file->n, file->at, file->n, &a.fault, 0) != own.status) wrong(file, "not the same within no bound");
    (void)yamlcanon_events_within(file->at, file->n, own.room, cap, &a.len, &a.fault, 0);
    a.status = yamlcanon_canonical(file->at, file->n, own.room, cap, &a.len, &a.fault);
    if (a.status != below) wrong(file, "the bound of the thread is lost");
    yamlcanon_budget(0);
    free(own.room);
}

/* The same of readable texts. */
static void shown_within(const struct file *file)
{
    size_t cap = file->n * 40 + 5000, peak;
    yamlcanon_budget(0);
    struct answer own = answer_of(yamlcanon_show, file, cap), a = {0, UNTOLD, cap, own.room, {0}};
    peak = yamlcanon_peak();
    if (peak < 2) return;
    yamlcanon_budget(peak - 1);
    a.status = yamlcanon_show_within(file->at, file->n, own.room, cap, &a.len, &a.fault, peak);
    if (a.status != own.status || yamlcanon_peak() != peak) wrong(file, "readable text refused within its peak");
    if (yamlcanon_json_within(file->at, file->n, own.room, cap, &a.len, &a.fault, 1) != YAMLCANON_REFUSED) wrong(file, "JSON within 1 byte");
    a.status = yamlcanon_diff_within(file->at, file->n, NULL, 0, 1, own.room, cap, &a.len, &a.fault, 1);
    if (a.status != YAMLCANON_REFUSED) wrong(file, "differences within 1 byte");
    a.status = yamlcanon_show(file->at, file->n, own.room, cap, &a.len, &a.fault);
    if (own.status == YAMLCANON_DONE && a.status != YAMLCANON_REFUSED) wrong(file, "the bound of the thread is lost by show");
    yamlcanon_budget(0);
    free(own.room);
}

static void *has_no_bound(void *unused)
{
    struct file text = {"a thread beside one with a bound", (uint8_t *)"{a: [b, c], d: e}", 17};
    struct answer a = answer_of(yamlcanon_canonical, &text, 1000);
    if (a.status != YAMLCANON_DONE) wrong(&text, "refused under another thread's bound");
    free(a.room);
    return unused;
}

static void under_bounds(void)
{
    pthread_t beside;
    pthread_attr_t large;
    pthread_attr_init(&large);
    pthread_attr_setstacksize(&large, 8 << 20);
    yamlcanon_budget(1);
    if (pthread_create(&beside, &large, has_no_bound, NULL)) exit(2);
    pthread_join(beside, NULL);
    for (size_t i = 0; i < count; i++) {
        for (size_t call = 0; call < CALLS; call++) bounds(calls[call], &files[i]);
        held_once(&files[i]);
        within(&files[i]);
        shown_within(&files[i]);
    }
}

#ifdef REFUSE
void *__real_malloc(size_t size);
void *__real_realloc(void *p, size_t size);
static long left = -1, requests;

static int is_refused(void)
{
    if (left > 0) return left-- == 1;
    return left == 0;
}

void *__wrap_malloc(size_t size) { return is_refused() ? NULL : __real_malloc(size); }
void *__wrap_realloc(void *p, size_t size) { return is_refused() ? NULL : __real_realloc(p, size); }

/* From one request on, memory is refused, until a call ends before that request. */
static void in_turn(text_call *call, const struct file *file)
{
    size_t cap = file->n * 40 + 5000;
    struct answer own = answer_of(call, file, cap);
    for (long at = 1, is_reached = 1; is_reached; at++) {
        struct answer a = {0, UNTOLD, cap, malloc(cap), {0}};
        yamlcanon_fault clean = a.fault;
        memset(a.room, ROOM_BYTE, cap);
        left = at;
        a.status = call(file->at, file->n, a.room, cap, &a.len, &a.fault);
        is_reached = left == 0;
        left = -1;
        requests += is_reached;
        judge(file, &a, &clean);
        if (yamlcanon_held()) wrong(file, "memory is kept");
        if (is_reached) without_memory(file, &own, &a);
        free(a.room);
    }
    free(own.room);
}

static void all_refused(void)
{
    for (size_t i = 0; i < count; i++) {
        for (size_t call = 0; call < CALLS; call++) in_turn(calls[call], &files[i]);
    }
    printf("%ld requests refused; ", requests);
}
#else
static void all_refused(void)
{
    exit(2);
}
#endif

/* Under a bound of 64 times the input and 1 MB no more is held, and the answer is 21 or the one without a bound, which
 * comes again afterwards. Whether it was 21. */
static int is_over_share(text_call *call, const struct file *file)
{
    size_t most = 64 * file->n + (1 << 20);
    struct answer first = answer_of(call, file, 0);
    size_t cap = first.status == YAMLCANON_SHORT ? first.len : 0;
    yamlcanon_budget(most);
    struct answer a = answer_of(call, file, cap);
    if (yamlcanon_peak() > most) wrong(file, "more than the bound is held");
    yamlcanon_budget(0);
    struct answer own = answer_of(call, file, cap);
    without_memory(file, &own, &a);
    int is_over = a.status == YAMLCANON_REFUSED && a.fault.number == 21;
    if (own.status == YAMLCANON_REFUSED && own.fault.number == 21) wrong(file, "refused for memory without a bound");
    free(first.room);
    free(a.room);
    free(own.room);
    return is_over;
}

static void within_shares(void)
{
    size_t over = 0;
    for (size_t i = 0; i < count; i++) over += is_over_share(yamlcanon_canonical, &files[i]) + is_over_share(yamlcanon_events, &files[i]);
    printf("%zu of %zu calls need more, ", over, 2 * count);
}

static void read_file(const char *name)
{
    FILE *stream = fopen(name, "rb");
    files = realloc(files, (count + 1) * sizeof *files);
    struct file *file = &files[count++];
    snprintf(file->name, sizeof file->name, "%s", name);
    if (!stream || fseek(stream, 0, SEEK_END)) exit(2);
    file->n = (size_t)ftell(stream);
    file->at = malloc(file->n + 1);
    rewind(stream);
    if (fread(file->at, 1, file->n, stream) != file->n) exit(2);
    fclose(stream);
}

int main(int n, char **words)
{
    char name[4096];
    const char *what = n > 1 ? words[1] : "";
    while (fgets(name, sizeof name, stdin)) {
        name[strcspn(name, "\n")] = 0;
        read_file(name);
    }
    nulls();
    numbers(NULL);
    if (!strcmp(what, "threads") && n == 3 && atoi(words[2]) <= MOST_THREADS) on_threads(atoi(words[2]));
    else if (!strcmp(what, "stack")) on_small_stacks();
    else if (!strcmp(what, "budget")) under_bounds();
    else if (!strcmp(what, "share")) within_shares();
    else if (!strcmp(what, "refused")) all_refused();
    else if (n == 1) all_rooms(NULL);
    else return 2;
    for (size_t i = 0; i < count; i++) free(files[i].at);
    free(files);
    printf("%zu inputs, %s\n", count, failed ? "wrong" : "well");
    return failed;
}
