/* A goroutine's call runs on the stack of its thread, whose size Go leaves to the system (`ulimit -s`). So each call looks at how
 * much of that stack is left, and goes to a thread of its own where that may not be enough. */
#define _GNU_SOURCE
#include "stack.h"
#include <pthread.h>
#include <stdint.h>

/* What a call on n bytes takes at most: a byte opens one level of nesting at most, up to 1,024 of them. */
#define BASE ((size_t)256 << 10)
#define LEVEL ((size_t)1536)
#define LEVELS ((size_t)1024)
/* The stack of a thread to which a call is handed. */
#define GIVEN ((size_t)4 << 20)

/* This thread's stack: its lowest byte and the one behind it. Both are 1 where the system does not tell. */
static _Thread_local uintptr_t lowest, end;

static void find_stack(void)
{
    pthread_attr_t attr;
    void *at = NULL;
    size_t size = 0;
    if (!pthread_getattr_np(pthread_self(), &attr)) {
        if (pthread_attr_getstack(&attr, &at, &size)) at = NULL;
        pthread_attr_destroy(&attr);
    }
    lowest = at ? (uintptr_t)at : 1;
    end = at ? lowest + size : 1;
}

static int has_stack_for(size_t n)
{
    uintptr_t here = (uintptr_t)__builtin_frame_address(0);
    if (!lowest) find_stack();
    return lowest <= here && here < end && here - lowest >= BASE + LEVEL * (n < LEVELS ? n : LEVELS);
}

enum { SAME = YC_JSON + 1, SHA256, DIFF, VALUES, POSITION, JSON_POSITION };

struct work {
    int which;
    const uint8_t *left, *right;
    size_t left_n, right_n, lines, cap, memory;
    uint8_t *out;
    yamlcanon_rooms rooms;
    yamlcanon_fault fault;
    yc_answer answer;
};

static void *call(void *at)
{
    struct work *w = at;
    yc_answer *a = &w->answer;
    switch (w->which) {
    case YC_CANONICAL:
        a->status = yamlcanon_canonical_within(w->left, w->left_n, w->out, w->cap, &a->len, &a->fault, w->memory);
        break;
    case YC_EVENTS:
        a->status = yamlcanon_events_within(w->left, w->left_n, w->out, w->cap, &a->len, &a->fault, w->memory);
        break;
    case YC_SHOW:
        a->status = yamlcanon_show_within(w->left, w->left_n, w->out, w->cap, &a->len, &a->fault, w->memory);
        break;
    case YC_JSON:
        a->status = yamlcanon_json_within(w->left, w->left_n, w->out, w->cap, &a->len, &a->fault, w->memory);
        break;
    case SAME:
        a->status = yamlcanon_same_within(w->left, w->left_n, w->right, w->right_n, &a->fault, w->memory);
        break;
    case DIFF:
        a->status = yamlcanon_diff_within(w->left, w->left_n, w->right, w->right_n, w->lines, w->out, w->cap, &a->len, &a->fault, w->memory);
        break;
    case POSITION:
        a->status = yamlcanon_position_within(w->left, w->left_n, &w->fault, &a->line, &a->column, w->memory);
        break;
    case JSON_POSITION:
        a->status = yamlcanon_json_position_within(w->left, w->left_n, &a->line, &a->column, w->memory);
        break;
    case VALUES:
        a->status = yamlcanon_values_within(w->left, w->left_n, &w->rooms, &a->lengths, &a->fault, w->memory);
        break;
    default:
        a->status = yamlcanon_sha256_within(w->left, w->left_n, w->out, &a->fault, w->memory);
    }
    return NULL;
}

/* Where no thread can be had, memory is lacking. */
static yc_answer elsewhere(struct work *w)
{
    pthread_attr_t attr;
    pthread_t thread;
    w->answer = (yc_answer){.status = YAMLCANON_REFUSED, .fault = {.number = YAMLCANON_FAULT_OUT_OF_MEMORY, .name = "OutOfMemory"}};
    if (pthread_attr_init(&attr)) return w->answer;
    if (!pthread_attr_setstacksize(&attr, GIVEN) && !pthread_create(&thread, &attr, call, w)) pthread_join(thread, NULL);
    pthread_attr_destroy(&attr);
    return w->answer;
}

static yc_answer made(struct work *w, size_t n)
{
    if (!has_stack_for(n)) return elsewhere(w);
    call(w);
    return w->answer;
}

yc_answer yc_text(int which, const uint8_t *input, size_t n, uint8_t *out, size_t cap, size_t memory)
{
    struct work w = {.which = which, .left = input, .left_n = n, .out = out, .cap = cap, .memory = memory};
    return made(&w, n);
}

yc_answer yc_same(const uint8_t *left, size_t left_n, const uint8_t *right, size_t right_n, size_t memory)
{
    struct work w = {.which = SAME, .left = left, .left_n = left_n, .right = right, .right_n = right_n, .memory = memory};
    return made(&w, left_n > right_n ? left_n : right_n);
}

yc_answer yc_diff(const uint8_t *left, size_t left_n, const uint8_t *right, size_t right_n, size_t lines, uint8_t *out, size_t cap,
                  size_t memory)
{
    struct work w = {.which = DIFF, .left = left, .left_n = left_n, .right = right, .right_n = right_n, .memory = memory};
    w.lines = lines;
    w.out = out;
    w.cap = cap;
    return made(&w, left_n > right_n ? left_n : right_n);
}

yc_answer yc_values(const uint8_t *input, size_t n, yamlcanon_value *values, size_t values_cap, uint32_t *parts, size_t parts_cap,
                    uint8_t *texts, size_t texts_cap, size_t memory)
{
    struct work w = {.which = VALUES, .left = input, .left_n = n, .memory = memory};
    w.rooms = (yamlcanon_rooms){values, values_cap, parts, parts_cap, texts, texts_cap};
    return made(&w, n);
}

yc_answer yc_sha256(const uint8_t *input, size_t n, uint8_t *out, size_t memory)
{
    struct work w = {.which = SHA256, .left = input, .left_n = n, .out = out, .memory = memory};
    return made(&w, n);
}

uint32_t yc_message(uint32_t number, uint64_t place, uint64_t first, uint64_t second, char *out, size_t *len)
{
    yamlcanon_fault fault = {.number = number, .place = place, .first = first, .second = second};
    return yamlcanon_message(&fault, out, YAMLCANON_MESSAGE, len);
}

/* For a fault at a byte nothing is read, which takes little stack. */
yc_answer yc_position(uint32_t number, uint64_t place, uint64_t first, uint64_t second, const uint8_t *input, size_t n, size_t memory)
{
    struct work w = {.which = POSITION, .left = input, .left_n = n, .memory = memory};
    w.fault = (yamlcanon_fault){.number = number, .place = place, .first = first, .second = second};
    if (number > YAMLCANON_FAULT_BAD_TAG) return made(&w, n);
    call(&w);
    return w.answer;
}

yc_answer yc_json_position(const uint8_t *input, size_t n, size_t memory)
{
    struct work w = {.which = JSON_POSITION, .left = input, .left_n = n, .memory = memory};
    return made(&w, n);
}
