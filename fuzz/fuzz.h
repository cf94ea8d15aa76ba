/* fuzz.h: what the targets share. A target asks the library as a caller in C does, holds each answer against what yamlcanon.h
 * says of it, and ends the process where it differs.
 *
 * The library has no counters of libFuzzer's, since the prover's compiler builds it: so what is new about an input is told by
 * counters of our own, over its events or its refusal (`notice`).
 */
#ifndef FUZZ_H
#define FUZZ_H

#include "yamlcanon.h"
#include <stdint.h>
#include <stdio.h>
#include <stdlib.h>
#include <string.h>
#include <sys/mman.h>
#include <unistd.h>

#define ROOM_BYTE 0xA5
#define UNTOLD ((size_t)-7)
/* Texts up to this length are asked for with a room of every size. */
#define EVERY_ROOM 24
/* What a call may hold for each byte of its input, by docs/using/PERFORMANCE.md, and what it needs at least. */
#define MOST_A_BYTE 1400
#define MOST_AT_LEAST (1 << 20)

#define HOLDS(what)                                                                                                                 \
    do {                                                                                                                            \
        if (!(what)) {                                                                                                              \
            fprintf(stderr, "fuzz: does not hold, %s:%d: %s\n", __FILE__, __LINE__, #what);                                         \
            abort();                                                                                                                \
        }                                                                                                                           \
    } while (0)

typedef uint32_t text_call(const uint8_t *, size_t, uint8_t *, size_t, size_t *, yamlcanon_fault *);

struct text {
    const uint8_t *at;
    size_t n;
};

/* Memory that ends at a page that can't be touched: a byte behind it, read or written, ends the process. */
struct wall {
    uint8_t *at;
    size_t size;
};

/* A room of so many bytes before the wall. What it held before is gone. */
static inline uint8_t *before_wall(struct wall *wall, size_t n)
{
    enum { page = 4096 };
    if (!wall->at || n > wall->size) {
        if (wall->at) munmap(wall->at, wall->size + page);
        wall->size = (n + 16 * page) / page * page;
        wall->at = mmap(NULL, wall->size + page, PROT_READ | PROT_WRITE, MAP_PRIVATE | MAP_ANONYMOUS, -1, 0);
        if (wall->at == MAP_FAILED || mprotect(wall->at + wall->size, page, PROT_NONE)) _exit(77);
    }
    return wall->at + wall->size - n;
}

/* A copy of a text before the wall. */
static inline struct text copied(struct wall *wall, struct text text)
{
    uint8_t *at = before_wall(wall, text.n);
    if (text.n) memcpy(at, text.at, text.n);
    return (struct text){at, text.n};
}

static inline int is_equal(struct text left, struct text right)
{
    return left.n == right.n && (!left.n || !memcmp(left.at, right.at, left.n));
}

static inline uint64_t digest(struct text text)
{
    uint64_t sum = 0xcbf29ce484222325u;
    for (size_t i = 0; i < text.n; i++) sum = (sum ^ text.at[i]) * 0x100000001b3u;
    return sum;
}

/* Each byte is the one before it, and the first is a room's. */
static inline int is_room_untouched(const uint8_t *at, size_t n)
{
    return !n || (at[0] == ROOM_BYTE && !memcmp(at, at + 1, n - 1));
}

struct answer {
    uint32_t status;
    struct text text;
    size_t need;
    yamlcanon_fault fault;
};

static inline void hold_fault(const yamlcanon_fault *fault, uint64_t most_place)
{
    size_t name = strnlen(fault->name, sizeof fault->name);
    HOLDS(fault->number >= 1 && fault->number <= 21 && fault->side <= 1);
    HOLDS(name > 0 && name < sizeof fault->name);
    for (size_t i = name; i < sizeof fault->name; i++) HOLDS(!fault->name[i]);
    if (fault->number >= 2 && fault->number <= 11) HOLDS(fault->place <= most_place);
    if (fault->number == 19) HOLDS(fault->first < fault->second);
    if (fault->number != 19) HOLDS(!fault->first && !fault->second);
}

/* One call into a room of so many bytes. Holds what the header says of each status, and that nothing is kept. */
static inline struct answer ask(text_call *call, struct text input, struct wall *wall, size_t cap)
{
    enum { FRONT = 16 };
    struct answer answer = {0, {NULL, 0}, 0, {0}};
    yamlcanon_fault clean;
    uint8_t *front = before_wall(wall, FRONT + cap), *out = front + FRONT;
    size_t len = UNTOLD;
    memset(front, ROOM_BYTE, FRONT + cap);
    memset(&clean, 0, sizeof clean);
    memset(&answer.fault, 0, sizeof answer.fault);
    answer.status = call(input.at, input.n, out, cap, &len, &answer.fault);
    HOLDS(is_room_untouched(front, FRONT));
    HOLDS(yamlcanon_held() == 0);
    if (answer.status == YAMLCANON_DONE) {
        HOLDS(len <= cap && is_room_untouched(out + len, cap - len));
        answer.text = (struct text){out, len};
    } else {
        HOLDS(is_room_untouched(out, cap));
        HOLDS(answer.status == YAMLCANON_SHORT ? len != UNTOLD && len > cap : len == UNTOLD);
    }
    HOLDS(answer.status == YAMLCANON_DONE || answer.status == YAMLCANON_SHORT || answer.status == YAMLCANON_REFUSED);
    if (answer.status == YAMLCANON_REFUSED) hold_fault(&answer.fault, input.n);
    else HOLDS(!memcmp(&answer.fault, &clean, sizeof clean));
    answer.need = len;
    return answer;
}

/* The whole text, or the refusal: first without room, by which its length is told. */
static inline struct answer whole(text_call *call, struct text input, struct wall *wall)
{
    struct answer first = ask(call, input, wall, 0), second;
    if (first.status != YAMLCANON_SHORT) return first;
    second = ask(call, input, wall, first.need);
    HOLDS(second.status == YAMLCANON_DONE && second.text.n == first.need);
    return second;
}

/* Rooms of other sizes, for a text that is known: each answers as its size asks. Small texts have every size tried. */
static inline void hold_rooms(text_call *call, struct text input, struct text known, struct wall *wall)
{
    uint64_t chance = digest(input);
    size_t some[] = {known.n ? known.n - 1 : 0, known.n + 1, known.n ? chance % known.n : 0, known.n + chance % 100};
    size_t count = known.n <= EVERY_ROOM ? known.n + 2 : sizeof some / sizeof *some;
    for (size_t i = 0; i < count; i++) {
        size_t cap = known.n <= EVERY_ROOM ? i : some[i];
        struct answer answer = ask(call, input, wall, cap);
        HOLDS(answer.status == (cap < known.n ? YAMLCANON_SHORT : YAMLCANON_DONE) && answer.need == known.n);
        if (answer.status == YAMLCANON_DONE) HOLDS(is_equal(answer.text, known));
    }
}

/* No more memory than the pages of the project say; the caller's bound is off again where it is 0. */
static inline void bound_for(size_t bytes)
{
    yamlcanon_budget(MOST_A_BYTE * bytes + MOST_AT_LEAST);
}

__attribute__((used, section("__libfuzzer_extra_counters"))) static uint8_t noticed[1 << 15];

static inline void count(uint64_t what)
{
    uint8_t *counter = &noticed[(what * 0x9e3779b97f4a7c15u) >> 49];
    if (*counter < 255) ++*counter;
}

/* What an input is like: its refusal with the bytes about it, or of each event its kind, its properties, its style and what came
 * before it. */
static inline void notice(struct text input, const struct answer *events)
{
    uint64_t before = 0;
    if (events->status == YAMLCANON_REFUSED) {
        size_t at = events->fault.place < input.n ? events->fault.place : input.n;
        uint64_t here = at < input.n ? input.at[at] : 256, last = at && at <= input.n ? input.at[at - 1] : 256;
        count(events->fault.number << 20 | here << 10 | last);
        return;
    }
    for (size_t i = 0; i < events->text.n;) {
        const uint8_t *line = events->text.at + i, *end = memchr(line, '\n', events->text.n - i);
        size_t length = (size_t)(end - line);
        uint64_t kind = line[0] | (uint64_t)line[1] << 8 | (uint64_t)(length > 5 ? line[5] : 0) << 16;
        for (size_t j = 6; j < length && j < 40; j++)
            if (line[j] == '<' || line[j] == '\\' || line[j] == ':' || line[j] >= 0x80) kind |= (uint64_t)1 << (24 + line[j] % 8);
        count(before << 33 ^ kind);
        before = (before << 8 | line[1]) & 0xffffff;
        i += length + 1;
    }
}

#endif
