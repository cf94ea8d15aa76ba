/* The heap of the library: malloc, realloc and free, counted for each thread against a bound that its caller sets.
 * The proofs take nothing of it for granted but that a block is what was asked for, or refused; a bound refuses more. */
#include "heap.h"
#include "yamlcanon.h"
#include <stdbool.h>
#include <stdlib.h>

/* What stands before a block: its bytes with this front. A block is freed by its place alone, and lies as one of malloc does. */
struct front {
    _Alignas(16) size_t bytes;
};

/* What a request answers, as the proved code reads it. */
struct tried {
    bool ok;
    void *p;
};

static _Thread_local struct {
    size_t most, held, peak;
} heap;

/* Where a refused request points: nobody reads or writes it. */
static char nothing;

struct tried rattle_alloc(size_t size, size_t align);
struct tried rattle_realloc(void *p, size_t kept, size_t size, size_t align);
void rattle_dealloc(void *p);

static bool is_within(size_t more)
{
    return !heap.most || (heap.held <= heap.most && more <= heap.most - heap.held);
}

/* The block behind a front, in the place of one of so many bytes; refused where there is no front. */
static struct tried counted(struct front *front, size_t bytes, size_t before)
{
    if (!front) return (struct tried){false, &nothing};
    front->bytes = bytes;
    heap.held += bytes - before;
    if (heap.peak < heap.held) heap.peak = heap.held;
    return (struct tried){true, front + 1};
}

/* An alignment is at most 16, and a size below 2^63, which the proved code owes. */
struct tried rattle_alloc(size_t size, size_t align)
{
    size_t bytes = size + sizeof(struct front);
    (void)align;
    return counted(is_within(bytes) ? malloc(bytes) : NULL, bytes, 0);
}

/* Where it is refused, the block is as it was. */
struct tried rattle_realloc(void *p, size_t kept, size_t size, size_t align)
{
    struct front *front = (struct front *)p - 1;
    size_t before = front->bytes, bytes = size + sizeof *front;
    (void)kept, (void)align;
    return counted(bytes <= before || is_within(bytes - before) ? realloc(front, bytes) : NULL, bytes, before);
}

void rattle_dealloc(void *p)
{
    struct front *front = (struct front *)p - 1;
    heap.held -= front->bytes;
    free(front);
}

size_t yaml_c_bound(size_t bytes)
{
    size_t before = heap.most;
    heap.most = bytes;
    heap.peak = heap.held;
    return before;
}

void yaml_c_unbound(size_t bytes)
{
    heap.most = bytes;
}

void yamlcanon_budget(size_t bytes)
{
    yaml_c_bound(bytes);
}

size_t yamlcanon_held(void)
{
    return heap.held;
}

size_t yamlcanon_peak(void)
{
    return heap.peak;
}
