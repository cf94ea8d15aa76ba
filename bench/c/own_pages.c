/* Tells how much memory a run of a program had for itself at most, in kB: pages that are of no file (`Anonymous` of
 * /proc/self/smaps_rollup), looked at before each block of 64 kB or more is given back or moved, and at the end. What the kernel
 * tells of a run (`ru_maxrss`) counts the pages of the program's file that are mapped too, and is not exact: it is counted by
 * processor.
 *
 *     cc -shared -fPIC -O2 -o own_pages.so bench/c/own_pages.c
 *     OWN_PAGES=FILE LD_PRELOAD=./own_pages.so program ..
 */
#define _GNU_SOURCE
#include <dlfcn.h>
#include <fcntl.h>
#include <malloc.h>
#include <stdio.h>
#include <stdlib.h>
#include <string.h>
#include <unistd.h>

enum { LARGE = 65536 };

static long most;
static void (*next_free)(void *);
static void *(*next_realloc)(void *, size_t);

static void look(void)
{
    char text[4096];
    int file = open("/proc/self/smaps_rollup", O_RDONLY | O_CLOEXEC);
    if (file < 0)
        return;
    ssize_t len = read(file, text, sizeof text - 1);
    close(file);
    if (len <= 0)
        return;
    text[len] = 0;
    const char *found = strstr(text, "\nAnonymous:");
    long now = found ? atol(found + sizeof "\nAnonymous:" - 1) : 0;
    if (now > most)
        most = now;
}

void free(void *block)
{
    if (!next_free)
        next_free = (void (*)(void *))dlsym(RTLD_NEXT, "free");
    if (block && malloc_usable_size(block) >= LARGE)
        look();
    next_free(block);
}

void *realloc(void *block, size_t size)
{
    if (!next_realloc)
        next_realloc = (void *(*)(void *, size_t))dlsym(RTLD_NEXT, "realloc");
    if (block && malloc_usable_size(block) >= LARGE)
        look();
    return next_realloc(block, size);
}

__attribute__((destructor)) static void tell(void)
{
    const char *name = getenv("OWN_PAGES");
    look();
    int file = name ? open(name, O_WRONLY | O_CREAT | O_TRUNC, 0600) : -1;
    if (file < 0)
        return;
    dprintf(file, "%ld\n", most);
    close(file);
}
