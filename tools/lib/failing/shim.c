/* Preloaded into the built program by program.py: many runs of it without starting it anew, in each of which one call fails.

   Before `main` begins it reads jobs from file 198. For each it forks: the child takes the words of the job, stands in the
   folder FAILING_ROOM, reads the file `in` there as its standard input, writes `out` and `err`, and goes on into `main`. The
   parent waits and answers on file 199 how the child ended and how many calls it made.

   cc -O2 -shared -fPIC -o shim.so shim.c -ldl */
#define _GNU_SOURCE
#include <dlfcn.h>
#include <errno.h>
#include <fcntl.h>
#include <stdarg.h>
#include <stdint.h>
#include <stdlib.h>
#include <string.h>
#include <sys/mman.h>
#include <sys/resource.h>
#include <sys/syscall.h>
#include <sys/uio.h>
#include <sys/wait.h>
#include <unistd.h>

enum { JOBS = 198, ANSWERS = 199, MOST_WORDS = 64, MOST_BYTES = 65536 };

/* What is asked of a run. Behind it stand the words, each ended by a zero byte. */
struct job {
    uint32_t length;   /* of the words */
    uint32_t at;       /* the call that fails, from 1; 0: none */
    uint32_t error;    /* its errno; 0: it gives or takes no byte */
    uint32_t most;     /* the most bytes that a read or write moves; 0: any number */
    uint64_t space;    /* the limit of the address space; 0: as it is */
    uint64_t stack;    /* the limit of the stack; 0: as it is */
    uint8_t kind;      /* which calls are counted: m memory, r read, w write, o open, 0 none */
    uint8_t lasting;   /* 1: each later call of the kind fails too */
    uint8_t count;     /* how many words there are */
    uint8_t unused[5];
};

struct answer {
    int32_t status;    /* as wait gives it */
    uint32_t calls;    /* of the kind that is counted */
    uint64_t peak;     /* the most memory, in kB */
    uint64_t micros;   /* processor time */
};

static struct job job;
static char text[MOST_BYTES];
static char *words[MOST_WORDS + 2];
static uint32_t *calls;
static int in_child;

/* Whether a call of this kind is to fail. Counts it. */
static int fails(char kind)
{
    if (!in_child || kind != job.kind) return 0;
    uint32_t number = ++*calls;
    if (job.at == 0) return 0;
    return number == job.at || (job.lasting && number > job.at);
}

/* ---- memory: every form that libc has, so that none escapes the count */

extern void *__libc_malloc(size_t);
extern void *__libc_calloc(size_t, size_t);
extern void *__libc_realloc(void *, size_t);
extern void *__libc_memalign(size_t, size_t);

static void *refuse(void)
{
    errno = ENOMEM;
    return 0;
}

void *malloc(size_t size) { return fails('m') ? refuse() : __libc_malloc(size); }
void *calloc(size_t count, size_t size) { return fails('m') ? refuse() : __libc_calloc(count, size); }
void *realloc(void *old, size_t size) { return fails('m') ? refuse() : __libc_realloc(old, size); }
void *memalign(size_t align, size_t size) { return fails('m') ? refuse() : __libc_memalign(align, size); }
void *aligned_alloc(size_t align, size_t size) { return memalign(align, size); }

int posix_memalign(void **to, size_t align, size_t size)
{
    void *got = memalign(align, size);
    if (got) *to = got;
    return got ? 0 : ENOMEM;
}

/* ---- streams and files; standard error never fails, so that the line on it is seen */

static size_t shortened(char kind, size_t size)
{
    return in_child && job.kind == kind && job.most && size > job.most ? job.most : size;
}

static ssize_t failed(void)
{
    errno = (int)job.error;
    return job.error ? -1 : 0;
}

ssize_t read(int file, void *to, size_t size)
{
    if (fails('r')) return failed();
    return syscall(SYS_read, file, to, shortened('r', size));
}

ssize_t write(int file, const void *from, size_t size)
{
    if (file == 2) return syscall(SYS_write, file, from, size);
    if (fails('w')) return failed();
    return syscall(SYS_write, file, from, shortened('w', size));
}

ssize_t writev(int file, const struct iovec *pieces, int count)
{
    if (file != 2 && fails('w')) return failed();
    return syscall(SYS_writev, file, pieces, count);
}

ssize_t __read(int file, void *to, size_t size) { return read(file, to, size); }
ssize_t __write(int file, const void *from, size_t size) { return write(file, from, size); }

static int opened(int folder, const char *path, int flags, int mode)
{
    if (fails('o')) return (int)failed();
    return (int)syscall(SYS_openat, folder, path, flags, mode);
}

static int mode_of(int flags, va_list rest)
{
    return flags & O_CREAT ? va_arg(rest, int) : 0;
}

int open(const char *path, int flags, ...)
{
    va_list rest;
    va_start(rest, flags);
    int mode = mode_of(flags, rest);
    va_end(rest);
    return opened(AT_FDCWD, path, flags, mode);
}

int openat(int folder, const char *path, int flags, ...)
{
    va_list rest;
    va_start(rest, flags);
    int mode = mode_of(flags, rest);
    va_end(rest);
    return opened(folder, path, flags, mode);
}

/* ---- the server */

/* Reads so many bytes; 0 where there are no more. */
static int take(void *to, size_t size)
{
    for (size_t have = 0; have < size;) {
        ssize_t got = syscall(SYS_read, JOBS, (char *)to + have, size - have);
        if (got <= 0) return 0;
        have += (size_t)got;
    }
    return 1;
}

static int take_job(void)
{
    return take(&job, sizeof job) && job.length <= sizeof text && job.count <= MOST_WORDS && take(text, job.length);
}

static void stream(int file, const char *name, int flags)
{
    int opened = (int)syscall(SYS_openat, AT_FDCWD, name, flags);
    if (opened < 0 || dup2(opened, file) < 0) _exit(125);
    close(opened);
}

static void limit(int kind, uint64_t size)
{
    struct rlimit both = {size, size};
    if (size && setrlimit(kind, &both) != 0) _exit(125);
}

static void become_child(char *name)
{
    char *at = text;
    words[0] = name;
    for (int k = 1; k <= job.count; k++) {
        words[k] = at;
        at += strlen(at) + 1;
    }
    words[job.count + 1] = 0;
    stream(0, "in", O_RDONLY);
    stream(1, "out", O_WRONLY | O_TRUNC);
    stream(2, "err", O_WRONLY | O_TRUNC);
    close(JOBS);
    close(ANSWERS);
    limit(RLIMIT_AS, job.space);
    limit(RLIMIT_STACK, job.stack);
    in_child = 1;
}

static uint64_t micros(struct timeval t)
{
    return (uint64_t)t.tv_sec * 1000000 + (uint64_t)t.tv_usec;
}

/* Comes back in each child; the parent ends here. */
static void serve(char *name)
{
    calls = mmap(0, 4096, PROT_READ | PROT_WRITE, MAP_SHARED | MAP_ANONYMOUS, -1, 0);
    if (calls == MAP_FAILED) _exit(125);
    while (take_job()) {
        *calls = 0;
        pid_t child = fork();
        if (child == 0) {
            become_child(name);
            return;
        }
        struct answer answer = {0};
        struct rusage used;
        if (child < 0 || wait4(child, &answer.status, 0, &used) != child) _exit(125);
        answer.calls = *calls;
        answer.peak = (uint64_t)used.ru_maxrss;
        answer.micros = micros(used.ru_utime) + micros(used.ru_stime);
        if (syscall(SYS_write, ANSWERS, &answer, sizeof answer) != sizeof answer) _exit(125);
    }
    _exit(0);
}

typedef int start(int (*)(int, char **, char **), int, char **, void (*)(void), void (*)(void), void (*)(void), void *);

int __libc_start_main(int (*program)(int, char **, char **), int argc, char **argv, void (*init)(void), void (*fini)(void),
                      void (*loader_fini)(void), void *stack_end)
{
    start *real = (start *)dlsym(RTLD_NEXT, "__libc_start_main");
    const char *room = getenv("FAILING_ROOM");
    if (room && chdir(room) == 0) {
        serve(argv[0]);
        argc = job.count + 1;
        argv = words;
    }
    return real(program, argc, argv, init, fini, loader_fini, stack_end);
}
