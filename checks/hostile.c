/* Refuses requests that the program makes of the C library: loaded before it (LD_PRELOAD) by checks/hostile.

   HOSTILE_REFUSES  what is refused: a word of the list below
   HOSTILE_FIRST    the first request that is refused, counted from 1, and
   HOSTILE_LAST     the last one
   HOSTILE_COUNTS   a file of two numbers of eight bytes: how many such requests were made, and how many were refused

   memory     malloc, calloc, realloc and their kin, where the program's own code calls them. The C library and the loader ask for
              memory too, when they start and for each thread (what is the thread's own, before its stack); those are passed on
   threads    pthread_create
   beneath    the requests that `memory` passes on, from the first instruction of the program's own code on

   Whose a request is tells the address to which the call returns. */
#define _GNU_SOURCE
#include <dlfcn.h>
#include <errno.h>
#include <fcntl.h>
#include <link.h>
#include <pthread.h>
#include <stddef.h>
#include <stdint.h>
#include <stdlib.h>
#include <string.h>
#include <sys/mman.h>
#include <unistd.h>

/* the names under which the C library has them, whoever is loaded before it */
extern void *__libc_malloc(size_t);
extern void *__libc_calloc(size_t, size_t);
extern void *__libc_realloc(void *, size_t);
extern void *__libc_memalign(size_t, size_t);

enum kind { NONE, MEMORY, THREADS, BENEATH };

struct counts {
    uint64_t made, refused;
};

static enum kind refuses = NONE;
static uint64_t first, last;
static struct counts *counts;
static uintptr_t from, to; /* where the program's own code lies */

/* The program is the first that is told. */
static int find_code(struct dl_phdr_info *info, size_t size, void *unused) {
    (void)size, (void)unused;
    from = UINTPTR_MAX;
    for (int i = 0; i < info->dlpi_phnum; i++) {
        const ElfW(Phdr) *part = &info->dlpi_phdr[i];
        uintptr_t at = info->dlpi_addr + part->p_vaddr;
        if (part->p_type == PT_LOAD && (part->p_flags & PF_X)) {
            from = at < from ? at : from;
            to = at + part->p_memsz > to ? at + part->p_memsz : to;
        }
    }
    return 1;
}

static uint64_t number(const char *name) {
    const char *text = getenv(name);
    return text ? strtoull(text, NULL, 10) : 0;
}

__attribute__((constructor)) static void begin(void) {
    static const struct {
        const char *word;
        enum kind kind;
    } words[] = {{"memory", MEMORY}, {"threads", THREADS}, {"beneath", BENEATH}};
    const char *word = getenv("HOSTILE_REFUSES"), *file = getenv("HOSTILE_COUNTS");
    enum kind kind = NONE;
    for (size_t i = 0; word && i < sizeof words / sizeof *words; i++)
        if (!strcmp(word, words[i].word)) kind = words[i].kind;
    int fd = file ? open(file, O_RDWR | O_CLOEXEC) : -1;
    if (kind == NONE || fd < 0) _exit(99);
    counts = mmap(NULL, sizeof *counts, PROT_READ | PROT_WRITE, MAP_SHARED, fd, 0);
    if (counts == MAP_FAILED) _exit(99);
    close(fd);
    first = number("HOSTILE_FIRST");
    last = number("HOSTILE_LAST");
    dl_iterate_phdr(find_code, NULL);
    refuses = kind;
}

static int is_refused(enum kind kind) {
    if (refuses != kind) return 0;
    uint64_t at = __atomic_add_fetch(&counts->made, 1, __ATOMIC_SEQ_CST);
    if (at < first || last < at) return 0;
    __atomic_add_fetch(&counts->refused, 1, __ATOMIC_SEQ_CST);
    return 1;
}

static int is_memory_refused(const void *back) {
    int is_own = from <= (uintptr_t)back && (uintptr_t)back < to;
    if (!is_refused(is_own ? MEMORY : BENEATH)) return 0;
    errno = ENOMEM;
    return 1;
}

#define BACK __builtin_return_address(0)

void *malloc(size_t size) { return is_memory_refused(BACK) ? NULL : __libc_malloc(size); }

void *calloc(size_t count, size_t size) { return is_memory_refused(BACK) ? NULL : __libc_calloc(count, size); }

void *realloc(void *old, size_t size) { return is_memory_refused(BACK) ? NULL : __libc_realloc(old, size); }

void *memalign(size_t unit, size_t size) { return is_memory_refused(BACK) ? NULL : __libc_memalign(unit, size); }

void *aligned_alloc(size_t unit, size_t size) { return is_memory_refused(BACK) ? NULL : __libc_memalign(unit, size); }

int posix_memalign(void **made, size_t unit, size_t size) {
    void *memory = is_memory_refused(BACK) ? NULL : __libc_memalign(unit, size);
    if (!memory) return ENOMEM;
    *made = memory;
    return 0;
}

int pthread_create(pthread_t *thread, const pthread_attr_t *how, void *(*start)(void *), void *with) {
    static int (*create)(pthread_t *, const pthread_attr_t *, void *(*)(void *), void *);
    if (is_refused(THREADS)) return EAGAIN;
    if (!create) create = (int (*)(pthread_t *, const pthread_attr_t *, void *(*)(void *), void *))dlsym(RTLD_NEXT, "pthread_create");
    return create(thread, how, start, with);
}
