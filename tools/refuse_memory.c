/* Loaded into a program before the C library, this refuses it memory: the call numbered REFUSE_FROM, counted from 1,
   and with REFUSE_ALL set each later one too. The number of calls goes to the file REFUSE_TOLD at the end. */
#define _GNU_SOURCE
#include <errno.h>
#include <fcntl.h>
#include <stdatomic.h>
#include <stdio.h>
#include <stdlib.h>
#include <sys/syscall.h>
#include <unistd.h>

extern void *__libc_malloc(size_t size);
extern void *__libc_calloc(size_t count, size_t size);
extern void *__libc_realloc(void *old, size_t size);
extern void *__libc_memalign(size_t alignment, size_t size);

static atomic_ulong calls;
static unsigned long from;
static int all;

__attribute__((constructor)) static void begin(void) {
    const char *word = getenv("REFUSE_FROM");
    all = getenv("REFUSE_ALL") != NULL;
    atomic_store(&calls, 0);
    from = word ? strtoul(word, NULL, 10) : 0;
}

static void tell(void) {
    const char *path = getenv("REFUSE_TOLD");
    char text[32];
    int file = path ? open(path, O_WRONLY | O_CREAT | O_TRUNC, 0600) : -1;
    if (file < 0) return;
    int length = snprintf(text, sizeof text, "%lu\n", atomic_load(&calls));
    if (write(file, text, length) != length) abort();
    close(file);
}

/* The program ends by this call, which runs no destructors. */
void _exit(int status) {
    tell();
    for (;;) syscall(SYS_exit_group, status);
}

/* Whether this call is refused. */
static int is_refused(void) {
    unsigned long call = atomic_fetch_add(&calls, 1) + 1;
    if (from == 0 || call < from || (call > from && !all)) return 0;
    errno = ENOMEM;
    return 1;
}

void *malloc(size_t size) { return is_refused() ? NULL : __libc_malloc(size); }

void *calloc(size_t count, size_t size) { return is_refused() ? NULL : __libc_calloc(count, size); }

void *realloc(void *old, size_t size) { return is_refused() ? NULL : __libc_realloc(old, size); }

void *aligned_alloc(size_t alignment, size_t size) {
    return is_refused() ? NULL : __libc_memalign(alignment, size);
}

void *memalign(size_t alignment, size_t size) { return is_refused() ? NULL : __libc_memalign(alignment, size); }

int posix_memalign(void **place, size_t alignment, size_t size) {
    if (is_refused()) return ENOMEM;
    void *found = __libc_memalign(alignment, size);
    if (found == NULL) return ENOMEM;
    *place = found;
    return 0;
}
