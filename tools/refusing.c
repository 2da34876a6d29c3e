// Refuses one allocation of a program that is run with this library before the C library: the one whose number, from 1, REFUSED gives, or
// none where that is 0. When the program ends it writes to the file COUNT how many were asked for.
#include <errno.h>
#include <fcntl.h>
#include <stdio.h>
#include <stdlib.h>
#include <sys/syscall.h>
#include <unistd.h>

void *__libc_malloc(size_t size);
void *__libc_calloc(size_t count, size_t size);
void *__libc_realloc(void *block, size_t size);
void *__libc_memalign(size_t alignment, size_t size);

static long asked;

static int is_refused(void) {
    static long refused = -1;
    if (refused < 0) {
        const char *number = getenv("REFUSED");
        refused = number ? strtol(number, NULL, 10) : 0;
    }
    return __atomic_add_fetch(&asked, 1, __ATOMIC_RELAXED) == refused;
}

// As the C library does where it has no memory: its own thread calls look at errno.
static void *refuse(void) {
    errno = ENOMEM;
    return NULL;
}

void *malloc(size_t size) { return is_refused() ? refuse() : __libc_malloc(size); }

void *calloc(size_t count, size_t size) { return is_refused() ? refuse() : __libc_calloc(count, size); }

void *realloc(void *block, size_t size) { return is_refused() ? refuse() : __libc_realloc(block, size); }

void *aligned_alloc(size_t alignment, size_t size) { return is_refused() ? refuse() : __libc_memalign(alignment, size); }

int posix_memalign(void **block, size_t alignment, size_t size) {
    *block = is_refused() ? NULL : __libc_memalign(alignment, size);
    return *block ? 0 : ENOMEM;
}

static void tell(void) {
    const char *path = getenv("COUNT");
    if (path) {
        char text[32];
        int length = snprintf(text, sizeof text, "%ld\n", asked);
        int file = open(path, O_WRONLY | O_CREAT | O_TRUNC, 0600);
        if (file >= 0) {
            ssize_t written = write(file, text, length);
            (void)written;
            close(file);
        }
    }
}

__attribute__((destructor)) static void at_return(void) { tell(); }

// What ends a program at once, without its destructors.
void _exit(int status) {
    tell();
    syscall(SYS_exit_group, status);
    __builtin_unreachable();
}
