// What tools/fail-allocations compiles. It is loaded in front of a program, and refuses one of the allocations that this asks for.
//
//     REFUSE_AT      the number of the one that is refused, from 1; none without it
//     REFUSE_ONWARD  set where each one behind it is refused too
//     REFUSE_COUNT   the file to which it is written at the end how many were asked for
#include <errno.h>
#include <fcntl.h>
#include <stdio.h>
#include <stdlib.h>
#include <sys/syscall.h>
#include <unistd.h>

// The allocations of glibc itself, by the names under which it offers them.
void *__libc_malloc(size_t size);
void *__libc_calloc(size_t count, size_t size);
void *__libc_realloc(void *memory, size_t size);
void *__libc_memalign(size_t alignment, size_t size);

static long asked, at;
static int onward;

// Before the program begins: what was asked for so far isn't counted.
__attribute__((constructor)) static void begin(void) {
    const char *number = getenv("REFUSE_AT");
    at = number ? atol(number) : 0;
    onward = getenv("REFUSE_ONWARD") != NULL;
    asked = 0;
}

__attribute__((destructor)) static void tell(void) {
    const char *name = getenv("REFUSE_COUNT");
    int file = name ? open(name, O_WRONLY | O_CREAT | O_TRUNC, 0666) : -1;
    char text[32];
    int length = snprintf(text, sizeof text, "%ld\n", asked);
    if (file >= 0 && (write(file, text, length) < length || close(file) < 0)) perror(name);
}

// A program that ends by this one lets no destructor run.
void _exit(int status) {
    tell();
    for (;;) syscall(SYS_exit_group, status);
}

static int is_refused(void) {
    long number = __atomic_add_fetch(&asked, 1, __ATOMIC_SEQ_CST);
    if (at == 0 || number < at || (number > at && !onward)) return 0;
    errno = ENOMEM;
    return 1;
}

void *malloc(size_t size) {
    return is_refused() ? NULL : __libc_malloc(size);
}

void *calloc(size_t count, size_t size) {
    return is_refused() ? NULL : __libc_calloc(count, size);
}

void *realloc(void *memory, size_t size) {
    return is_refused() ? NULL : __libc_realloc(memory, size);
}

void *aligned_alloc(size_t alignment, size_t size) {
    return is_refused() ? NULL : __libc_memalign(alignment, size);
}

int posix_memalign(void **memory, size_t alignment, size_t size) {
    void *found = is_refused() ? NULL : __libc_memalign(alignment, size);
    if (found) *memory = found;
    return found ? 0 : ENOMEM;
}
