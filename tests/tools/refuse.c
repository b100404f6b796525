/* A `malloc` before the C library's that refuses the call with the number REFUSE, once, and then makes the file REFUSED. */
#define _GNU_SOURCE
#include <dlfcn.h>
#include <fcntl.h>
#include <stdlib.h>
#include <unistd.h>

/* How many calls it is to the one that is refused; 0 where none is, or was already. */
static long left;

__attribute__((constructor)) static void begin(void) {
    const char *number = getenv("REFUSE");
    left = number ? atol(number) : 0;
}

static int is_refused(void) {
    if (left == 0 || --left > 0) return 0;
    int file = open(getenv("REFUSED"), O_CREAT | O_WRONLY, 0600);
    if (file >= 0) close(file);
    return 1;
}

void *malloc(size_t size) {
    static void *(*real)(size_t);
    if (!real) real = dlsym(RTLD_NEXT, "malloc");
    return is_refused() ? NULL : real(size);
}

void *realloc(void *old, size_t size) {
    static void *(*real)(void *, size_t);
    if (!real) real = dlsym(RTLD_NEXT, "realloc");
    return is_refused() ? NULL : real(old, size);
}
