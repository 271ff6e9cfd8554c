/* Preloaded into a program, refuses its allocation of number REFUSE_ALLOCATION, counted from 1, or each one where that is `all`.
   Only those inside the call that IN_CALL tells count (call_marks.h). Where an allocation was refused, the file
   REFUSE_ALLOCATION_MET is made. */
#define _GNU_SOURCE
#include <dlfcn.h>
#include <errno.h>
#include <fcntl.h>
#include <unistd.h>

#include "call_marks.h"

static unsigned long allocations;

static int is_refused(void) {
    const char *number = getenv("REFUSE_ALLOCATION");
    if (number == NULL || !is_inside())
        return 0;
    if (++allocations != strtoul(number, NULL, 10) && strcmp(number, "all") != 0)
        return 0;
    const char *reached = getenv("REFUSE_ALLOCATION_MET");
    if (reached != NULL) {
        int file = open(reached, O_CREAT | O_WRONLY, 0600);
        if (file >= 0)
            close(file);
    }
    errno = ENOMEM;
    return 1;
}

void *malloc(size_t size) {
    static void *(*next)(size_t);
    if (next == NULL)
        next = dlsym(RTLD_NEXT, "malloc");
    return is_refused() ? NULL : next(size);
}

void *realloc(void *old, size_t size) {
    static void *(*next)(void *, size_t);
    if (next == NULL)
        next = dlsym(RTLD_NEXT, "realloc");
    return is_refused() ? NULL : next(old, size);
}

ssize_t write(int file, const void *bytes, size_t count) {
    static ssize_t (*next)(int, const void *, size_t);
    if (next == NULL)
        next = dlsym(RTLD_NEXT, "write");
    notes_mark(file, bytes, count);
    return next(file, bytes, count);
}

ssize_t __write(int file, const void *bytes, size_t count) {
    return write(file, bytes, count);
}
