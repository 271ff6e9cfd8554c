/* The calls that a program marks: it writes the line `begin` before each and `end` behind it, each in one write to standard output.
   What is preloaded works inside the call whose number, counted from 1, is that of the environment; where none is told there,
   everywhere. */
#include <stdlib.h>
#include <string.h>
#include <sys/types.h>

static unsigned long calls_begun;
static int in_call;

static int is_mark(int file, const void *bytes, size_t count, const char *mark) {
    return file == 1 && count == strlen(mark) && memcmp(bytes, mark, count) == 0;
}

/* Whether a write is a mark. */
static int notes_mark(int file, const void *bytes, size_t count) {
    if (is_mark(file, bytes, count, "begin\n")) {
        calls_begun++;
        in_call = 1;
        return 1;
    }
    if (is_mark(file, bytes, count, "end\n")) {
        in_call = 0;
        return 1;
    }
    return 0;
}

static int is_inside(void) {
    const char *number = getenv("IN_CALL");
    return number == NULL || (in_call && calls_begun == strtoul(number, NULL, 10));
}
