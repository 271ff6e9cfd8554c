/* Preloaded into a program, makes its devices limp. The environment tells how:

   FAIL_READ=N         the read of standard input of number N, counted from 1, fails, and so does each behind it
   FAIL_FILE=N         the same of reads of other files
   FAIL_WRITE=N        the same of writes to standard output
   WRITES_NONE=1       a write that would fail so moves no byte in place of it
   BYTE_BY_BYTE=1      a read or write moves at most one byte
   CUT_FILE=PATH CUT_AT=N CUT_TO=LENGTH    before the read of another file of number N this file is cut to this length
   DEVICE_MET=PATH     this file is made where a call failed, or the file was cut

   Only calls inside the call that IN_CALL tells count and limp (call_marks.h). The C library must be linked dynamically. */
#define _GNU_SOURCE
#include <dlfcn.h>
#include <errno.h>
#include <fcntl.h>
#include <sys/uio.h>
#include <unistd.h>

#include "call_marks.h"

typedef ssize_t (*reader)(int, void *, size_t);
typedef ssize_t (*writer)(int, const void *, size_t);

struct device {
    const char *fails;
    unsigned long calls;
};

static struct device input = {"FAIL_READ", 0};
static struct device other = {"FAIL_FILE", 0};
static struct device output = {"FAIL_WRITE", 0};

/* The number that the environment tells under a name, or 0. */
static unsigned long setting(const char *name) {
    const char *number = getenv(name);
    return number == NULL ? 0 : strtoul(number, NULL, 10);
}

static void note_met(void) {
    const char *reached = getenv("DEVICE_MET");
    if (reached == NULL)
        return;
    int file = open(reached, O_CREAT | O_WRONLY, 0600);
    if (file >= 0)
        close(file);
}

/* Whether the next call of the device fails. */
static int fails(struct device *device) {
    unsigned long first = setting(device->fails);
    if (++device->calls < first || first == 0)
        return 0;
    note_met();
    return 1;
}

static size_t moved(size_t count) {
    return setting("BYTE_BY_BYTE") && count > 1 ? 1 : count;
}

static void cut_file(void) {
    const char *path = getenv("CUT_FILE");
    if (path != NULL && other.calls == setting("CUT_AT")) {
        note_met();
        if (truncate(path, (off_t)setting("CUT_TO")) != 0)
            abort();
    }
}

ssize_t read(int file, void *bytes, size_t count) {
    static reader next;
    if (next == NULL)
        next = (reader)dlsym(RTLD_NEXT, "read");
    if (!is_inside())
        return next(file, bytes, count);
    struct device *device = file == 0 ? &input : &other;
    if (fails(device)) {
        errno = EIO;
        return -1;
    }
    if (device == &other)
        cut_file();
    return next(file, bytes, moved(count));
}

ssize_t write(int file, const void *bytes, size_t count) {
    static writer next;
    if (next == NULL)
        next = (writer)dlsym(RTLD_NEXT, "write");
    if (notes_mark(file, bytes, count) || file != 1 || !is_inside())
        return next(file, bytes, count);
    if (fails(&output)) {
        errno = EIO;
        return setting("WRITES_NONE") ? 0 : -1;
    }
    return next(file, bytes, moved(count));
}

ssize_t __read(int file, void *bytes, size_t count) {
    return read(file, bytes, count);
}

ssize_t __write(int file, const void *bytes, size_t count) {
    return write(file, bytes, count);
}

/* The first part that isn't empty is moved. */
ssize_t readv(int file, const struct iovec *parts, int count) {
    int part = 0;
    while (part + 1 < count && parts[part].iov_len == 0)
        part++;
    return count > 0 ? read(file, parts[part].iov_base, parts[part].iov_len) : 0;
}

ssize_t writev(int file, const struct iovec *parts, int count) {
    int part = 0;
    while (part + 1 < count && parts[part].iov_len == 0)
        part++;
    return count > 0 ? write(file, parts[part].iov_base, parts[part].iov_len) : 0;
}
