// Preloaded into a run, this refuses random bytes, so that what draws keys gets none.
#include <errno.h>
#include <sys/types.h>

ssize_t getrandom(void *to, size_t count, unsigned flags)
{
    (void)to, (void)count, (void)flags;
    errno = ENOSYS;
    return -1;
}

int getentropy(void *to, size_t count)
{
    (void)to, (void)count;
    errno = ENOSYS;
    return -1;
}
