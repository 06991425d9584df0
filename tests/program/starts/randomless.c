/* A library by which the system has no random bytes to give. */
#include <errno.h>
#include <stddef.h>

int getentropy(void *bytes, size_t count)
{
    (void)bytes;
    (void)count;
    errno = ENOSYS;
    return -1;
}
