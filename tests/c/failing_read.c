/* A `read` that brings three bytes of a run and then fails, for scripts/fold-edges.sh to put in front of the C library's. */
#include <errno.h>
#include <string.h>
#include <sys/types.h>

ssize_t read(int file, void *bytes, size_t size);

ssize_t read(int file, void *bytes, size_t size)
{
    static int calls;

    (void)file;
    if (calls++ == 0 && size >= 3) {
        memcpy(bytes, "\x10\x01\x10", 3);
        return 3;
    }
    errno = EIO;
    return -1;
}
