/* A disk of which the sync that FAILS counts fails. */
#include <errno.h>
#include <stdlib.h>
#include <unistd.h>

int fsync(int file)
{
    static int count;

    errno = EIO;
    return file < 0 || ++count == atoi(getenv("FAILS")) ? -1 : 0;
}
