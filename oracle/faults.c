/* Calls of read and write that fail, for oracle/ubilist.py: loaded before the
   C library by LD_PRELOAD. It changes the program's calls on its standard
   input (READ_...) and output (WRITE_...), as the environment says:

   ..._MOST    a call moves at most so many bytes
   ..._AGAIN   every call of this number is interrupted (EINTR): 1 is all
   ..._FAIL    from this call on all fail, the first is 1
   ..._ERROR   with this errno; 0: they answer 0 */

#define _GNU_SOURCE
#include <errno.h>
#include <stdio.h>
#include <stdlib.h>
#include <sys/syscall.h>
#include <unistd.h>

static long setting(const char *call, const char *name)
{
    char whole[32];
    const char *text;

    snprintf(whole, sizeof whole, "%s_%s", call, name);
    text = getenv(whole);
    return text ? atol(text) : 0;
}

/* Is this call made? If not, `answer` is its answer and errno is set. */
static int made(const char *call, long number, size_t *size, ssize_t *answer)
{
    long again = setting(call, "AGAIN");
    long fail = setting(call, "FAIL");
    long most = setting(call, "MOST");

    *answer = -1;
    if (again && number % again == 0) {
        errno = EINTR;
        return 0;
    }
    if (fail && number >= fail) {
        if (setting(call, "ERROR") == 0)
            *answer = 0;
        else
            errno = (int)setting(call, "ERROR");
        return 0;
    }
    if (most && *size > (size_t)most)
        *size = (size_t)most;
    return 1;
}

ssize_t read(int fd, void *buffer, size_t size)
{
    static long number;
    ssize_t answer;

    if (fd == 0 && !made("READ", ++number, &size, &answer))
        return answer;
    return syscall(SYS_read, fd, buffer, size);
}

ssize_t write(int fd, const void *buffer, size_t size)
{
    static long number;
    ssize_t answer;

    if (fd == 1 && !made("WRITE", ++number, &size, &answer))
        return answer;
    return syscall(SYS_write, fd, buffer, size);
}
