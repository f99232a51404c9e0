/* A read that gives READ_MOST bytes at most. Of all calls the one whose number
   is READ_FAILS fails: the first has the number 1. */
#define _DEFAULT_SOURCE
#include <errno.h>
#include <stdlib.h>
#include <sys/syscall.h>
#include <unistd.h>

static size_t setting(const char *name)
{
    const char *text = getenv(name);
    if (text == NULL)
        abort();
    return strtoul(text, NULL, 10);
}

ssize_t read(int fd, void *to, size_t room)
{
    static size_t calls = 0;
    const size_t most = setting("READ_MOST");
    calls++;
    if (calls == setting("READ_FAILS")) {
        errno = EIO;
        return -1;
    }
    return syscall(SYS_read, fd, to, room < most ? room : most);
}
