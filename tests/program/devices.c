/* Loaded before the C library, it gives standard input in pieces and lets one call of a standard stream fail; at the end it
   writes to descriptor 3, if that is open, how many calls there were of each.
     FIRST=N    the first read gives at most N octets
     PIECE=N    each read does
     FAIL=D:N   call N of descriptor D, both counted from where C does and from 1, fails */
#include <errno.h>
#include <stdio.h>
#include <stdlib.h>
#include <sys/syscall.h>
#include <sys/uio.h>
#include <unistd.h>

static long calls[3];

static int fails(int descriptor) {
    const char *which = getenv("FAIL");
    calls[descriptor] += 1;
    if (which == NULL || which[0] != '0' + descriptor || atol(which + 2) != calls[descriptor])
        return 0;
    errno = EIO;
    return 1;
}

static size_t at_most(size_t size, const char *name) {
    const char *number = getenv(name);
    size_t most = number == NULL ? 0 : (size_t)atol(number);
    return most != 0 && most < size ? most : size;
}

ssize_t read(int descriptor, void *buffer, size_t size) {
    if (descriptor == 0) {
        if (fails(0))
            return -1;
        size = at_most(calls[0] == 1 ? at_most(size, "FIRST") : size, "PIECE");
    }
    return syscall(SYS_read, descriptor, buffer, size);
}

ssize_t write(int descriptor, const void *buffer, size_t size) {
    if ((descriptor == 1 || descriptor == 2) && fails(descriptor))
        return -1;
    return syscall(SYS_write, descriptor, buffer, size);
}

ssize_t writev(int descriptor, const struct iovec *parts, int count) {
    if ((descriptor == 1 || descriptor == 2) && fails(descriptor))
        return -1;
    return syscall(SYS_writev, descriptor, parts, count);
}

__attribute__((destructor)) static void tell(void) { dprintf(3, "%ld %ld %ld\n", calls[0], calls[1], calls[2]); }

/* A program that may start threads ends by this, which calls no destructor. */
void _exit(int status) {
    tell();
    for (;;)
        syscall(SYS_exit_group, status);
}
