/* A `read` to preload, for the scenarios of the programs. It counts the reads of standard input, or, where FAILS_OF is "file",
   those of any other descriptor; the one with the number in FAILS_AT fails, and each of them brings at most as many bytes as
   PIECE says. Other reads are as they are. */
#define _GNU_SOURCE
#include <errno.h>
#include <stdlib.h>
#include <string.h>
#include <sys/syscall.h>
#include <unistd.h>

ssize_t read(int fd, void *buffer, size_t size) {
    static long reads;
    const char *of = getenv("FAILS_OF"), *at = getenv("FAILS_AT"), *piece = getenv("PIECE");
    if (of && at && piece && (fd != STDIN_FILENO) == (strcmp(of, "file") == 0)) {
        reads += 1;
        if (reads == atol(at)) {
            errno = EIO;
            return -1;
        }
        if (size > (size_t)atol(piece))
            size = (size_t)atol(piece);
    }
    return syscall(SYS_read, fd, buffer, size);
}
