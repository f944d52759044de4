/*
 * Shortens reads. Loaded before a program (LD_PRELOAD), it lets each read of standard input return at most as many octets
 * as OCTETS_A_READ says.
 */
#include <stdlib.h>
#include <sys/syscall.h>
#include <unistd.h>

ssize_t read(int file, void *buffer, size_t size)
{
    static size_t most;
    if (most == 0) {
        const char *number = getenv("OCTETS_A_READ");
        most = number ? strtoul(number, NULL, 10) : size;
    }
    if (file == STDIN_FILENO && size > most)
        size = most;
    return syscall(SYS_read, file, buffer, size);
}
