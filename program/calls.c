/* Loaded before the C library (LD_PRELOAD): read on standard input and write on standard output answer as the words of
 * READS and WRITES say, a word for each call, and then as they are. A number: at most so many bytes are moved; i: a
 * signal interrupts the call; e: it fails. */
#define _GNU_SOURCE
#include <errno.h>
#include <stdlib.h>
#include <string.h>
#include <sys/syscall.h>
#include <unistd.h>

/* The next word of a list, or null at its end. */
static const char *next_word(const char *name, const char **place)
{
    const char *word;

    if (*place == NULL)
        *place = getenv(name) != NULL ? getenv(name) : "";
    word = *place;
    *place += strcspn(word, " ");
    *place += strspn(*place, " ");
    return *word != '\0' ? word : NULL;
}

/* One call, as its word says. */
static ssize_t call(long number, int fd, const void *buf, size_t count, const char *word)
{
    size_t most = count;

    if (word != NULL && (*word == 'i' || *word == 'e')) {
        errno = *word == 'i' ? EINTR : EIO;
        return -1;
    }
    if (word != NULL && strtoul(word, NULL, 10) < count)
        most = strtoul(word, NULL, 10);
    if (most == 0 && count > 0)
        return 0;
    return syscall(number, fd, buf, most);
}

ssize_t read(int fd, void *buf, size_t count)
{
    static const char *place;

    return call(SYS_read, fd, buf, count, fd == STDIN_FILENO ? next_word("READS", &place) : NULL);
}

ssize_t write(int fd, const void *buf, size_t count)
{
    static const char *place;

    return call(SYS_write, fd, buf, count, fd == STDOUT_FILENO ? next_word("WRITES", &place) : NULL);
}
