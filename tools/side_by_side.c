/* Times the checks of two archives on files, in one process and by turns: see tools/side-by-side. */
#define _POSIX_C_SOURCE 200809L
#include <string.h>
#include <time.h>

#include "../loader/read_file.h"

uint32_t before_check(const uint8_t *file, size_t length);
uint32_t after_check(const uint8_t *file, size_t length);

typedef uint32_t (*check)(const uint8_t *, size_t);

static volatile uint32_t kept;

static double nanoseconds(void)
{
    struct timespec now;

    clock_gettime(CLOCK_MONOTONIC, &now);
    return 1e9 * (double)now.tv_sec + (double)now.tv_nsec;
}

/* Nanoseconds of one call, over this many. */
static double timed(check asked, const uint8_t *bytes, size_t length, int calls)
{
    double start = nanoseconds();

    for (int call = 0; call < calls; call++)
        kept = asked(bytes, length);
    return (nanoseconds() - start) / calls;
}

/* The fastest of many rounds of either check. A round takes about 200 microseconds. */
static void compare(const char *name, const uint8_t *bytes, size_t length)
{
    enum { ROUNDS = 2000 };
    check checks[2] = {before_check, after_check};
    double best[2] = {1e18, 1e18};
    int calls = 1 + (int)(200000 / timed(before_check, bytes, length, 4));

    for (int round = 0; round < ROUNDS; round++)
        for (int which = 0; which < 2; which++) {
            double one = timed(checks[which], bytes, length, calls);

            if (one < best[which])
                best[which] = one;
        }
    printf("%-28s %9.0f %9.0f  %.3f\n", name, best[0], best[1], best[1] / best[0]);
}

int main(int argc, char **argv)
{
    printf("%-28s %9s %9s  %s\n", "file", "before ns", "after ns", "after/before");
    for (int i = 1; i < argc; i++) {
        size_t length = 0;
        uint8_t *bytes = read_file(argv[i], &length);
        const char *slash = strrchr(argv[i], '/');

        if (bytes == NULL) {
            fprintf(stderr, "side-by-side: %s cannot be read\n", argv[i]);
            return 2;
        }
        if (before_check(bytes, length) != after_check(bytes, length)) {
            fprintf(stderr, "side-by-side: %s: the answers differ\n", argv[i]);
            return 1;
        }
        compare(slash == NULL ? argv[i] : slash + 1, bytes, length);
        free(bytes);
    }
    return 0;
}
