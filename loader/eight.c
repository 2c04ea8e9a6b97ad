/* A process that serves eight loaders, in small. The C call takes no loader number and no tally, so a process in C keeps
 * counts of its own, as here; the check that takes a tally, with its proofs, is for callers in Rattle (README.md, "Count for
 * eight loaders"). The rules are the same: a full count stays, and a number above 7 gets 16 and counts for nobody.
 *
 *   eight WORD..    one after the other: LOADER FILE asks about a file for a loader, `keep` keeps the tally, `restore` puts
 *                   back the one that was kept; then tells every loader's counts
 *
 * Exit status 0; 2: a file could not be read, a loader was named without a file, or the archive is of another version. */
#include <errno.h>
#include <stdio.h>
#include <stdlib.h>
#include <string.h>

#include "read_file.h"
#include "zepayong.h"

enum { LOADERS = 8, NO_LOADER = 16 };

struct counts {
    uint32_t accepted;
    uint32_t refused;
};

/* A struct, so that to keep or restore all eight is one assignment. */
struct tally {
    struct counts loaders[LOADERS];
};

/* One more; a full count stays. */
static void count_one(uint32_t *count)
{
    if (*count < UINT32_MAX)
        ++*count;
}

/* Which loader this is; LOADERS if it is none. */
static size_t loader_of(const char *word)
{
    char *end;
    unsigned long number;

    if (*word < '0' || *word > '9')
        return LOADERS;
    errno = 0;
    number = strtoul(word, &end, 10);
    return *end == '\0' && errno == 0 && number < LOADERS ? number : LOADERS;
}

static void tell(const char *loader, uint32_t answer)
{
    printf("loader %s: number %u, block %u, place %u\n", loader, zepayong_number(answer), zepayong_block(answer),
           zepayong_place(answer));
}

/* One call: the number first, before the file is as much as opened. A file that cannot be read has no verdict, and is not
 * counted. */
static int serve(struct tally *tally, const char *word, const char *name)
{
    size_t loader = loader_of(word);
    size_t length = 0;
    uint8_t *file;
    uint32_t answer;

    if (loader == LOADERS) {
        tell(word, (uint32_t)NO_LOADER << 16);
        return 0;
    }
    file = read_file(name, &length);
    if (file == NULL) {
        fprintf(stderr, "eight: loader %s: the file cannot be read\n", word);
        return 2;
    }
    answer = zepayong_check(file, length);
    free(file);
    count_one(answer == ZEPAYONG_ACCEPTED ? &tally->loaders[loader].accepted : &tally->loaders[loader].refused);
    tell(word, answer);
    return 0;
}

/* All words in turn: 2 if one could not be followed. */
static int serve_all(struct tally *tally, char **words)
{
    struct tally kept = *tally;
    int status = 0;

    for (; *words != NULL; words++) {
        if (strcmp(*words, "keep") == 0) {
            kept = *tally;
        } else if (strcmp(*words, "restore") == 0) {
            *tally = kept;
        } else if (words[1] == NULL) {
            fprintf(stderr, "eight: loader %s without a file\n", *words);
            return 2;
        } else {
            status |= serve(tally, words[0], words[1]);
            words++;
        }
    }
    return status;
}

int main(int argc, char **argv)
{
    struct tally tally = {{{0, 0}}};
    int status;

    if (zepayong_version() != ZEPAYONG_VERSION) {
        fprintf(stderr, "eight: the archive is of another version than the header\n");
        return 2;
    }
    status = argc > 1 ? serve_all(&tally, argv + 1) : 0;
    for (int i = 0; i < LOADERS; i++)
        printf("counts of loader %d: accepted %u, refused %u\n", i, tally.loaders[i].accepted, tally.loaders[i].refused);
    return status;
}
