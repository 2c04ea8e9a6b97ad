/* A key loader in small: asks the checker about a certificate, and would load it or holds it back.
 *
 *   loader FILE    exit status 0: would load it; 1: holds it back; 2: cannot read it, or has another version's archive */
#include <stdio.h>
#include <stdlib.h>

#include "read_file.h"
#include "zepayong.h"

static const char *const what_is_wrong[] = {
    [ZEPAYONG_LENGTH] = "the length is 0, not a multiple of 512, or above 32,768",
    [ZEPAYONG_CHECK] = "the block's check is wrong",
    [ZEPAYONG_KIND] = "the block's kind is out of order or unknown",
    [ZEPAYONG_MISSING] = "there is no secret or no rule",
    [ZEPAYONG_LAYOUT] = "a count, byte 3 or an unused entry of the block is wrong, or it is a second block of "
                        "atoms behind one that is not full",
    [ZEPAYONG_ATOM_ENTRY] = "the atom entry is wrong",
    [ZEPAYONG_TERM_ENTRY] = "the entry's tag, zero byte or value is wrong, or a variable is not allowed here",
    [ZEPAYONG_NOT_ONE_TERM] = "the entries are not exactly one term, or a pattern's root is no encryption",
    [ZEPAYONG_KNOWN_SECRET] = "the secret is a known atom",
    [ZEPAYONG_NOT_CLOSED] = "the secret is not weakly closed",
    [ZEPAYONG_KEY_NOT_KEPT] = "the inverse of the good pattern's root key is not a listed secret",
    [ZEPAYONG_UNCOVERED] = "the risky place is not covered",
    [ZEPAYONG_OPEN_SECRET] = "the premise has a listed secret at this open place",
};

/* Words for a number; another one is from a later checker. */
static const char *words(unsigned number)
{
    if (number < sizeof what_is_wrong / sizeof what_is_wrong[0] && what_is_wrong[number] != NULL)
        return what_is_wrong[number];
    return "a number that this loader does not know";
}

/* Says what is done with the certificate, and why. A loader takes the rules from these very bytes. */
static int decide(const uint8_t *file, size_t length)
{
    uint32_t answer = zepayong_check(file, length);

    if (answer == ZEPAYONG_ACCEPTED) {
        printf("load: accepted, %zu bytes\n", length);
        return 0;
    }
    printf("hold back: number %u, block %u, place %u: %s\n", zepayong_number(answer), zepayong_block(answer),
           zepayong_place(answer), words(zepayong_number(answer)));
    return 1;
}

int main(int argc, char **argv)
{
    size_t length = 0;
    uint8_t *file;
    int status;

    if (argc != 2) {
        fprintf(stderr, "usage: loader FILE\n");
        return 2;
    }
    if (zepayong_version() != ZEPAYONG_VERSION) {
        fprintf(stderr, "loader: the archive is of another version than the header\n");
        return 2;
    }
    file = read_file(argv[1], &length);
    if (file == NULL) {
        fprintf(stderr, "loader: the file cannot be read\n");
        return 2;
    }
    status = decide(file, length);
    free(file);
    return status;
}
