/* Says the version, and calls the checker with zero bytes of some lengths, each in memory of just that size, and with
 * none at all. */
#include <stdio.h>
#include <stdlib.h>

#include "zepayong.h"

static void show(const char *what, size_t length, uint32_t answer)
{
    printf("%s %zu: number %u, block %u, place %u\n", what, length, zepayong_number(answer), zepayong_block(answer),
           zepayong_place(answer));
}

int main(void)
{
    static const size_t lengths[] = {0, 1, 511, 512, 513, 32768, 33280};

    printf("version %u, header %u\n", zepayong_version(), ZEPAYONG_VERSION);
    show("null", 0, zepayong_check(NULL, 0));
    for (size_t i = 0; i < sizeof lengths / sizeof lengths[0]; i++) {
        uint8_t *bytes = calloc(lengths[i], 1);

        if (bytes == NULL && lengths[i] > 0)
            return 2;
        show("zeros", lengths[i], zepayong_check(bytes, lengths[i]));
        free(bytes);
    }
    return 0;
}
