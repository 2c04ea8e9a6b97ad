/* How the programs of this folder read a certificate. */
#ifndef READ_FILE_H
#define READ_FILE_H

#include <stdio.h>
#include <stdlib.h>

#include "zepayong.h"

/* At most one byte more than the longest certificate, so that a longer file is seen to be too long, in memory of just that
 * size; null if the file cannot be read. */
static inline uint8_t *read_file(const char *name, size_t *length)
{
    enum { MOST = ZEPAYONG_LONGEST + 1 };
    FILE *in = fopen(name, "rb");
    uint8_t *bytes = malloc(MOST);
    uint8_t *exact = NULL;

    if (in != NULL && bytes != NULL) {
        *length = fread(bytes, 1, MOST, in);
        if (!ferror(in))
            exact = realloc(bytes, *length > 0 ? *length : 1);
    }
    if (exact == NULL)
        free(bytes);
    if (in != NULL)
        fclose(in);
    return exact;
}

#endif
