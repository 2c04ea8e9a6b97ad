/* The pairing certificate checker, for C and C++ programs on x86-64 Linux.
 *
 * Link with libzepayong.a, which `loader/archive` leaves in target/ beside this
 * header. The archive needs memcpy and memset, and nothing else.
 *
 * Load the rules from the very bytes that were checked, not from the file read
 * anew. A file cut at a block's end may be a right certificate with fewer rules,
 * and is then accepted: know the length from elsewhere, and read all of it. */
#ifndef ZEPAYONG_H
#define ZEPAYONG_H

#include <stddef.h>
#include <stdint.h>

#ifdef __cplusplus
extern "C" {
#endif

/* Which documents header and archive follow: 1 is document 01, and each change
 * request that lands raises the number by 1. Load nothing if the two differ. */
#define ZEPAYONG_VERSION 8
uint32_t zepayong_version(void);

/* Judges a certificate of any length. Answers 0 if it is accepted, and else
 * number * 65536 + block * 256 + place. The bytes are only read; nothing may
 * write them during the call. With length 0 the pointer may be null. The call
 * takes no loader number and no tally, and keeps nothing: a process that serves
 * several loaders counts the answers itself. */
uint32_t zepayong_check(const uint8_t *file, size_t length);

/* The longest certificate: 64 blocks of 512 bytes. */
#define ZEPAYONG_LONGEST 32768

/* Bytes of stack that a call takes at most, for any input, its return address included. */
#define ZEPAYONG_STACK 34432

/* The numbers. Blocks and entries count from 0. Where a number names no place, the place is 0. */
enum zepayong_verdict {
    ZEPAYONG_ACCEPTED = 0,
    /* Length 0, not a multiple of 512, or above 32,768; block 0. */
    ZEPAYONG_LENGTH = 1,
    /* The check of this block is wrong. */
    ZEPAYONG_CHECK = 2,
    /* The kind of this block is out of order or unknown. */
    ZEPAYONG_KIND = 3,
    /* No secret or no rule; the block is the number of blocks. */
    ZEPAYONG_MISSING = 4,
    /* A count, byte 3 or an unused entry of this block is wrong, or it is a
     * second block of atoms behind one that is not full. */
    ZEPAYONG_LAYOUT = 5,
    /* The atom entry at this place of this block, 0 or 1, is wrong. */
    ZEPAYONG_ATOM_ENTRY = 6,
    /* The term entry at this place has a wrong tag, zero byte or value, or is a variable that is not allowed here. */
    ZEPAYONG_TERM_ENTRY = 7,
    /* The entries from this place on are not exactly one term, or a pattern's root is no encryption. */
    ZEPAYONG_NOT_ONE_TERM = 8,
    /* The secret of this block is a known atom. */
    ZEPAYONG_KNOWN_SECRET = 9,
    /* The secret of this block is not weakly closed. */
    ZEPAYONG_NOT_CLOSED = 10,
    /* The inverse of the root key of this good pattern is not a listed secret. */
    ZEPAYONG_KEY_NOT_KEPT = 11,
    /* The risky place of this rule is not covered. */
    ZEPAYONG_UNCOVERED = 12,
    /* A listed secret stands at this place, an open one, of this rule's premise. Asked of every rule before any 12.
     * (13, 14 and 16 are answers of other calls.) */
    ZEPAYONG_OPEN_SECRET = 15
};

/* The parts of an answer. */
static inline unsigned zepayong_number(uint32_t answer)
{
    return answer >> 16;
}

static inline unsigned zepayong_block(uint32_t answer)
{
    return (answer >> 8) & 255;
}

static inline unsigned zepayong_place(uint32_t answer)
{
    return answer & 255;
}

#ifdef __cplusplus
}
#endif

#endif
