/* Runs the check of each file on a stack of a given size, with a page below it that may not be touched:
 *
 *     stack BYTES FILE...
 *
 * Prints the answer and how much of the stack was used; a check that needs more ends the program by a signal. For
 * x86-64, as the archive is. */
#define _DEFAULT_SOURCE
#include "zepayong.h"

#include <stdio.h>
#include <stdlib.h>
#include <string.h>
#include <sys/mman.h>
#include <unistd.h>

static uint8_t file[ZEPAYONG_LONGEST + 1];

static void stop(const char *what)
{
    perror(what);
    exit(2);
}

/* The lowest byte of a stack of this size, right above a page without access. */
static uint8_t *new_stack(size_t bytes)
{
    size_t page = (size_t)sysconf(_SC_PAGESIZE);
    size_t above = (bytes + page - 1) / page * page;
    uint8_t *start = mmap(NULL, page + above, PROT_READ | PROT_WRITE, MAP_PRIVATE | MAP_ANONYMOUS, -1, 0);

    if (start == MAP_FAILED)
        stop("mmap");
    if (mprotect(start, page, PROT_NONE) != 0)
        stop("mprotect");
    return start + page;
}

/* The check with the stack pointer at `top`, below which the call puts its return address. */
static uint32_t check_below(uint8_t *top, size_t length)
{
    const uint8_t *first = file;
    uint32_t answer;

    __asm__ volatile("mov %%rsp, %%rbx\n\t"
                     "mov %[top], %%rsp\n\t"
                     "call zepayong_check\n\t"
                     "mov %%rbx, %%rsp"
                     : "=a"(answer), "+D"(first), "+S"(length)
                     : [top] "r"(top)
                     : "rbx", "rcx", "rdx", "r8", "r9", "r10", "r11", "xmm0", "xmm1", "xmm2", "xmm3", "xmm4", "xmm5",
                       "xmm6", "xmm7", "xmm8", "xmm9", "xmm10", "xmm11", "xmm12", "xmm13", "xmm14", "xmm15", "cc",
                       "memory");
    return answer;
}

static size_t read_file(const char *name)
{
    FILE *from = fopen(name, "rb");
    size_t length;

    if (from == NULL)
        stop(name);
    length = fread(file, 1, sizeof file, from);
    fclose(from);
    return length;
}

int main(int count, char **words)
{
    size_t bytes = count > 1 ? strtoul(words[1], NULL, 10) / 16 * 16 : 0;
    uint8_t *stack;
    int i;

    if (bytes == 0) {
        fprintf(stderr, "stack BYTES FILE...\n");
        return 2;
    }
    stack = new_stack(bytes);
    for (i = 2; i < count; i++) {
        size_t length = read_file(words[i]), unused = 0;
        uint32_t answer;

        memset(stack, 0xA5, bytes);
        answer = check_below(stack + bytes, length);
        while (unused < bytes && stack[unused] == 0xA5)
            unused++;
        printf("%-40s %2u %2u %3u  %zu of %zu bytes\n", strrchr(words[i], '/') ? strrchr(words[i], '/') + 1 : words[i],
               zepayong_number(answer), zepayong_block(answer), zepayong_place(answer), bytes - unused, bytes);
    }
    return 0;
}
