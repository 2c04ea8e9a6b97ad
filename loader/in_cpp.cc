// The header in C++: a loader's calls, with nothing that has two meanings.
#include <cstdio>

#include "zepayong.h"

int main()
{
    const uint8_t zeros[512] = {};
    const uint32_t answer = zepayong_check(zeros, sizeof zeros);
    const zepayong_verdict verdict = static_cast<zepayong_verdict>(zepayong_number(answer));

    std::printf("zeros 512: number %u, block %u, place %u\n", zepayong_number(answer), zepayong_block(answer),
                zepayong_place(answer));
    return verdict == ZEPAYONG_KIND && zepayong_version() == ZEPAYONG_VERSION ? 0 : 1;
}
