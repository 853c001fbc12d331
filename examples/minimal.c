/* One enquiry over a network of three nodes and two protocols, so of six places. */
#include "mpakirovu.h"
#include <stdio.h>

int main(void)
{
    const uint8_t file[] = "net\t3\t2\nlink\t1\t0\t1\t5\nlink\t2\t1\t2\t5\n"
                           "fun\t0\twrap\t0\t1\t2\nfun\t1\tunwrap\t0\t1\t3\n";
    uint32_t weight[MPAKIROVU_WEIGHT_ENTRIES(6)];
    uint16_t count[MPAKIROVU_COUNT_ENTRIES(6)], choice[MPAKIROVU_CHOICE_ENTRIES(6)];
    uint16_t step[MPAKIROVU_STEP_ENTRIES(16)];
    uint8_t text[MPAKIROVU_TRACE_BYTES(16)];
    struct mpakirovu_outcome o = mpakirovu_route(file, sizeof file - 1, 0, 0, 2, 0,
        MPAKIROVU_LEND(weight), MPAKIROVU_LEND(count), MPAKIROVU_LEND(choice),
        MPAKIROVU_LEND(step), MPAKIROVU_LEND(text));
    if (o.number != MPAKIROVU_FOUND)
        return 1;
    return fwrite(text, 1, o.length, stdout) != o.length || fflush(stdout) != 0;
}
