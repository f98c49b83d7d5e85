/* The listing program with a listing in C, and with document 01's limits: 65,536 bytes of input
   and 16,384 working numbers. It is built once for each version, with -DLIST=naive_list or
   -DLIST=tuned_list. */
#include "calls.h"
#include <stdio.h>

int main(void)
{
    static uint8_t image[65537];
    static uint32_t work[16384];
    size_t len = fread(image, 1, sizeof image, stdin);
    if (len > 65536)
        puts("refused 1 at 0");
    else
        LIST(image, len, work, 16384);
    return 0;
}
