/* The frames that DESTROY (3) and RESET (13) clear in the rounds of the program `rounds`, cleared by memset and nothing else:
       clear CALL ROUNDS
   Space k of 32 has the 16 frames from 16 k on. Round i destroys a data space of guest i % 8 + 1, or its three. */
#include <stdlib.h>
#include <string.h>

#define SPACE 65536

int main(int argc, char **argv)
{
    static unsigned char scratch[32 * SPACE];
    int call = argc > 1 ? atoi(argv[1]) : 0;
    long rounds = argc > 2 ? atol(argv[2]) : 0;
    memset(scratch, 9, sizeof scratch);
    for (long i = 0; i < rounds; i++) {
        unsigned char *first = scratch + (i % 8 * 4 + 1) * SPACE;
        if (call == 3)
            memset(first + i / 8 % 3 * SPACE, 0, SPACE);
        else
            memset(first, 0, 3 * SPACE);
        __asm__ volatile("" : : "r"(scratch) : "memory");
    }
    return 0;
}
