/* Writes retention.h, the table F of rule 8 as constants, to standard output:
 *     cc make_retention.c -o build/make_retention && build/make_retention > retention.h
 * All 2,049 of them, where the proved program keeps each sixteenth (M-102): the fast C is nobody's
 * install but the mark to be timed against, and C reads a constant where it lies, for nothing a call.
 * Filled as the proved one is, its day of two cells takes several times as long (docs/SPEED.md). */
#include <stdio.h>

int main(void)
{
    unsigned f = 1048576; /* F(0) */

    printf("/* Made by make_retention.c: F(0) = 1,048,576, and each next entry is the one before\n"
           " * less its 256th part rounded down (document 01, rule 8). Whole, and not each sixteenth:\n"
           " * make_retention.c says why. */\n"
           "static const uint32_t retention[2049] = {");
    for (int k = 0; k <= 2048; k++) {
        printf("%s%u,", k % 10 == 0 ? "\n    " : " ", f);
        f -= f / 256;
    }
    printf("\n};\n");
    return 0;
}
