/* The program `balance` over plain_*: standard input to standard output. */
#include "text.h"

#include <stdio.h>

int main(void)
{
    /* One byte more than the longest input, to notice a longer one. */
    static unsigned char in[TEXT_LONGEST + 1], out[TEXT_ROOM];
    size_t n = fread(in, 1, sizeof in, stdin);
    size_t used = plain_text(in, n, out, sizeof out);

    return fwrite(out, 1, used, stdout) == used && fflush(stdout) == 0 ? 0 : 1;
}
