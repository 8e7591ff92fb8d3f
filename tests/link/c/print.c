/* The program's operation from C: reads a net, a line `=` and a log from standard input, and prints what the program prints. */
#include "pti.h"

#include <stdio.h>

/* A byte past the longest input is enough for the library to see that it is too long. */
static uint8_t input[65537];
static uint8_t out[PTI_PROGRAM_BYTES];

int main(void)
{
    size_t len = fread(input, 1, sizeof input, stdin);
    if (ferror(stdin)) {
        perror("print: standard input");
        return 2;
    }
    pti_answer answer = pti_program(input, len, out);
    if (fwrite(out, 1, (size_t)answer.a, stdout) != answer.a || fflush(stdout) != 0) {
        perror("print: standard output");
        return 2;
    }
    return out[0] == 'X' ? 1 : 0;
}
