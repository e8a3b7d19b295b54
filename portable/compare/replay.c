/* Reads calls and answers, as `compare` writes them, makes the calls over the C file, and compares: replay VECTORS */
#include "call.h"

#include <stdio.h>

make_call portable_call;

int main(int argc, char **argv)
{
    static struct bench bench;
    FILE *vectors = argc == 2 ? fopen(argv[1], "rb") : 0;
    struct call call;
    struct answer expected, answer;
    uint8_t x[LEFT];
    unsigned long calls = 0, wrong = 0;
    if (!vectors) {
        fprintf(stderr, "usage: replay VECTORS\n");
        return 2;
    }
    while (fread(&call, sizeof call, 1, vectors) == 1 && fread(&expected, sizeof expected, 1, vectors) == 1) {
        lend(&bench, &call);
        portable_call(&bench, &call, &answer);
        left(&bench, call.node, x);
        answer.left = sum_of(x, LEFT);
        answer.output = sum_of(bench.output, sizeof bench.output);
        wrong += !same_answer(&answer, &expected);
        calls++;
    }
    printf("size_t of %u bytes: %lu calls, %lu differ\n", (unsigned)sizeof(size_t), calls, wrong);
    return wrong != 0 || calls == 0;
}
