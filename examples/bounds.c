/* The bounds of the plan file on standard input, by the proved library. After `bench/native`, on x86-64:
 *   cc -I include -o bounds examples/bounds.c target/staticlib/liboutside.a && ./bounds < examples/p2.plan */
#include "livnakesh.h"
#include <stdio.h>

/* A row's words are its verdict, its bound, the instance that gives it, and the evaluations that it took to find L; a plan has at most
 * 256 rows, and its file 7,284 bytes. */
enum { ROW = 4, MOST_ROWS = 256, LARGEST = 7284 };

int main(void)
{
    static uint8_t file[LARGEST + 1]; /* a byte more, so that a longer file is refused and not cut */
    static uint64_t words[ROW * MOST_ROWS];
    size_t length = fread(file, 1, sizeof file, stdin);
    struct livnakesh_said said = livnakesh_answers(file, length, words, ROW * MOST_ROWS);
    if (said.refusal != 0) {
        printf("refused %llu at %llu\n", (unsigned long long)said.refusal, (unsigned long long)said.value);
        return 2;
    }
    /* n, the number of streams, stands in the file: the length of its second body, 28 bytes a stream in edition 3 and 24 before */
    size_t streams = (file[28] + 256 * (size_t)file[29]) / (file[0] == 3 ? 28 : 24);
    for (size_t row = 0; row < streams; row++) {
        const uint64_t *answer = words + ROW * row;
        unsigned long long bound = answer[1], instance = answer[2];
        switch (answer[0]) {
        case 0: printf("row %zu: at most %llu ticks, in time (instance %llu)\n", row, bound, instance); break;
        case 1: printf("row %zu: up to %llu ticks, too late (instance %llu)\n", row, bound, instance); break;
        default: printf("row %zu: no bound\n", row); break;
        }
    }
    return 0;
}
