/* The commands of the rules' example, served: cc bench/example.c -I bench crates/embedding/out/libembedding.a */
#include "embedding.h"
#include <stdio.h>
#include <stdlib.h>

int main(void) {
    static const uint8_t commands[] = {
        'L', 0, 5, 10, 10, 10, 10, 0, 0, 0, 0, 0, 0, 16, 16,
        'L', 0, 9, 20, 10, 10, 10, 0, 0, 0, 15, 0xF8, 0, 16, 18,
        'C', 0, 1, 1, 1, 1, 0, 1, 0, 0, 3, 0xE8, 0, 0, 0, 8, 12, 10, 10, 10, 0, 0, 0, 1, 4, 0, 16, 17,
        'U', 0, 8,
    };
    size_t size = embedding_bench_size(64);
    uint8_t *memory = malloc(size);
    uint8_t answers[64];
    if (memory == NULL || embedding_bench_new(memory, size, 64) != 0) {
        return 1;
    }
    size_t len = embedding_bench_serve(memory, size, commands, sizeof commands, answers, sizeof answers);
    for (size_t i = 0; i < len; i++) {
        printf("%02X%c", answers[i], i + 1 == len ? '\n' : ' ');
    }
    free(memory);
    return 0;
}
