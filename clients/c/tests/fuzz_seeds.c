/* A target of clients/c/fuzz without libFuzzer: it runs on the files that are named. */
#include <stdint.h>
#include <stdio.h>
#include <stdlib.h>
#include <string.h>

int LLVMFuzzerTestOneInput(const uint8_t *bytes, size_t size);
__attribute__((weak)) int LLVMFuzzerInitialize(int *count, char ***words);

/* On the bytes alone, so that what is read behind them is seen. */
static void run(const uint8_t *bytes, size_t size) {
    uint8_t *own = malloc(size ? size : 1);
    if (!own) abort();
    memcpy(own, bytes, size);
    LLVMFuzzerTestOneInput(own, size);
    free(own);
}

int main(int count, char **words) {
    static uint8_t bytes[1 << 16];
    if (LLVMFuzzerInitialize) LLVMFuzzerInitialize(&count, &words);
    for (int i = 1; i < count; i++) {
        FILE *file = fopen(words[i], "rb");
        if (!file) return 2;
        size_t size = fread(bytes, 1, sizeof bytes, file);
        fclose(file);
        printf("%s\n", words[i]);
        fflush(stdout);
        run(bytes, size);
    }
    return 0;
}
