/* A body of 100 MB copied over and over to memory of its own, in plain C: what bench_inbox reads. The second
 * word `zeros` writes zeros there first, as a buffer begins in a language without memory that is not set. */
#include <stdio.h>
#include <stdlib.h>
#include <string.h>

#define SIZE 100000000

int main(int count, char **words) {
    long rounds = count > 1 ? atol(words[1]) : 1;
    int zeros = count > 2 && strcmp(words[2], "zeros") == 0;
    char *bytes = malloc(SIZE);
    memset(bytes, 'a', SIZE);
    unsigned long sum = 0;
    for (long round = 0; round < rounds; round++) {
        char *body = malloc(SIZE);
        if (zeros) {
            memset(body, 0, SIZE);
            __asm__ volatile("" : : "r"(body) : "memory");
        }
        memcpy(body, bytes, SIZE);
        __asm__ volatile("" : : "r"(body) : "memory");
        sum += SIZE;
        free(body);
    }
    printf("%lu\n", sum);
    return 0;
}
