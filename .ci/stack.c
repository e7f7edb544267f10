// stack BYTES FILE: whether nezkaldo_check on an accepted file writes no lower in its stack than BYTES, in a thread whose stack is painted before. What the
// thread itself takes is measured first, by one that calls nothing.
#include <nezkaldo.h>
#include <pthread.h>
#include <stdio.h>
#include <stdlib.h>
#include <string.h>

enum { ROOM = 1 << 20, PAINT = 0xa5 };

static uint8_t file[65536];
static size_t length;
static uint64_t words[4096];
static uint64_t answer;

static void *nothing(void *unused) {
    return unused;
}

static void *check(void *unused) {
    answer = nezkaldo_check(file, length, words, 4096);
    return unused;
}

static size_t touched(void *(*call)(void *)) {
    unsigned char *stack = aligned_alloc(4096, ROOM);
    pthread_attr_t attributes;
    pthread_t thread;
    if (!stack) exit(2);
    memset(stack, PAINT, ROOM);
    if (pthread_attr_init(&attributes) || pthread_attr_setstack(&attributes, stack, ROOM)) exit(2);
    if (pthread_create(&thread, &attributes, call, NULL) || pthread_join(thread, NULL)) exit(2);
    size_t lowest = 0;
    while (lowest < ROOM && stack[lowest] == PAINT) lowest++;
    free(stack);
    return ROOM - lowest;
}

int main(int count, char **arguments) {
    if (count != 3) return 2;
    FILE *input = fopen(arguments[2], "rb");
    if (!input) return 2;
    length = fread(file, 1, sizeof file, input);
    fclose(input);
    size_t alone = touched(nothing);
    size_t used = touched(check) - alone;
    if (answer >> 32) return 2;
    if (used > strtoul(arguments[1], NULL, 10)) {
        printf("nezkaldo_check takes %zu bytes of stack\n", used);
        return 1;
    }
    return 0;
}
