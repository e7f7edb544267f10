/* Says how many links the test of each CONG step of a bundle reads: links-c FILE. Exit status 0 where all of them pass.
 *
 *   cc -std=c11 -O2 -I include -o links-c examples/embedding/links.c target/staticlib/libnezkaldo_links.a */
#include "nezkaldo_links.h"

#include <inttypes.h>
#include <stdio.h>

enum { INPUT = 65536, STEPS = 1024 };

static uint8_t input[INPUT];

int main(int count, char **names)
{
    if (count != 2) {
        fprintf(stderr, "usage: links-c FILE\n");
        return 2;
    }
    FILE *file = fopen(names[1], "rb");
    if (file == NULL) {
        fprintf(stderr, "links-c: cannot open %s\n", names[1]);
        return 2;
    }
    size_t length = fread(input, 1, INPUT, file);
    fclose(file);
    int status = 0;
    for (size_t step = 1; step <= STEPS; step++) {
        uint64_t answer = nezkaldo_links(input, length, step);
        uint64_t number = answer >> 32, links = answer & 0xffffffff;
        if (number == 12)
            continue; /* no CONG, or no step */
        if (number != 0 && number != 13) {
            printf("refused: check %" PRIu64 "\n", number);
            return 1;
        }
        printf("step %zu: %" PRIu64 " links, %s\n", step, links, number == 0 ? "all of its lists" : "where its test failed");
        status |= number != 0;
    }
    return status;
}
