/* Checks a bundle, or expands a job and checks what comes out: check-c FILE.
 * Reads a rule typed as SMT-LIB beside its declarations, expands it and checks what comes out: check-c DECLARATIONS TEXT.
 * A quantifier's variable that nothing else in the job binds keeps its name; with --rename before the files every quantifier gets a new one.
 *
 *   cc -std=c11 -O2 -I include -o check-c examples/embedding/check.c target/staticlib/libnezkaldo.a */
#include "nezkaldo.h"

#include <inttypes.h>
#include <stdio.h>
#include <string.h>

enum { INPUT = 65536, TEXT = 1048576, OUT = 58916, WORDS = 14729, SETS = 4096 };

static uint8_t input[INPUT];
static uint8_t text[TEXT];
static uint8_t job[OUT];
static uint8_t out[OUT];
static uint32_t words[WORDS];
static uint64_t sets[SETS];
static uint64_t free_sets[SETS];
/* --rename was given. */
static int rename_all;

/* Word k of a file: 7 is the claim's left, 8 its right. */
static uint32_t word_at(const uint8_t *file, size_t k)
{
    const uint8_t *p = file + 4 * k;
    return p[0] | (uint32_t)p[1] << 8 | (uint32_t)p[2] << 16 | (uint32_t)p[3] << 24;
}

/* 19 and 20 name a byte of the text, the others a record. */
static void print_refusal(uint64_t answer)
{
    const char *what = answer >> 32 == 19 || answer >> 32 == 20 ? "byte" : "record";
    printf("refused: check %" PRIu64 ", %s %" PRIu64 "\n", answer >> 32, what, answer & 0xffffffff);
}

/* Exit status 0 where the file is accepted. */
static int check(const uint8_t *file, size_t length)
{
    /* Below 2^32 it is accepted: the number is that of the pairs that its last walked REFL visited, mostly 0. */
    uint64_t answer = nezkaldo_check(file, length, free_sets, SETS);
    if (answer >> 32 != 0) {
        print_refusal(answer);
        return 1;
    }
    printf("accepted: term %" PRIu32 " is equal to term %" PRIu32 "\n", word_at(file, 7), word_at(file, 8));
    return 0;
}

/* Expands a job and checks the file. The choice of names is by the call. */
static int expand(const uint8_t *from, size_t length)
{
    uint64_t answer = rename_all ? nezkaldo_expand_renamed(from, length, out, OUT, words, WORDS, sets, SETS)
                                 : nezkaldo_expand(from, length, out, OUT, words, WORDS, sets, SETS);
    if (answer >> 32 != 0) {
        print_refusal(answer);
        return 1;
    }
    printf("written %" PRIu64 ", ", answer);
    return check(out, answer);
}

/* The first bytes of a file, so many as there is room for; 0 where it cannot be read. */
static int load(const char *path, uint8_t *room, size_t size, size_t *length)
{
    FILE *file = fopen(path, "rb");
    if (file == NULL)
        return 0;
    *length = fread(room, 1, size, file);
    fclose(file);
    return 1;
}

int main(int count, char **arguments)
{
    size_t length, text_length;
    if (count > 1 && strcmp(arguments[1], "--rename") == 0) {
        rename_all = 1;
        count--;
        arguments++;
    }
    if (count < 2 || count > 3 || !load(arguments[1], input, INPUT, &length) || (count == 3 && !load(arguments[2], text, TEXT, &text_length))) {
        fputs("usage: check-c [--rename] FILE\n       check-c [--rename] DECLARATIONS TEXT\n", stderr);
        return 2;
    }
    if (count == 3) {
        if (text_length == TEXT) {
            fputs("check-c: the text is too long for this program\n", stderr);
            return 2;
        }
        uint64_t answer = nezkaldo_read(input, length, text, text_length, job, OUT, words, WORDS, sets, SETS);
        if (answer >> 32 != 0) {
            print_refusal(answer);
            return 1;
        }
        printf("read %" PRIu64 ", ", answer);
        return expand(job, answer);
    }
    /* Nothing that is longer than INPUT is accepted, so the rest need not be read. A job has no contexts, no steps and right 0. */
    int is_job = length >= 36 && word_at(input, 5) == 0 && word_at(input, 6) == 0 && word_at(input, 8) == 0;
    return is_job ? expand(input, length) : check(input, length);
}
