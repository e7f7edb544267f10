/* Nezkaldo: a proved checker of rewriting derivations, a proved writer of them, and a proved reader of typed rules.
 *
 * Link with target/staticlib/libnezkaldo.a (built by `./build nezkaldo`, x86-64 Linux).
 * The calls allocate nothing, keep no state and may run in several threads at once on areas of their own. */
#ifndef NEZKALDO_H
#define NEZKALDO_H

#include <stddef.h>
#include <stdint.h>

#ifdef __cplusplus
extern "C" {
#endif

/* Checks the bundle of `file_length` bytes at `file`.
 *
 * Returns less than 2^32 where it is accepted: then both sides of its claim (header words 7 and 8) are closed and have equal value in every finite
 * world, whatever it picks for choices (term kind 6; document 02, Req 07). The number is that of the pairs of terms that the last REFL walked visited, at
 * most 4,096; 0 where no REFL was walked (Req 04). Else number * 2^32 + record of the first check of documents 01 and 02 that fails (record 0 for 1 to 4
 * and 15). So `answer >> 32` is 0 exactly where the file is accepted.
 *
 * `free` is lent for writing: `free_length` words of 64 bits, at least four for each of the file's terms (else check 4 fails); 4,096 are
 * always enough. It may hold anything before. Accepted: words 4*(i-1) to 4*(i-1)+3 are the free variables of term i, variables 1 to 64 in the first of
 * them and so on: bit (v-1)%64 of word 4*(i-1)+(v-1)/64 is set exactly where variable v is free in term i; the rest is zero. Refused: all zero.
 *
 * It takes at most 288 KB of stack, whatever the file; 112 KB where the file has at most 64 variables.
 *
 * Both pointers are never null; with length 0 they may point anywhere that is aligned. The areas do not overlap. */
uint64_t nezkaldo_check(const uint8_t *file, size_t file_length, uint64_t *free, size_t free_length);

/* Expands the lets of the rule of the job at `job`: a bundle with no contexts, no steps and right 0, whose left is the rule.
 *
 * Names: the call is the choice. nezkaldo_expand keeps: a quantifier's variable stays as it is where exactly one term record of the job binds it (of all
 * T, also those that the rule does not reach) and no let of the job lists it; else the quantifier gets a new variable, a record after the job's. So the
 * right side may be an old record, even the rule itself. nezkaldo_expand_renamed gives every quantifier a new variable (document 02, Req 06). A choice
 * (term kind 6, Req 07) counts as a quantifier here. All that follows is so of both; a job may be refused by 16 under one choice of names and not under
 * the other.
 *
 * Returns the length of the file that now stands at the start of `out`, at most 58,916: nezkaldo_check, lent four words for each of its terms, accepts
 * it, its left is the rule, its right holds no let. Else number * 2^32 + record of the first check of document 01 that fails (record 0 for 1 to 4 and
 * 15 to 18), which is at least 2^32.
 *
 * Lent for writing, with anything in them before: `out`, at least 58,916 bytes; `words`, at least 14,729 words of 32 bits; `sets`, at least 4,096
 * words of 64 bits (else check 4 fails). `words` and `sets` come back zero. Written: `out` is the file, then zeros. Refused: `out` is zero.
 *
 * The visit of a term calls itself as deep as the rule nests: give the thread 4 MB of stack (1,020 nested terms were measured below 0.6 MB).
 *
 * No pointer is null; with length 0 it may point anywhere that is aligned. The areas do not overlap. */
uint64_t nezkaldo_expand(
    const uint8_t *job, size_t job_length, uint8_t *out, size_t out_length, uint32_t *words, size_t words_length, uint64_t *sets, size_t sets_length);
uint64_t nezkaldo_expand_renamed(
    const uint8_t *job, size_t job_length, uint8_t *out, size_t out_length, uint32_t *words, size_t words_length, uint64_t *sets, size_t sets_length);

/* Reads the formula text at `text`, an SMT-LIB 2 term (document 02, Req 01), beside the declarations at `declarations`: a bundle with no terms, no
 * contexts, no steps and a zero claim.
 *
 * Returns the length of the job that now stands at the start of `out`, at most 58,916: the declarations with the formula's records, its left the
 * formula, its right 0, as nezkaldo_expand takes it where the formula is closed. Else number * 2^32 + record of the first check that the declarations
 * fail (1 to 6, 18), or number * 2^32 + byte for 19 and 20, or 8 or 16 with record 0. A byte of 2^32 or more is added as it stands.
 *
 * The areas are those of nezkaldo_expand, lent and left in the same way. The reading of a formula calls itself as deep as the formula nests, at most
 * 1,024 levels: give the thread 4 MB of stack (measured: 0.9 MB for the deepest texts that are read, 2.8 MB for those that are refused by 16).
 *
 * No pointer is null; with length 0 it may point anywhere that is aligned. The areas do not overlap. */
uint64_t nezkaldo_read(const uint8_t *declarations, size_t declarations_length, const uint8_t *text, size_t text_length, uint8_t *out, size_t out_length,
    uint32_t *words, size_t words_length, uint64_t *sets, size_t sets_length);

#ifdef __cplusplus
}
#endif

#endif
