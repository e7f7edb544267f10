/* Nezkaldo: how many links of a file the test of a CONG step reads (document 02, Req 03).
 *
 * Link with target/staticlib/libnezkaldo_links.a (built by `./build nezkaldo_links`, x86-64 Linux). It stands beside libnezkaldo.a and needs nothing of
 * it; both may be linked into one program. The call allocates nothing, keeps no state and may run in several threads at once. */
#ifndef NEZKALDO_LINKS_H
#define NEZKALDO_LINKS_H

#include <stddef.h>
#include <stdint.h>

#ifdef __cplusplus
extern "C" {
#endif

/* Walks the three lists of step `step`, counted from 1, of the bundle of `file_length` bytes at `file`: the arguments of its left side, those of its right side,
 * and its premises, as nezkaldo_check does for check 13. Each list is taken once, a link of each at a time; the walk ends at the first premise that does not
 * carry its two terms, or where a list ends.
 *
 * Returns the number of links that were read where the step passes the test of CONG: exactly the three lengths together, at most 6,144. Where it fails,
 * 13 * 2^32 more than the number that were read, which is at most the three lengths together. 12 * 2^32 where the file has no step of that number, or it is
 * no CONG; n * 2^32 where its header fails check n of 1 to 3. Nothing else of the file is checked: whatever it holds, the call ends and reads nothing outside it.
 *
 * The pointer is never null; with length 0 it may point anywhere. */
uint64_t nezkaldo_links(const uint8_t *file, size_t file_length, size_t step);

#ifdef __cplusplus
}
#endif
#endif
