/* Wellember for C: the check of a plan file, and the bounds of one pair of nodes. The functions stand in libwellember.a, which
 * `rt lib` in crates/wellember writes to out/ there, for x86-64 Linux; crates/wellember states and proves what is promised here.
 *
 * The caller sees to it that each pointer is valid for its length (with length 0 it may be null), that `plan` and `out` do not overlap,
 * and that no other thread writes to either, or reads `out`, during the call. Nothing is kept after the call, and nothing else is touched:
 * calls in several threads at once are fine. A thread that makes a call has at least WELLEMBER_STACK bytes of stack left. */
#ifndef WELLEMBER_H
#define WELLEMBER_H

#include <stddef.h>
#include <stdint.h>

#ifdef __cplusplus
extern "C" {
#endif

/* The stack, in bytes, that is enough for every call: at least a third more than one takes. host/test.c holds it to that. */
#define WELLEMBER_STACK 98304

/* The number of the first refusal that the plan file meets, 1 to 11, or 0 where it is accepted. */
uint32_t wellember_check(const uint8_t *plan, size_t plan_len);

/* The bounds of the pair of nodes (v, w), in units of 10^-18, those that the run over all pairs gives it: the exact probability that the
 * two are disconnected is not below the lower one and not above the upper one. They go into the first 16 bytes of `out`, the lower one
 * first, in eight little-endian bytes each. Returns 0; or the number of the first refusal: 1 to 11 of the file, then 12 where `out_len` is
 * below 16, then 13 where not v < w < nodes. A refusal changes no byte of `out`, an acceptance the first 16 only. */
uint32_t wellember_pair(const uint8_t *plan, size_t plan_len, uint32_t v, uint32_t w, uint8_t *out, size_t out_len);

#ifdef __cplusplus
}
#endif

#endif
