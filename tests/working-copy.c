/* The reference as a library, whose join first fills COPY bytes of its own stack, as if it held a working copy of the result there: with 4,096 of them tests/stack.c, on stacks of
 * 4 KiB, must not get through; with 64 it must. */
#include <string.h>
#define ref_check nwb_check
#define ref_none nwb_none
#define ref_one nwb_one
#define ref_tabs nwb_tabs
#define ref_join_tabs nwb_join_tabs
#define ref_find nwb_find
#define ref_score nwb_score
#define ref_ramp nwb_ramp
#define ref_fen nwb_fen
#define ref_share nwb_share
#include "reference.c"
#include "nwb.h"

uint32_t nwb_join(const uint8_t *first, size_t first_len, const uint8_t *second, size_t second_len,
                  uint8_t *out, size_t out_len, uint64_t *place, uint64_t *length, uint64_t *turns)
{
    uint8_t copy[COPY];
    memset(copy, 0, sizeof copy);
    __asm__ volatile("" : : "r"(copy) : "memory"); /* or the compiler would leave the copy out */
    return ref_join(first, first_len, second, second_len, out, out_len, place, length, turns);
}
