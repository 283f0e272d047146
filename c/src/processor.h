/* Whether the processor has the features of x86-64-v2, which the proved code uses. Without them a call of that code would raise SIGILL. */
#ifndef DERRIMAS_PROCESSOR_H
#define DERRIMAS_PROCESSOR_H

#include <cpuid.h>
#include <stdbool.h>

/* Whether these bits are set in ecx of the leaf. */
static bool has_bits(unsigned leaf, unsigned wanted)
{
    unsigned eax, ebx, ecx, edx;

    return __get_cpuid(leaf, &eax, &ebx, &ecx, &edx) && (ecx & wanted) == wanted;
}

enum { NOT_SEEN, IS_RIGHT, IS_OLD };
static int seen = NOT_SEEN; /* repeating cpuid may take microseconds in a virtual machine */

static bool is_right_processor(void)
{
    int known = __atomic_load_n(&seen, __ATOMIC_RELAXED);

    if (known == NOT_SEEN) {
        const unsigned wanted = bit_SSE3 | bit_SSSE3 | bit_CMPXCHG16B | bit_SSE4_1 | bit_SSE4_2 | bit_POPCNT;

        known = has_bits(1, wanted) && has_bits(0x80000001, bit_LAHF_LM) ? IS_RIGHT : IS_OLD;
        __atomic_store_n(&seen, known, __ATOMIC_RELAXED);
    }
    return known == IS_RIGHT;
}

#endif
