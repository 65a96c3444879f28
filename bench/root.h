/* Roots by the hardware: with -fno-math-errno a root is one instruction. */
#ifndef ROOT_H
#define ROOT_H

#include <stdint.h>

/* The least whole number whose square is at least s, for s below 2^52: the root of such an s is never rounded up to a whole number. */
static inline int64_t least_root(int64_t s)
{
    const int64_t r = (int64_t)__builtin_sqrt((double)s);
    return r + (r * r < s);
}

/* The root rounded to the nearest whole number, for n below 2^48; the root of a whole number never lies halfway. */
static inline int64_t nearest_root(int64_t n) { return (int64_t)(__builtin_sqrt((double)n) + 0.5); }

#endif
