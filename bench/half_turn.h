/* Sine and cosine of q/2, for |q| up to the limit: reduced in two steps up to 1024, in three beyond (documents 01 and 02). For reference.c and routines.c. */
#include <math.h>
#include <stdint.h>

#define TURN_LIMIT 1048576.0

static inline void half_turn(double q, double *sine, double *cosine) {
    static const double s[] = {-1.0 / 6, 1.0 / 120, -1.0 / 5040, 1.0 / 362880, -1.0 / 39916800, 1.0 / 6227020800.0,
                               -1.0 / 1307674368000.0, 1.0 / 355687428096000.0};
    static const double c[] = {-1.0 / 2, 1.0 / 24, -1.0 / 720, 1.0 / 40320, -1.0 / 3628800, 1.0 / 479001600,
                               -1.0 / 87178291200.0, 1.0 / 20922789888000.0};
    const double k = 0x1.45f306dc9c883p-1, p1 = 0x1.921fb544p0, p2 = 0x1.0b4611a626331p-34, nearest = 0x1.8p52;
    const double p2_short = 0x1.0b4611a6p-34, p3 = 0x1.3198a2e037073p-69;
    double h = q * 0.5, n = (h * k + nearest) - nearest;
    double less = h - n * p1, r = fabs(q) <= 1024.0 ? less - n * p2 : (less - n * p2_short) - n * p3, z = r * r, a = s[7], b = c[7];
    for (int i = 6; i >= 0; i--) a = s[i] + z * a, b = c[i] + z * b;
    double S = r + (r * z) * a, C = 1.0 + z * b;
    switch ((int64_t)n & 3) {
    case 0: *sine = S, *cosine = C; break;
    case 1: *sine = C, *cosine = -S; break;
    case 2: *sine = -S, *cosine = -C; break;
    default: *sine = -C, *cosine = S;
    }
}
