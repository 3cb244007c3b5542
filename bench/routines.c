/* The calls of crates/measure in plain C, with the processor's own root: a line `root COUNT`, `chain COUNT`, `axis COUNT`, `turn COUNT`, `wide COUNT` or
   `loads COUNT`, the count in hexadecimal, and the answer is what the calls come to. */
#include <math.h>
#include <stdbool.h>
#include <stdint.h>
#include <stdio.h>
#include <string.h>

#include "half_turn.h"

typedef struct { double x, y, z; } Vec3;

/* 2^53 / 1.618.. on, so that all 53 digits vary. */
static uint64_t next(uint64_t at) {
    return (at + 5566755282872655u) % 9007199254740992u;
}
/* From 1 to below 4. */
static double number(uint64_t at) {
    uint64_t bits = at + 4607182418800017408u;
    double value;
    memcpy(&value, &bits, sizeof value);
    return value;
}

static bool root(double x, double *y) {
    if (!(x >= 0.0)) return false;
    *y = sqrt(x);
    return true;
}
static bool unit_axis(Vec3 v, Vec3 *kept) {
    double s = fabs(v.x) > fabs(v.y) ? fabs(v.x) : fabs(v.y);
    if (fabs(v.z) > s) s = fabs(v.z);
    if (!isfinite(v.x) || !isfinite(v.y) || !isfinite(v.z) || s == 0.0) return false;
    Vec3 w = {v.x / s, v.y / s, v.z / s};
    double norm = sqrt(w.x * w.x + w.y * w.y + w.z * w.z);
    if (s <= 1e-12 / norm) return false;
    *kept = (Vec3){w.x / norm, w.y / norm, w.z / norm};
    return true;
}

/* Six numbers to a load. A joint's stand at 95 j + 75 of the workspace, the root's are handed back. */
enum { COUNT = 2048, NUMBERS = 6 * COUNT, ROOM = 96 * 32 + 64, JOINT = 95, LOAD = 75 };

static void prepare_indexed_loads(uint64_t n, const uint64_t *loaded, uint64_t count, const double *loads, double *ws, double *root) {
    bool any[33] = {false};
    for (uint64_t j = 0; j < n; j++) memset(ws + JOINT * j + LOAD, 0, 6 * sizeof *ws);
    memset(root, 0, 6 * sizeof *root);
    for (uint64_t k = 0; k < count; k++) {
        uint64_t link = loaded[k];
        if (link > n) continue;
        double *sum = link == 0 ? root : ws + JOINT * (link - 1) + LOAD;
        if (any[link]) {
            for (int i = 0; i < 6; i++) sum[i] += loads[6 * k + i];
        } else {
            memcpy(sum, loads + 6 * k, 6 * sizeof *sum);
            any[link] = true;
        }
    }
}
/* Not drawn into main, whose loops gcc takes for cold. */
__attribute__((noinline)) static double passes(uint64_t count) {
    static uint64_t loaded[COUNT];
    static double loads[NUMBERS], ws[ROOM];
    uint64_t at = 0;
    double sum = 1.0, root[6];
    for (int k = 0; k < COUNT; k++) loaded[k] = (at = next(at)) % 33;
    for (int k = 0; k < NUMBERS; k++) loads[k] = 1.0;
    at = 0;
    for (uint64_t i = 0; i < count; i++) {
        at = next(at);
        loads[at % NUMBERS] = number(at);
        prepare_indexed_loads(32, loaded, COUNT, loads, ws, root);
        sum += root[5] + ws[at % 32 * JOINT + LOAD];
    }
    return sum;
}

static double half(double q) {
    double sine, cosine;
    if (!(fabs(q) <= TURN_LIMIT)) return 0.0;
    half_turn(q, &sine, &cosine);
    return sine;
}
static double turns(uint64_t count, double reach) {
    uint64_t at = 0;
    double sum = 1.0;
    for (uint64_t i = 0; i < count; i++) sum += half(number(at = next(at)) * reach);
    return sum;
}

static double calls(const char *name, uint64_t count) {
    bool roots = strcmp(name, "root") == 0, chain = strcmp(name, "chain") == 0;
    uint64_t at = 0;
    double sum = 1.0;
    for (uint64_t i = 0; i < count; i++) {
        at = next(at);
        double x = number(at), y;
        if (roots) {
            sum += root(x, &y) ? y : 0.0;
        } else if (chain) {
            sum = root(x * sum, &y) ? y : 0.0;
        } else {
            uint64_t b = next(at);
            Vec3 kept;
            at = next(b);
            sum += unit_axis((Vec3){x, number(b), number(at)}, &kept) ? kept.x : 0.0;
        }
    }
    return sum;
}

int main(void) {
    char name[16];
    unsigned long long count;
    if (scanf("%15s %llx", name, &count) != 2) return 1;
    bool turn = strcmp(name, "turn") == 0, wide = strcmp(name, "wide") == 0;
    double sum = turn || wide ? turns(count, wide ? 262144.0 : 256.0) : strcmp(name, "loads") == 0 ? passes(count) : calls(name, count);
    uint64_t bits;
    memcpy(&bits, &sum, sizeof bits);
    printf("%016llx\n", (unsigned long long)bits);
    return 0;
}
