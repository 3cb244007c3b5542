/* The two calculations, and the mass matrix by its plain rule too, in plain C, to measure `desk` against (bench/run).
 *
 * The same arithmetic in the same order as document 01 and the Rust: nothing is fused, sums run left to right from the first product, every
 * product that the Rust's expressions have is made. Each call makes the checks 9 to 22, clears the workspace, makes all visits, and closes; the
 * plain matrix has no workspace.
 *
 * It reads the same lines as `desk` (docs/CASES.md) and writes the same answers, so that bits can be compared before anything is timed. It takes
 * `model`, the four calculations with no portions, `repeat`, and the two requests of the plain matrix; any other line is an `error`. It makes no
 * checks on `model`: those are not timed.
 *
 * cc -O3 -ffp-contract=off -o reference reference.c -lm
 */
#include <math.h>
#include <stdbool.h>
#include <stdint.h>
#include <stdio.h>
#include <stdlib.h>
#include <string.h>

#include "half_turn.h"

#define ROOM 32
#define GRAVITY 9.80665
#define LONGEST_LIST 4096
#define NOTHING (-1)

enum { TURN, SLIDE, FIXED };

typedef struct { double x, y, z; } Vec3;
typedef struct { double w; Vec3 u; } Quaternion;
typedef struct { Quaternion rotation; Vec3 translation; } Frame;
typedef struct { double m[3][3]; } Mat3;
typedef struct { double m[6][6]; } Mat6;
/* A twist is angular then linear, a wrench torque then force. */
typedef struct { Vec3 turn, shift; } Six;
typedef struct { double mass; Vec3 moment; Mat3 inertia; } Body;

typedef struct {
    uint64_t n, parents[ROOM], kinds[ROOM];
    Frame origins[ROOM];
    Vec3 axes[ROOM];
    Body links[ROOM + 1];
    double rotors[ROOM];
} Model;

typedef struct { uint64_t length; double items[LONGEST_LIST]; } Doubles;
typedef struct { uint64_t length, items[LONGEST_LIST]; } Counts;

typedef struct {
    bool plain, forward, floating;
    Quaternion rotation;
    Six velocity;
    Doubles q, qd, forces, loads;
    Counts links;
    uint64_t ws_length, out_length;
    double ws[4096], out[2048];
} Call;

/* number 0 is acceptance; place is NOTHING where nothing is named. */
typedef struct { int number; long place; uint64_t visits; } Answer;

/* Numbers */

static inline Vec3 vec(double x, double y, double z) { return (Vec3){x, y, z}; }
static inline Vec3 add(Vec3 a, Vec3 b) { return vec(a.x + b.x, a.y + b.y, a.z + b.z); }
static inline Vec3 sub(Vec3 a, Vec3 b) { return vec(a.x - b.x, a.y - b.y, a.z - b.z); }
static inline Vec3 scale(double s, Vec3 v) { return vec(s * v.x, s * v.y, s * v.z); }
static inline double dot(Vec3 a, Vec3 b) { return a.x * b.x + a.y * b.y + a.z * b.z; }
static inline Vec3 cross(Vec3 a, Vec3 b) {
    return vec(a.y * b.z - a.z * b.y, a.z * b.x - a.x * b.z, a.x * b.y - a.y * b.x);
}
static inline bool finite3(Vec3 v) { return isfinite(v.x) && isfinite(v.y) && isfinite(v.z); }

static inline Quaternion inverse(Quaternion q) { return (Quaternion){q.w, vec(-q.u.x, -q.u.y, -q.u.z)}; }
static inline Quaternion times(Quaternion a, Quaternion b) {
    return (Quaternion){
        a.w * b.w - a.u.x * b.u.x - a.u.y * b.u.y - a.u.z * b.u.z,
        vec(a.w * b.u.x + a.u.x * b.w + a.u.y * b.u.z - a.u.z * b.u.y,
            a.w * b.u.y - a.u.x * b.u.z + a.u.y * b.w + a.u.z * b.u.x,
            a.w * b.u.z + a.u.x * b.u.y - a.u.y * b.u.x + a.u.z * b.w)};
}
static inline Vec3 rotate(Quaternion q, Vec3 v) {
    Vec3 t = scale(2.0, cross(q.u, v));
    return add(add(scale(q.w, t), cross(q.u, t)), v);
}
static inline bool not_unit(Quaternion q) {
    return !(fabs(((q.w * q.w + q.u.x * q.u.x) + q.u.y * q.u.y) + q.u.z * q.u.z - 1.0) <= 0x1p-40);
}

static inline Mat3 rotation_matrix(Quaternion q) {
    double w = q.w, x = q.u.x, y = q.u.y, z = q.u.z;
    double ww = w * w, xx = x * x, yy = y * y, zz = z * z;
    double xy = x * y * 2.0, xz = x * z * 2.0, yz = y * z * 2.0, wx = w * x * 2.0, wy = w * y * 2.0, wz = w * z * 2.0;
    return (Mat3){{{ww + xx - yy - zz, xy - wz, wy + xz},
                   {wz + xy, ww - xx + yy - zz, yz - wx},
                   {xz - wy, wx + yz, ww - xx - yy + zz}}};
}
static inline Vec3 apply3(const Mat3 *a, Vec3 v) {
    return vec(a->m[0][0] * v.x + a->m[0][1] * v.y + a->m[0][2] * v.z, a->m[1][0] * v.x + a->m[1][1] * v.y + a->m[1][2] * v.z,
               a->m[2][0] * v.x + a->m[2][1] * v.y + a->m[2][2] * v.z);
}
static inline Mat3 product3(const Mat3 *a, const Mat3 *b) {
    Mat3 c;
    for (int i = 0; i < 3; i++)
        for (int j = 0; j < 3; j++) c.m[i][j] = a->m[i][0] * b->m[0][j] + a->m[i][1] * b->m[1][j] + a->m[i][2] * b->m[2][j];
    return c;
}
static inline Mat3 transpose3(const Mat3 *a) {
    Mat3 c;
    for (int i = 0; i < 3; i++)
        for (int j = 0; j < 3; j++) c.m[i][j] = a->m[j][i];
    return c;
}
/* (R A) Rᵀ */
static inline Mat3 turned(const Mat3 *r, const Mat3 *a) {
    Mat3 ra = product3(r, a), rt = transpose3(r);
    return product3(&ra, &rt);
}
static inline Mat3 cross_matrix(Vec3 v) { return (Mat3){{{0.0, -v.z, v.y}, {v.z, 0.0, -v.x}, {-v.y, v.x, 0.0}}}; }

/* Six-vectors and 6×6 matrices */

static inline Six add6(Six a, Six b) { return (Six){add(a.turn, b.turn), add(a.shift, b.shift)}; }
static inline Six sub6(Six a, Six b) { return (Six){sub(a.turn, b.turn), sub(a.shift, b.shift)}; }
static inline Six scale6(double s, Six v) { return (Six){scale(s, v.turn), scale(s, v.shift)}; }
static inline double dot6(Six a, Six b) { return dot(a.turn, b.turn) + dot(a.shift, b.shift); }
static inline bool finite6(Six v) { return finite3(v.turn) && finite3(v.shift); }
static inline Six rotate6(Quaternion q, Six v) { return (Six){rotate(q, v.turn), rotate(q, v.shift)}; }
static inline void spread(Six v, double out[6]) {
    out[0] = v.turn.x, out[1] = v.turn.y, out[2] = v.turn.z, out[3] = v.shift.x, out[4] = v.shift.y, out[5] = v.shift.z;
}
static inline Six gather(const double v[6]) { return (Six){vec(v[0], v[1], v[2]), vec(v[3], v[4], v[5])}; }

static inline Six motion_to_child(const Frame *f, Six v) {
    Quaternion back = inverse(f->rotation);
    return (Six){rotate(back, v.turn), rotate(back, add(v.shift, cross(v.turn, f->translation)))};
}
static inline Six motion_cross(Six a, Six b) {
    return (Six){cross(a.turn, b.turn), add(cross(a.shift, b.turn), cross(a.turn, b.shift))};
}
static inline Six force_cross(Six motion, Six force) {
    return (Six){add(cross(motion.turn, force.turn), cross(motion.shift, force.shift)), cross(motion.turn, force.shift)};
}
static inline Six wrench_to_parent(const Frame *f, Six wrench) {
    Vec3 force = rotate(f->rotation, wrench.shift);
    return (Six){add(rotate(f->rotation, wrench.turn), cross(f->translation, force)), force};
}

static inline void put_block(Mat6 *a, int row, int column, const Mat3 *b) {
    for (int i = 0; i < 3; i++)
        for (int j = 0; j < 3; j++) a->m[row + i][column + j] = b->m[i][j];
}
static inline Mat3 block(const Mat6 *a, int row, int column) {
    Mat3 b;
    for (int i = 0; i < 3; i++)
        for (int j = 0; j < 3; j++) b.m[i][j] = a->m[row + i][column + j];
    return b;
}
static inline Mat6 rigid_body_inertia(const Body *body) {
    Mat6 out;
    Mat3 c = cross_matrix(body->moment);
    put_block(&out, 0, 0, &body->inertia);
    put_block(&out, 0, 3, &c);
    for (int i = 0; i < 3; i++)
        for (int j = 0; j < 3; j++) {
            out.m[3 + i][j] = -c.m[i][j];
            out.m[3 + i][3 + j] = body->mass * (i == j ? 1.0 : 0.0);
        }
    return out;
}
static inline Six apply6(const Mat6 *a, Six motion) {
    double v[6], out[6];
    spread(motion, v);
    for (int i = 0; i < 6; i++) {
        double sum = a->m[i][0] * v[0];
        for (int j = 1; j < 6; j++) sum += a->m[i][j] * v[j];
        out[i] = sum;
    }
    return gather(out);
}
/* Only exact cardinal axes take a column as it stands. */
static inline Six apply_joint(const Mat6 *a, uint64_t kind, Vec3 axis) {
    int at = kind == TURN ? 0 : 3;
    double out[6], sign = 0.0;
    if (fabs(axis.x) == 1.0 && axis.y == 0.0 && axis.z == 0.0) sign = axis.x;
    else if (fabs(axis.y) == 1.0 && axis.x == 0.0 && axis.z == 0.0) sign = axis.y, at += 1;
    else if (fabs(axis.z) == 1.0 && axis.x == 0.0 && axis.y == 0.0) sign = axis.z, at += 2;
    if (sign != 0.0)
        for (int i = 0; i < 6; i++) out[i] = a->m[i][at] * sign;
    else
        for (int i = 0; i < 6; i++) out[i] = a->m[i][at] * axis.x + a->m[i][at + 1] * axis.y + a->m[i][at + 2] * axis.z;
    return gather(out);
}
static inline Mat6 inertia_to_parent(const Frame *f, const Mat6 *inertia) {
    Mat3 r = rotation_matrix(f->rotation), p = cross_matrix(f->translation);
    Mat3 a = block(inertia, 0, 0), b = block(inertia, 0, 3), d = block(inertia, 3, 3);
    Mat3 angular = turned(&r, &a), coupling = turned(&r, &b), linear = turned(&r, &d);
    Mat3 moved = product3(&p, &linear);
    for (int i = 0; i < 3; i++)
        for (int j = 0; j < 3; j++) moved.m[i][j] = coupling.m[i][j] + moved.m[i][j];
    Mat3 back = transpose3(&coupling), left = product3(&p, &back), right = product3(&moved, &p), corner = transpose3(&moved);
    for (int i = 0; i < 3; i++)
        for (int j = 0; j < 3; j++) angular.m[i][j] = angular.m[i][j] + left.m[i][j] - right.m[i][j];
    Mat6 out;
    put_block(&out, 0, 0, &angular);
    put_block(&out, 0, 3, &moved);
    put_block(&out, 3, 0, &corner);
    put_block(&out, 3, 3, &linear);
    return out;
}

/* The base solve: 0, or refusal 32, 33 or 34. */

static bool all_finite(const double *v, uint64_t length) {
    for (uint64_t i = 0; i < length; i++)
        if (!isfinite(v[i])) return false;
    return true;
}
static inline double amax6(const double v[6]) {
    double most = 0.0;
    for (int i = 0; i < 6; i++) most = most < fabs(v[i]) ? fabs(v[i]) : most;
    return most;
}
static inline double absolute_sum6(const double *v, int stride) {
    double sum = fabs(v[0]);
    for (int i = 1; i < 6; i++) sum += fabs(v[i * stride]);
    return sum;
}
static bool cholesky(Mat6 *a) {
    for (int j = 0; j < 6; j++) {
        double pivot = a->m[j][j];
        for (int k = 0; k < j; k++) pivot -= a->m[j][k] * a->m[j][k];
        if (!(pivot > 0.0)) return false;
        double root = sqrt(pivot);
        a->m[j][j] = root;
        for (int i = j + 1; i < 6; i++) {
            double below = a->m[i][j];
            for (int k = 0; k < j; k++) below -= a->m[i][k] * a->m[j][k];
            a->m[i][j] = below / root;
        }
    }
    return true;
}
static void solve_factored(const Mat6 *l, double v[6]) {
    for (int i = 0; i < 6; i++) {
        for (int k = 0; k < i; k++) v[i] -= l->m[i][k] * v[k];
        v[i] /= l->m[i][i];
    }
    for (int i = 5; i >= 0; i--) {
        for (int k = i + 1; k < 6; k++) v[i] -= l->m[k][i] * v[k];
        v[i] /= l->m[i][i];
    }
}
static int solve_base(const Mat6 *a, const double rhs[6], double solution[6]) {
    if (!all_finite(&a->m[0][0], 36) || !all_finite(rhs, 6)) return 34;
    double root[6], right[6], y[6];
    for (int i = 0; i < 6; i++)
        if (a->m[i][i] <= 0.0) return 32;
    for (int i = 0; i < 6; i++) root[i] = sqrt(a->m[i][i]), right[i] = rhs[i] / root[i];
    Mat6 scaled;
    for (int i = 0; i < 6; i++)
        for (int j = 0; j < 6; j++) scaled.m[i][j] = a->m[i][j] / root[i] / root[j];
    if (!all_finite(&scaled.m[0][0], 36) || !all_finite(right, 6)) return 34;
    Mat6 factor = scaled;
    if (!cholesky(&factor)) return 32;
    double norm = 0.0, inverse_norm = 0.0;
    for (int j = 0; j < 6; j++) {
        double sum = absolute_sum6(&scaled.m[0][j], 6);
        norm = norm < sum ? sum : norm;
    }
    for (int j = 0; j < 6; j++) {
        double column[6] = {0.0, 0.0, 0.0, 0.0, 0.0, 0.0};
        column[j] = 1.0;
        solve_factored(&factor, column);
        if (!all_finite(column, 6)) return 33;
        double sum = absolute_sum6(column, 1);
        inverse_norm = inverse_norm < sum ? sum : inverse_norm;
    }
    if ((1.0 / norm) / inverse_norm <= 0x1p-26) return 33;
    memcpy(y, right, sizeof y);
    solve_factored(&factor, y);
    for (int i = 0; i < 6; i++) solution[i] = y[i] / root[i];
    if (!all_finite(y, 6) || !all_finite(solution, 6)) return 34;
    double my = amax6(y), mr = amax6(right), magnitude = my < mr ? mr : my;
    if (!(magnitude > 0.0)) return 0;
    double ny[6], nr[6], residual[6];
    for (int i = 0; i < 6; i++) ny[i] = y[i] / magnitude, nr[i] = right[i] / magnitude;
    for (int i = 0; i < 6; i++) {
        double sum = scaled.m[i][0] * ny[0];
        for (int j = 1; j < 6; j++) sum += scaled.m[i][j] * ny[j];
        residual[i] = sum - nr[i];
    }
    double denominator = norm * amax6(ny) + amax6(nr);
    if (!all_finite(residual, 6) || amax6(residual) > 0x1p-45 * denominator) return 34;
    return 0;
}

/* What both calculations share */

typedef struct { uint64_t a, lead, g; uint8_t numbers[ROOM]; } Plan;

static Plan plan_of(const Model *m, bool floating) {
    Plan p = {.lead = floating ? 6 : 0};
    for (uint64_t j = 0; j < m->n; j++) {
        p.numbers[j] = (uint8_t)p.a;
        p.a += m->kinds[j] != FIXED;
    }
    p.g = p.a + p.lead;
    return p;
}
static inline double value_of(const Model *m, const Plan *p, const double *q, uint64_t j) {
    return m->kinds[j] == FIXED ? 0.0 : q[p->numbers[j]];
}
/* Nothing is added where the rotor is zero, of either sign. */
static inline double with_rotor(const Model *m, uint64_t j, double carried) {
    return m->rotors[j] != 0.0 ? carried + m->rotors[j] : carried;
}
static Frame frame_of(const Model *m, uint64_t j, double q) {
    Frame o = m->origins[j];
    if (m->kinds[j] == FIXED) return o;
    if (m->kinds[j] == SLIDE) return (Frame){o.rotation, add(o.translation, rotate(o.rotation, scale(q, m->axes[j])))};
    double sine, cosine;
    half_turn(q, &sine, &cosine);
    Quaternion turn = {cosine, scale(sine, m->axes[j])};
    return (Frame){times(o.rotation, turn), add(o.translation, rotate(o.rotation, vec(0.0, 0.0, 0.0)))};
}

static Answer refused(int number, long place) { return (Answer){number, place, 0}; }

static bool bad_model(const Model *m) {
    if (m->n > ROOM) return true;
    for (uint64_t j = 0; j < m->n; j++)
        if (m->parents[j] > j || m->kinds[j] > FIXED) return true;
    return false;
}
/* 12, 13 and 15 name the joint's number in the model. */
static bool bad_values(const Model *m, const Plan *p, const double *q, Answer *answer, int number) {
    for (uint64_t j = 0; j < m->n; j++)
        if (!isfinite(value_of(m, p, q, j))) return *answer = refused(number, (long)j), true;
    return false;
}
static bool far_turn(const Model *m, const Plan *p, const double *q, Answer *answer) {
    for (uint64_t j = 0; j < m->n; j++)
        if (m->kinds[j] == TURN && fabs(value_of(m, p, q, j)) > TURN_LIMIT) return *answer = refused(13, (long)j), true;
    return false;
}
static bool bad_loads(const Model *m, const Call *c, Answer *answer) {
    if (c->loads.length != 6 * c->links.length) return *answer = refused(19, NOTHING), true;
    uint64_t above = UINT64_MAX, unfit = UINT64_MAX;
    for (uint64_t i = 0; i < c->links.length; i++) {
        uint64_t link = c->links.items[i];
        if (link > m->n && link < above) above = link;
        if (link < unfit && !all_finite(c->loads.items + 6 * i, 6)) unfit = link;
    }
    if (above != UINT64_MAX) return *answer = refused(20, (long)above), true;
    if (unfit != UINT64_MAX) return *answer = refused(21, (long)unfit), true;
    return false;
}
static bool bad_root(const Call *c) {
    if (!isfinite(c->rotation.w) || !finite3(c->rotation.u) || not_unit(c->rotation)) return true;
    return c->forward && c->floating && !finite6(c->velocity);
}
static bool unfit(const Model *m, const Plan *p, const Call *c, Answer *answer) {
    uint64_t need = c->forward ? 96 * m->n + 64 : 32 * m->n + 64 + p->g * p->g;
    if (!c->plain && c->ws_length < need) return *answer = refused(10, NOTHING), true;
    if (c->q.length != p->a) return *answer = refused(11, NOTHING), true;
    if (bad_values(m, p, c->q.items, answer, 12) || far_turn(m, p, c->q.items, answer)) return true;
    if (c->forward) {
        if (c->qd.length != p->a) return *answer = refused(14, NOTHING), true;
        if (bad_values(m, p, c->qd.items, answer, 15)) return true;
        if (c->forces.length != p->g) return *answer = refused(16, NOTHING), true;
    }
    if (c->out_length != (c->forward ? p->g : p->g * p->g)) return *answer = refused(17, NOTHING), true;
    if (c->forward) {
        for (uint64_t i = 0; i < p->g; i++)
            if (!isfinite(c->forces.items[i])) return *answer = refused(18, (long)i), true;
        if (bad_loads(m, c, answer)) return true;
    }
    if ((c->forward || c->floating) && bad_root(c)) return *answer = refused(22, NOTHING), true;
    return false;
}

/* The mass matrix. The workspace is as docs/LAYOUT.md has it. */

typedef struct { Frame frame; Body body; double rest[12]; } MatrixJoint;

static inline void add_composite(Body *to, const Frame *f, const Body *from) {
    Vec3 t = f->translation;
    Mat3 r = rotation_matrix(f->rotation);
    Vec3 h = apply3(&r, from->moment);
    Mat3 inertia = turned(&r, &from->inertia);
    double mass = from->mass, s = mass * dot(t, t) + 2.0 * dot(t, h);
    Vec3 mt = scale(mass, t);
    const double tv[3] = {t.x, t.y, t.z}, hv[3] = {h.x, h.y, h.z}, mv[3] = {mt.x, mt.y, mt.z};
    to->mass += mass;
    to->moment = add(to->moment, add(mt, h));
    for (int i = 0; i < 3; i++)
        for (int j = 0; j < 3; j++)
            to->inertia.m[i][j] += inertia.m[i][j] + s * (i == j ? 1.0 : 0.0) - mv[i] * tv[j] - tv[i] * hv[j] - hv[i] * tv[j];
}
static inline Six turn_force(Vec3 axis, const Body *b) { return (Six){apply3(&b->inertia, axis), cross(axis, b->moment)}; }
static inline Six slide_force(Vec3 axis, const Body *b) { return (Six){cross(b->moment, axis), scale(b->mass, axis)}; }
/* Of an active joint: what answers its motion, and what a force gives along it. */
static inline Six joint_force(const Model *m, uint64_t j, const Body *b) {
    return m->kinds[j] == TURN ? turn_force(m->axes[j], b) : slide_force(m->axes[j], b);
}
static inline double along(const Model *m, uint64_t j, Six force) { return dot(m->axes[j], m->kinds[j] == TURN ? force.turn : force.shift); }
static inline Six base_load(const Call *c, const Body *root, uint64_t k) {
    Vec3 axis = rotate(inverse(c->rotation), vec(k % 3 == 0, k % 3 == 1, k % 3 == 2));
    return rotate6(c->rotation, k < 3 ? turn_force(axis, root) : slide_force(axis, root));
}

static void column(const Model *m, const Plan *p, const Call *c, const MatrixJoint *w, double *matrix, uint64_t j) {
    uint64_t side = p->g, own = p->lead + p->numbers[j], i = j;
    Six force = joint_force(m, j, &w[j].body);
    for (;;) {
        if (m->kinds[i] != FIXED) {
            double entry = along(m, i, force);
            uint64_t row = p->lead + p->numbers[i];
            matrix[row * side + own] = entry;
            matrix[own * side + row] = entry;
        }
        if (m->parents[i] == 0 && !c->floating) return;
        force = wrench_to_parent(&w[i].frame, force);
        if (m->parents[i] == 0) break;
        i = m->parents[i] - 1;
    }
    double rows[6];
    spread(rotate6(c->rotation, force), rows);
    for (uint64_t r = 0; r < 6; r++) {
        matrix[own * side + r] = rows[r];
        matrix[r * side + own] = rows[r];
    }
}
static void base_columns(const Call *c, const Body *root, uint64_t side, double *matrix) {
    for (uint64_t k = 0; k < 6; k++) spread(base_load(c, root, k), matrix + k * side);
}
static Answer close_call(Call *c, Answer answer) {
    memset(c->ws, 0, c->ws_length * sizeof(double));
    return answer;
}
static Answer mass_matrix(const Model *m, const Plan *p, Call *c) {
    MatrixJoint *w = (MatrixJoint *)c->ws;
    Body *root = (Body *)(c->ws + 32 * m->n);
    double *matrix = c->ws + 32 * m->n + 64;
    uint64_t visits = 2 * m->n + p->a + 1, entries = p->g * p->g;
    memset(c->ws, 0, c->ws_length * sizeof(double));
    if (c->floating) *root = m->links[0];
    for (uint64_t j = 0; j < m->n; j++) {
        w[j].frame = frame_of(m, j, value_of(m, p, c->q.items, j));
        w[j].body = m->links[j + 1];
    }
    for (uint64_t j = m->n; j-- > 0;) {
        if (m->parents[j] != 0) add_composite(&w[m->parents[j] - 1].body, &w[j].frame, &w[j].body);
        else if (c->floating) add_composite(root, &w[j].frame, &w[j].body);
    }
    for (uint64_t j = 0; j < m->n; j++)
        if (m->kinds[j] != FIXED) {
            column(m, p, c, w, matrix, j);
            double *diagonal = matrix + (p->lead + p->numbers[j]) * (p->g + 1);
            *diagonal = with_rotor(m, j, *diagonal);
        }
    if (c->floating) base_columns(c, root, p->g, matrix);
    if (!all_finite(matrix, entries)) return close_call(c, (Answer){37, NOTHING, visits});
    memcpy(c->out, matrix, entries * sizeof(double));
    return close_call(c, (Answer){0, NOTHING, visits});
}

/* The plain mass matrix: every entry by itself, with no workspace. */

static Frame plain_frame(const Model *m, const Plan *p, const Call *c, uint64_t j) { return frame_of(m, j, value_of(m, p, c->q.items, j)); }
static Body composite(const Model *m, const Plan *p, const Call *c, uint64_t link) {
    Body whole = m->links[link];
    for (uint64_t j = m->n; j-- > 0;)
        if (m->parents[j] == link) {
            Body carried = composite(m, p, c, j + 1);
            Frame f = plain_frame(m, p, c, j);
            add_composite(&whole, &f, &carried);
        }
    return whole;
}
static uint64_t joint_with(const Model *m, const Plan *p, uint64_t k) {
    uint64_t j = 0;
    while (m->kinds[j] == FIXED || p->numbers[j] != k) j++;
    return j;
}
static double joint_entry(const Model *m, const Plan *p, const Call *c, uint64_t high, uint64_t low) {
    Body whole = composite(m, p, c, high + 1);
    Six force = joint_force(m, high, &whole);
    for (uint64_t j = high; j != low; j = m->parents[j] - 1) {
        if (m->parents[j] == 0) return 0.0;
        Frame f = plain_frame(m, p, c, j);
        force = wrench_to_parent(&f, force);
    }
    double entry = along(m, low, force);
    return high == low ? with_rotor(m, high, entry) : entry;
}
static double base_entry(const Model *m, const Plan *p, const Call *c, uint64_t k, uint64_t j) {
    Body whole = composite(m, p, c, j + 1);
    Six force = joint_force(m, j, &whole);
    for (uint64_t link = j + 1; link != 0; link = m->parents[link - 1]) {
        Frame f = plain_frame(m, p, c, link - 1);
        force = wrench_to_parent(&f, force);
    }
    double rows[6];
    spread(rotate6(c->rotation, force), rows);
    return rows[k];
}
static double corner_entry(const Model *m, const Plan *p, const Call *c, uint64_t row, uint64_t column) {
    Body whole = composite(m, p, c, 0);
    double rows[6];
    spread(base_load(c, &whole, column), rows);
    return rows[row];
}
/* It is not inlined, so that no entry's work serves another. */
static __attribute__((noinline)) double plain_entry(const Model *m, const Plan *p, const Call *c, uint64_t row, uint64_t column) {
    uint64_t low = row < column ? row : column, high = row < column ? column : row;
    if (high < p->lead) return corner_entry(m, p, c, row, column);
    uint64_t j = joint_with(m, p, high - p->lead);
    if (low < p->lead) return base_entry(m, p, c, low, j);
    return joint_entry(m, p, c, j, joint_with(m, p, low - p->lead));
}
static Answer plain_matrix(const Model *m, const Plan *p, Call *c) {
    uint64_t entries = p->g * p->g;
    bool finite = true;
    for (uint64_t t = 0; t < entries; t++) finite &= isfinite(plain_entry(m, p, c, t % p->g, t / p->g)) != 0;
    if (!finite) return refused(37, NOTHING);
    for (uint64_t t = 0; t < entries; t++) c->out[t] = plain_entry(m, p, c, t % p->g, t / p->g);
    return (Answer){0, NOTHING, 0};
}

/* Forward dynamics */

typedef struct {
    Frame frame;
    Six velocity, bias_acceleration;
    Mat6 inertia;
    Six bias_force, u;
    double d, joint_bias;
    Six acceleration, load;
    double rest[14];
} ForwardJoint;

typedef struct { Mat6 inertia; Six bias_force, acceleration; } ForwardRoot;

static inline Six motion_of(const Model *m, uint64_t j) {
    Vec3 none = vec(0.0, 0.0, 0.0);
    if (m->kinds[j] == TURN) return (Six){m->axes[j], none};
    if (m->kinds[j] == SLIDE) return (Six){none, m->axes[j]};
    return (Six){none, none};
}
static void begin_forward(const Model *m, const Call *c, ForwardJoint *w, ForwardRoot *root, Six root_velocity) {
    Six root_load = {{0.0, 0.0, 0.0}, {0.0, 0.0, 0.0}};
    bool any[33] = {false};
    for (uint64_t i = 0; i < c->links.length; i++) {
        uint64_t link = c->links.items[i];
        Six load = gather(c->loads.items + 6 * i), *sum = link == 0 ? &root_load : &w[link - 1].load;
        *sum = any[link] ? add6(*sum, load) : load;
        any[link] = true;
    }
    root->inertia = rigid_body_inertia(&m->links[0]);
    root->bias_force = add6(force_cross(root_velocity, apply6(&root->inertia, root_velocity)), root_load);
}
static void first_pass(const Model *m, const Plan *p, const Call *c, ForwardJoint *w, Six root_velocity, uint64_t j) {
    w[j].frame = frame_of(m, j, value_of(m, p, c->q.items, j));
    Six carried = m->parents[j] == 0 ? root_velocity : w[m->parents[j] - 1].velocity;
    Six own = scale6(value_of(m, p, c->qd.items, j), motion_of(m, j));
    Six velocity = add6(motion_to_child(&w[j].frame, carried), own);
    w[j].velocity = velocity;
    w[j].bias_acceleration = motion_cross(velocity, own);
    w[j].inertia = rigid_body_inertia(&m->links[j + 1]);
    w[j].bias_force = add6(force_cross(velocity, apply6(&w[j].inertia, velocity)), w[j].load);
}
/* 0, or refusal 30 or 31. */
static int second_pass(const Model *m, const Plan *p, const Call *c, ForwardJoint *w, ForwardRoot *root, uint64_t j) {
    bool active = m->kinds[j] != FIXED, ends_here = m->parents[j] == 0 && !c->floating;
    ForwardJoint *joint = &w[j];
    if (active) {
        Six s = motion_of(m, j), u = apply_joint(&joint->inertia, m->kinds[j], m->axes[j]);
        double d = with_rotor(m, j, dot6(s, u));
        if (!isfinite(d)) return 30;
        if (d <= 0.0) return 31;
        joint->joint_bias = c->forces.items[p->lead + p->numbers[j]] - dot6(s, joint->bias_force);
        joint->u = u;
        joint->d = d;
    }
    if (ends_here) return 0;
    Mat6 reduced = joint->inertia;
    if (active) {
        double u[6];
        spread(joint->u, u);
        for (int r = 0; r < 6; r++)
            for (int k = 0; k < 6; k++) reduced.m[r][k] -= u[r] * u[k] / joint->d;
    }
    Six force = add6(joint->bias_force, apply6(&reduced, joint->bias_acceleration));
    if (active) force = add6(force, scale6(joint->joint_bias / joint->d, joint->u));
    Mat6 moved = inertia_to_parent(&joint->frame, &reduced);
    force = wrench_to_parent(&joint->frame, force);
    Mat6 *inertia = m->parents[j] == 0 ? &root->inertia : &w[m->parents[j] - 1].inertia;
    Six *bias = m->parents[j] == 0 ? &root->bias_force : &w[m->parents[j] - 1].bias_force;
    for (int r = 0; r < 6; r++)
        for (int k = 0; k < 6; k++) inertia->m[r][k] += moved.m[r][k];
    *bias = add6(*bias, force);
    return 0;
}
/* 0, or refusal 32 to 35. */
static int root_pass(const Call *c, ForwardRoot *root, Six root_velocity, double *results) {
    Quaternion back = inverse(c->rotation);
    Vec3 gravity = rotate(back, vec(0.0, 0.0, GRAVITY));
    if (!c->floating) return root->acceleration = (Six){vec(0.0, 0.0, 0.0), gravity}, 0;
    double rhs[6], solution[6];
    spread(sub6(rotate6(back, gather(c->forces.items)), root->bias_force), rhs);
    Mat6 even;
    for (int i = 0; i < 6; i++)
        for (int j = 0; j < 6; j++) even.m[i][j] = root->inertia.m[i][j] * 0.5 + root->inertia.m[j][i] * 0.5;
    int number = solve_base(&even, rhs, solution);
    if (number) return number;
    Six acceleration = gather(solution);
    Vec3 linear = add(sub(acceleration.shift, gravity), cross(root_velocity.turn, root_velocity.shift));
    Six world = rotate6(c->rotation, (Six){acceleration.turn, linear});
    if (!finite6(world)) return 35;
    spread(world, results);
    root->acceleration = acceleration;
    return 0;
}
/* 0, or refusal 36. */
static int third_pass(const Model *m, const Plan *p, ForwardJoint *w, const ForwardRoot *root, double *results, uint64_t j) {
    Six carried = m->parents[j] == 0 ? root->acceleration : w[m->parents[j] - 1].acceleration;
    Six acceleration = add6(motion_to_child(&w[j].frame, carried), w[j].bias_acceleration);
    if (m->kinds[j] != FIXED) {
        double own = (w[j].joint_bias - dot6(acceleration, w[j].u)) / w[j].d;
        if (!isfinite(own)) return 36;
        acceleration = add6(acceleration, scale6(own, motion_of(m, j)));
        results[p->lead + p->numbers[j]] = own;
    }
    w[j].acceleration = acceleration;
    return 0;
}
static Answer forward_dynamics(const Model *m, const Plan *p, Call *c) {
    ForwardJoint *w = (ForwardJoint *)c->ws;
    ForwardRoot *root = (ForwardRoot *)(c->ws + 95 * m->n);
    double *results = c->ws + 95 * m->n + 48;
    uint64_t visits = 0;
    int number;
    memset(c->ws, 0, c->ws_length * sizeof(double));
    Six still = {{0.0, 0.0, 0.0}, {0.0, 0.0, 0.0}};
    Six root_velocity = rotate6(inverse(c->rotation), c->floating ? c->velocity : still);
    begin_forward(m, c, w, root, root_velocity);
    for (uint64_t j = 0; j < m->n; j++) visits++, first_pass(m, p, c, w, root_velocity, j);
    for (uint64_t j = m->n; j-- > 0;) {
        visits++;
        number = second_pass(m, p, c, w, root, j);
        if (number) return close_call(c, (Answer){number, p->numbers[j], visits});
    }
    visits++;
    number = root_pass(c, root, root_velocity, results);
    if (number) return close_call(c, (Answer){number, NOTHING, visits});
    for (uint64_t j = 0; j < m->n; j++) {
        visits++;
        number = third_pass(m, p, w, root, results, j);
        if (number) return close_call(c, (Answer){number, p->numbers[j], visits});
    }
    memcpy(c->out, results, p->g * sizeof(double));
    return close_call(c, (Answer){0, NOTHING, visits});
}

/* One whole call. It is not inlined, so that `repeat` makes every one of them. */
static __attribute__((noinline)) Answer call(const Model *m, Call *c) {
    Answer answer;
    if (bad_model(m)) return refused(9, NOTHING);
    Plan p = plan_of(m, c->floating);
    if (unfit(m, &p, c, &answer)) return answer;
    if (c->plain) return plain_matrix(m, &p, c);
    return c->forward ? forward_dynamics(m, &p, c) : mass_matrix(m, &p, c);
}

/* Lines */

typedef struct { char *rest; bool bad; } Words;

static char *word(Words *w) {
    char *found = strtok_r(w->rest, " ", &w->rest);
    if (!found) w->bad = true;
    return found ? found : "";
}
static uint64_t number(Words *w) {
    char *text = word(w), *end;
    uint64_t value = strtoull(text, &end, 16);
    if (end == text || *end || end - text > 16) w->bad = true;
    return value;
}
static double real(Words *w) {
    uint64_t bits = number(w);
    double value;
    memcpy(&value, &bits, sizeof value);
    return value;
}
static Vec3 vector(Words *w) {
    double x = real(w), y = real(w), z = real(w);
    return vec(x, y, z);
}
static Quaternion quaternion(Words *w) {
    double first = real(w);
    return (Quaternion){first, vector(w)};
}
static uint64_t length(Words *w, uint64_t most) {
    uint64_t value = number(w);
    if (value > most) w->bad = true;
    return w->bad ? 0 : value;
}
static void doubles(Words *w, Doubles *list) {
    list->length = length(w, LONGEST_LIST);
    for (uint64_t i = 0; i < list->length; i++) list->items[i] = real(w);
}
static void counts(Words *w, Counts *list) {
    list->length = length(w, LONGEST_LIST);
    for (uint64_t i = 0; i < list->length; i++) list->items[i] = number(w);
}

static Vec3 unit_axis(Vec3 v) {
    double s = fmax(fmax(fabs(v.x), fabs(v.y)), fabs(v.z));
    Vec3 scaled = vec(v.x / s, v.y / s, v.z / s);
    double norm = sqrt(dot(scaled, scaled));
    return vec(scaled.x / norm, scaled.y / norm, scaled.z / norm);
}
static bool read_model(Words *w, Model *m) {
    static Model fresh, none;
    fresh = none;
    fresh.n = length(w, ROOM);
    w->bad |= length(w, ROOM) != fresh.n;
    for (uint64_t j = 0; j < fresh.n; j++) fresh.parents[j] = number(w);
    w->bad |= length(w, ROOM) != fresh.n;
    for (uint64_t j = 0; j < fresh.n; j++) fresh.kinds[j] = number(w);
    w->bad |= length(w, 7 * ROOM) != 7 * fresh.n;
    for (uint64_t j = 0; j < fresh.n; j++) {
        fresh.origins[j].rotation = quaternion(w);
        fresh.origins[j].translation = vector(w);
    }
    w->bad |= length(w, 3 * ROOM) != 3 * fresh.n;
    for (uint64_t j = 0; j < fresh.n; j++) {
        Vec3 axis = vector(w);
        fresh.axes[j] = fresh.kinds[j] == FIXED ? vec(1.0, 0.0, 0.0) : unit_axis(axis);
    }
    w->bad |= length(w, 10 * (ROOM + 1)) != 10 * (fresh.n + 1);
    for (uint64_t l = 0; l <= fresh.n && !w->bad; l++) {
        Body *b = &fresh.links[l];
        b->mass = real(w);
        b->moment = vector(w);
        double xx = real(w), xy = real(w), xz = real(w), yy = real(w), yz = real(w), zz = real(w);
        b->inertia = (Mat3){{{xx, xy, xz}, {xy, yy, yz}, {xz, yz, zz}}};
    }
    w->bad |= length(w, ROOM) != fresh.n;
    for (uint64_t j = 0; j < fresh.n; j++) {
        double rotor = real(w);
        fresh.rotors[j] = fresh.kinds[j] == FIXED ? 0.0 : rotor;
    }
    if (w->bad || *w->rest) return false;
    *m = fresh;
    return true;
}
static bool read_call(Words *w, const char *name, Call *c) {
    c->plain = strncmp(name, "plain_", 6) == 0;
    if (c->plain) name += 6;
    c->forward = !c->plain && strstr(name, "forward") != NULL;
    c->floating = strncmp(name, "floating_", 9) == 0;
    if (strcmp(name + (c->floating ? 9 : 0), c->forward ? "forward" : "matrix") != 0) return false;
    if (c->forward || c->floating) c->rotation = quaternion(w);
    if (c->forward && c->floating) c->velocity.turn = vector(w), c->velocity.shift = vector(w);
    doubles(w, &c->q);
    if (c->forward) {
        doubles(w, &c->qd);
        doubles(w, &c->forces);
        counts(w, &c->links);
        doubles(w, &c->loads);
    }
    c->ws_length = c->plain ? 0 : length(w, sizeof c->ws / sizeof *c->ws);
    c->out_length = length(w, sizeof c->out / sizeof *c->out);
    if (!c->plain && number(w) != 0) return false;
    for (uint64_t i = 0; i < c->ws_length; i++) c->ws[i] = 1.0;
    for (uint64_t i = 0; i < c->out_length; i++) c->out[i] = 1.0;
    return !w->bad && !*w->rest;
}

static bool all_are(const double *v, uint64_t length, double wanted) {
    for (uint64_t i = 0; i < length; i++)
        if (memcmp(&v[i], &wanted, sizeof wanted) != 0) return false;
    return true;
}
static void print_answer(const Call *c, Answer answer) {
    if (!answer.number) printf("accepted - -");
    else if (answer.place == NOTHING) printf("refused %d -", answer.number);
    else printf("refused %d %lx", answer.number, answer.place);
    const char *state = all_are(c->ws, c->ws_length, 0.0) ? "zero" : all_are(c->ws, c->ws_length, 1.0) ? "kept" : "numbers";
    if (!c->plain) printf(" | 1 %llx | %s", (unsigned long long)answer.visits, state);
    printf(" | %llx", (unsigned long long)c->out_length);
    for (uint64_t i = 0; i < c->out_length; i++) {
        uint64_t bits;
        memcpy(&bits, &c->out[i], sizeof bits);
        if (isnan(c->out[i])) printf(" nan");
        else printf(" %016llx", (unsigned long long)bits);
    }
    printf("\n");
}

int main(void) {
    static Model model;
    static Call c;
    char *line = NULL;
    size_t room = 0;
    ssize_t got;
    while ((got = getline(&line, &room, stdin)) > 0) {
        if (line[got - 1] == '\n') line[got - 1] = 0;
        if (!line[0] || line[0] == '#') continue;
        Words words = {line, false};
        char *name = word(&words);
        bool repeated = strcmp(name, "repeat") == 0;
        uint64_t times_asked = 1;
        if (strcmp(name, "model") == 0) {
            puts(read_model(&words, &model) ? "model" : "error");
            continue;
        }
        if (repeated) {
            times_asked = number(&words);
            name = word(&words);
        }
        if (times_asked < 1 || times_asked > 1000000 || !read_call(&words, name, &c) || (c.plain && repeated)) {
            puts("error");
            continue;
        }
        Answer answer = {0, NOTHING, 0};
        for (uint64_t i = 0; i < times_asked; i++) answer = call(&model, &c);
        print_answer(&c, answer);
    }
    free(line);
    return 0;
}
