/* A step, a greatest step and a transport in plain C, written for speed: opponents of the proved ones, with their signatures. They take no outlets.
 *
 * The checks take one pass over the cells and the fluxes another, a cell's velocity and wave speed are found once, and what a dry cell need not do
 * it does not. The record is written when nothing can be refused any more. */
#include "jemmyfern.h"

#include <math.h>
#include <string.h>

#define CELLS_MOST JEMMYFERN_CELLS_MOST
#define DEPTH_MOST JEMMYFERN_DEPTH_MOST
#define VELOCITY_MOST JEMMYFERN_VELOCITY_MOST
#define CONCENTRATION_MOST JEMMYFERN_CONCENTRATION_MOST
#define TOTAL_MOST JEMMYFERN_TOTAL_MOST

/* At -O2 the compiler would call what stands twice. */
#define INLINE static inline __attribute__((always_inline))

/* The compiler holds the definitions below to the header's signatures. */
__typeof__(jemmyfern_step) plain_step;
__typeof__(jemmyfern_greatest_step) plain_greatest_step;
__typeof__(jemmyfern_transport) plain_transport;

/* What all three are lent, of n cells. */
typedef struct {
    const int64_t *bed;
    const uint64_t *depth;
    const int64_t *discharge;
    const uint64_t *mass;
    const uint64_t *base;
    const int64_t *carried;
    size_t n;
} columns;

/* Of the arguments, which have these names in all three. */
#define COLUMNS ((columns){bed, depth, discharge, mass, base, carried, bed_length})
#define LENGTHS_FIT \
    (bed_length - 1 < CELLS_MOST && depth_length == bed_length && discharge_length == bed_length && mass_length == bed_length && \
     base_length == bed_length && carried_length == bed_length + 1)

static inline uint64_t positive(int64_t a) { return a > 0 ? (uint64_t)a : 0; }

static inline uint64_t absolute(int64_t a) { return a < 0 ? -(uint64_t)a : (uint64_t)a; }

static inline uint64_t larger(uint64_t a, uint64_t b) { return a > b ? a : b; }

/* |a| <= most in one comparison */
static inline bool within(int64_t a, uint64_t most) { return (uint64_t)a + most <= 2 * most; }

static inline bool boundary_sound(const jemmyfern_boundary *b)
{
    bool empty = b->depth == 0 && b->discharge == 0;
    if (b->reserved != 0 || b->concentration > CONCENTRATION_MOST)
        return false;
    switch (b->kind) {
    case JEMMYFERN_WALL:
        return empty && b->concentration == 0;
    case JEMMYFERN_OPEN:
        return empty;
    case JEMMYFERN_FED:
        return b->depth - 1 < DEPTH_MOST && within(b->discharge, VELOCITY_MOST * b->depth);
    default:
        return false;
    }
}

static inline uint64_t greatest_total(const jemmyfern_totals *k)
{
    return larger(larger(k->water_in, k->water_out), larger(k->mass_in, k->mass_out));
}

static inline bool ledger_sound(const jemmyfern_ledger *k) { return larger(greatest_total(&k->left), greatest_total(&k->right)) <= TOTAL_MOST; }

/* Grounds 5 to 9 with 16 in checking order. The pass goes on where a rule is broken, since a later cell may break an earlier ground. Where values are
 * out of range the sums may wrap, and are not looked at. */
static inline uint32_t check(columns c, size_t outlets_length, uint64_t cell_length, const jemmyfern_boundary boundaries[2],
                             const jemmyfern_ledger *ledger)
{
    if (cell_length < JEMMYFERN_CELL_LENGTH_LEAST || cell_length > JEMMYFERN_CELL_LENGTH_MOST)
        return JEMMYFERN_CELL_LENGTH;
    if (!boundary_sound(&boundaries[0]) || !boundary_sound(&boundaries[1]))
        return JEMMYFERN_BOUNDARIES;
    int64_t left = c.carried[0];
    bool values = true, sums = within(left, DEPTH_MOST);
    for (size_t i = 0; i < c.n; i++) {
        uint64_t h = c.depth[i], b = c.base[i];
        int64_t right = c.carried[i + 1];
        if (!within(c.bed[i], JEMMYFERN_BED_MOST) || h > DEPTH_MOST || b > DEPTH_MOST || !within(c.discharge[i], VELOCITY_MOST * h) ||
            c.mass[i] > CONCENTRATION_MOST * b)
            values = false;
        /* max(right,0) + max(-left,0) <= b, where h is b + left - right, comes to: neither is above b */
        uint64_t with_left = b + (uint64_t)left, without_right = b - (uint64_t)right;
        if (!within(right, DEPTH_MOST) || h != with_left - (uint64_t)right || (int64_t)(with_left | without_right) < 0)
            sums = false;
        left = right;
    }
    if (!values)
        return JEMMYFERN_VALUES;
    if (outlets_length != 0)
        return JEMMYFERN_OUTLETS;
    bool walls = (boundaries[0].kind != JEMMYFERN_WALL || c.carried[0] == 0) && (boundaries[1].kind != JEMMYFERN_WALL || left == 0);
    if (!sums || !walls)
        return JEMMYFERN_CARRIED;
    return ledger_sound(ledger) ? JEMMYFERN_ACCEPTED : JEMMYFERN_LEDGER;
}

/* The least a with 10^6 a^2 >= 14,709,975 h. The root cut to a whole number is that a or the one below: where 14.709975 h is no whole square it is
 * 10^-6 away from one, and the machine's numbers are better than that. */
static inline uint64_t wave_speed(uint64_t h)
{
    uint64_t a = (uint64_t)(int64_t)sqrt(14.709975 * (double)(int64_t)h);
    return a + (1000000 * a * a < 14709975 * h);
}

/* The water of a cell or beyond a boundary */
typedef struct {
    int64_t bed;
    uint64_t depth;
    int64_t velocity;
    uint64_t wave;
} water;

static inline water water_of(int64_t bed, uint64_t depth, int64_t discharge)
{
    if (depth == 0)
        return (water){.bed = bed};
    return (water){bed, depth, discharge / (int64_t)depth, wave_speed(depth)};
}

static inline uint64_t signal_speed(water w) { return absolute(w.velocity) + w.wave; }

static inline water beyond(const jemmyfern_boundary *b, water cell)
{
    if (b->kind == JEMMYFERN_FED)
        return water_of(cell.bed, b->depth, b->discharge);
    if (b->kind == JEMMYFERN_WALL)
        cell.velocity = -cell.velocity;
    return cell;
}

/* What a step has of its time step and cell length */
typedef struct {
    uint64_t t;
    uint64_t x1000;
} mesh;

/* A side of an interface at its reduced depth */
typedef struct {
    uint64_t depth;
    uint64_t wave;
} side;

/* N and P of an interface, and its sides */
typedef struct {
    int64_t water;
    int64_t momentum;
    side left, right;
} crossing;

/* The side of w towards a bed that lies `rise` above its own */
static inline side facing(water w, int64_t rise)
{
    if (rise <= 0)
        return (side){w.depth, w.wave};
    if ((int64_t)w.depth <= rise)
        return (side){0, 0};
    uint64_t depth = w.depth - (uint64_t)rise;
    return (side){depth, wave_speed(depth)};
}

/* Adds W to N and Q to P; u is positive towards the other side, which lies rightwards where `sign` is 1. */
INLINE void send(crossing *c, side s, int64_t u, int64_t sign, mesh m)
{
    if (s.depth == 0)
        return;
    uint64_t upper = positive(u + (int64_t)s.wave), lower = positive(u - (int64_t)s.wave);
    uint64_t upper2 = upper * upper, lower2 = lower * lower;
    uint64_t ht = s.depth * m.t;
    uint64_t kinetic = (upper2 * upper - lower2 * lower) / (6 * s.wave);
    c->water += sign * (int64_t)(ht * (upper2 - lower2) / (4 * s.wave * m.x1000));
    c->momentum += (int64_t)(ht * kinetic / m.x1000);
}

INLINE crossing cross(water l, water r, mesh m)
{
    if ((l.depth | r.depth) == 0) /* cheap where the reach is dry */
        return (crossing){0};
    int64_t rise = r.bed - l.bed;
    crossing c = {.left = facing(l, rise), .right = facing(r, -rise)};
    send(&c, c.left, l.velocity, 1, m);
    send(&c, c.right, -r.velocity, -1, m);
    return c;
}

/* S: the thrust of water at rest */
static inline int64_t thrust(side s, mesh m) { return 2 * (int64_t)(s.depth * m.t * (s.wave * s.wave / 6) / m.x1000); }

/* S of a cell's own depth at its right less at its left: nothing where the bed reduces neither */
static inline int64_t bed_thrust(side right, side left, mesh m) { return right.depth == left.depth ? 0 : thrust(right, m) - thrust(left, m); }

/* The greatest r with r^3 <= 1,000 k^4, of k = 0..400 whole centimetres */
static const uint16_t roots[401] = {
    0, 10, 25, 43, 63, 85, 109, 133, 160, 187, 215, 244, 274, 305, 337, 369, 403, 437, 471, 506, 542, 579, 616, 654, 692, 731, 770, 810, 850, 890,
    932, 973, 1015, 1058, 1101, 1144, 1188, 1232, 1277, 1322, 1367, 1413, 1459, 1506, 1553, 1600, 1648, 1696, 1744, 1793, 1842, 1891, 1940, 1990,
    2041, 2091, 2142, 2193, 2245, 2296, 2348, 2401, 2453, 2506, 2560, 2613, 2667, 2721, 2775, 2830, 2884, 2939, 2995, 3050, 3106, 3162, 3219, 3275,
    3332, 3389, 3447, 3504, 3562, 3620, 3678, 3737, 3796, 3855, 3914, 3973, 4033, 4093, 4153, 4213, 4274, 4334, 4395, 4456, 4518, 4579, 4641, 4703,
    4765, 4828, 4890, 4953, 5016, 5079, 5143, 5206, 5270, 5334, 5398, 5463, 5527, 5592, 5657, 5722, 5787, 5853, 5918, 5984, 6050, 6117, 6183, 6250,
    6316, 6383, 6450, 6518, 6585, 6653, 6720, 6788, 6857, 6925, 6993, 7062, 7131, 7200, 7269, 7338, 7408, 7477, 7547, 7617, 7687, 7758, 7828, 7899,
    7969, 8040, 8111, 8183, 8254, 8326, 8397, 8469, 8541, 8613, 8686, 8758, 8831, 8903, 8976, 9049, 9123, 9196, 9269, 9343, 9417, 9491, 9565, 9639,
    9714, 9788, 9863, 9937, 10012, 10087, 10163, 10238, 10314, 10389, 10465, 10541, 10617, 10693, 10769, 10846, 10922, 10999, 11076, 11153, 11230,
    11307, 11385, 11462, 11540, 11618, 11696, 11774, 11852, 11930, 12009, 12087, 12166, 12245, 12323, 12403, 12482, 12561, 12640, 12720, 12800,
    12880, 12960, 13040, 13120, 13200, 13280, 13361, 13442, 13523, 13603, 13684, 13766, 13847, 13928, 14010, 14091, 14173, 14255, 14337, 14419,
    14501, 14584, 14666, 14749, 14831, 14914, 14997, 15080, 15163, 15247, 15330, 15413, 15497, 15581, 15665, 15749, 15833, 15917, 16001, 16085,
    16170, 16254, 16339, 16424, 16509, 16594, 16679, 16764, 16850, 16935, 17021, 17107, 17192, 17278, 17364, 17450, 17537, 17623, 17709, 17796,
    17883, 17969, 18056, 18143, 18230, 18317, 18405, 18492, 18580, 18667, 18755, 18843, 18931, 19019, 19107, 19195, 19283, 19372, 19460, 19549,
    19637, 19726, 19815, 19904, 19993, 20082, 20172, 20261, 20351, 20440, 20530, 20620, 20710, 20800, 20890, 20980, 21070, 21161, 21251, 21342,
    21432, 21523, 21614, 21705, 21796, 21887, 21978, 22070, 22161, 22253, 22344, 22436, 22528, 22620, 22712, 22804, 22896, 22988, 23081, 23173,
    23266, 23358, 23451, 23544, 23637, 23730, 23823, 23916, 24010, 24103, 24196, 24290, 24384, 24477, 24571, 24665, 24759, 24853, 24947, 25042,
    25136, 25230, 25325, 25420, 25514, 25609, 25704, 25799, 25894, 25989, 26084, 26180, 26275, 26371, 26466, 26562, 26658, 26754, 26850, 26946,
    27042, 27138, 27234, 27331, 27427, 27523, 27620, 27717, 27814, 27910, 28007, 28104, 28202, 28299, 28396, 28493, 28591, 28688, 28786, 28884,
    28982, 29079, 29177, 29275, 29374, 29472,
};

/* Friction of the bed in a step */
typedef struct {
    uint64_t square; /* F^2 */
    uint64_t drag;   /* 45,518 t */
} friction;

/* What friction leaves of a discharge q: q less qE/(D+E) rounded up, since qE has 64 bits where qD has not. A depth that the list has not is refused
 * afterwards. */
static inline int64_t slowed(friction f, int64_t discharge, int64_t depth, int64_t velocity)
{
    if (f.square == 0)
        return discharge;
    uint64_t k = (uint64_t)depth / 10000;
    uint64_t d = f.square * roots[k < 400 ? k : 400];
    if (d == 0)
        return 0;
    uint64_t e = f.drag * absolute(velocity) / 1000000;
    int64_t lost = (int64_t)((absolute(discharge) * e + d + e - 1) / (d + e));
    return discharge < 0 ? discharge + lost : discharge - lost;
}

/* What the pass over the interfaces finds; of the columns only the entries of the reach are ever set. */
typedef struct {
    int64_t water[CELLS_MOST + 1];
    uint64_t depth[CELLS_MOST];
    int64_t discharge[CELLS_MOST];
    uint64_t fastest;
    int64_t deepest;
    bool keeps; /* the sums of carried water stay, and no transport comes first */
} found;

/* One pass over the interfaces, left to right. CFL is looked at afterwards: without it a new depth may be below 0, and nothing else goes wrong. */
static inline void find(found *f, columns c, const jemmyfern_boundary boundaries[2], mesh m, friction bed)
{
    water cell = water_of(c.bed[0], c.depth[0], c.discharge[0]);
    water before = beyond(&boundaries[0], cell);
    crossing left = cross(before, cell, m);
    int64_t left_sum = c.carried[0] + left.water;
    uint64_t fastest = larger(signal_speed(before), signal_speed(cell));
    int64_t deepest = 0;
    bool keeps = true;
    f->water[0] = left.water;
    for (size_t i = 0; i < c.n; i++) {
        water next = i + 1 < c.n ? water_of(c.bed[i + 1], c.depth[i + 1], c.discharge[i + 1]) : beyond(&boundaries[1], cell);
        crossing right = cross(cell, next, m);
        int64_t depth = (int64_t)c.depth[i] + left.water - right.water;
        int64_t pushed = c.discharge[i] + left.momentum - right.momentum + bed_thrust(right.left, left.right, m);
        int64_t discharge = slowed(bed, pushed, depth, cell.velocity);
        int64_t most = VELOCITY_MOST * depth;
        discharge = discharge < most ? discharge : most;
        int64_t right_sum = c.carried[i + 1] + right.water;
        f->water[i + 1] = right.water;
        f->depth[i] = (uint64_t)depth;
        f->discharge[i] = discharge > -most ? discharge : -most;
        fastest = larger(fastest, signal_speed(next));
        deepest = depth > deepest ? depth : deepest;
        keeps &= positive(right_sum) + positive(-left_sum) <= c.base[i];
        cell = next, left = right, left_sum = right_sum;
    }
    f->fastest = fastest, f->deepest = deepest, f->keeps = keeps;
}

/* The mass that leaves a cell */
typedef struct {
    uint64_t right, left;
} shares;

static inline shares shares_of(uint64_t mass, uint64_t base, int64_t left, int64_t right)
{
    if (base == 0)
        return (shares){0, 0};
    uint64_t r = positive(right), l = positive(-left);
    uint64_t leaving = mass * (r + l) / base;
    /* a second division only where water leaves to both sides */
    uint64_t right_share = l == 0 ? leaving : r == 0 ? 0 : mass * r / base;
    return (shares){right_share, leaving - right_share};
}

/* What a transport adds to the ledger */
static inline void add_mass(jemmyfern_ledger *k, columns c, const jemmyfern_boundary boundaries[2])
{
    size_t last = c.n - 1;
    k->left.mass_in += positive(c.carried[0]) * boundaries[0].concentration;
    k->left.mass_out += shares_of(c.mass[0], c.base[0], c.carried[0], c.carried[1]).left;
    k->right.mass_in += positive(-c.carried[c.n]) * boundaries[1].concentration;
    k->right.mass_out += shares_of(c.mass[last], c.base[last], c.carried[last], c.carried[c.n]).right;
}

/* Moves the shares; the base becomes the depth. The carried water stays, for the caller to write. */
static inline void move_mass(columns c, uint64_t *restrict mass, uint64_t *restrict base, const jemmyfern_boundary boundaries[2])
{
    uint64_t from_left = positive(c.carried[0]) * boundaries[0].concentration, stays = 0;
    for (size_t i = 0; i < c.n; i++) {
        shares leaving = shares_of(mass[i], base[i], c.carried[i], c.carried[i + 1]);
        /* the cell to the left is complete with this cell's left share */
        if (i > 0)
            mass[i - 1] = stays + leaving.left;
        stays = mass[i] - leaving.right - leaving.left + from_left;
        from_left = leaving.right;
    }
    mass[c.n - 1] = stays + positive(-c.carried[c.n]) * boundaries[1].concentration;
    memcpy(base, c.depth, c.n * sizeof *base);
}

static inline void add_water(jemmyfern_ledger *k, int64_t left, int64_t right)
{
    k->left.water_in += positive(left);
    k->left.water_out += positive(-left);
    k->right.water_in += positive(-right);
    k->right.water_out += positive(right);
}

jemmyfern_stepped plain_step(const int64_t *bed, size_t bed_length, uint64_t *depth, size_t depth_length,
                             int64_t *discharge, size_t discharge_length, uint64_t *mass, size_t mass_length,
                             uint64_t *base, size_t base_length, int64_t *carried, size_t carried_length,
                             jemmyfern_outlet *outlets, size_t outlets_length,
                             uint64_t cell_length, jemmyfern_boundaries boundaries, jemmyfern_ledger ledger, uint64_t t,
                             uint64_t strickler)
{
    (void)outlets;
    jemmyfern_stepped answer = {.refusal = JEMMYFERN_LENGTHS, .boundaries = boundaries, .ledger = ledger};
    if (!LENGTHS_FIT)
        return answer;
    columns c = COLUMNS;
    answer.refusal = check(c, outlets_length, cell_length, boundaries.boundaries, &ledger);
    if (answer.refusal != JEMMYFERN_ACCEPTED)
        return answer;
    found f;
    answer.refusal = JEMMYFERN_TIME_STEP;
    if (t < 1 || t > JEMMYFERN_TIME_STEP_MOST)
        return answer;
    answer.refusal = JEMMYFERN_STRICKLER;
    if (strickler != 0 && (strickler < JEMMYFERN_STRICKLER_LEAST || strickler > JEMMYFERN_STRICKLER_MOST))
        return answer;
    find(&f, c, boundaries.boundaries, (mesh){t, 1000 * cell_length}, (friction){strickler * strickler, 45518 * t});
    answer.refusal = JEMMYFERN_CFL;
    if (t * f.fastest > 1000 * cell_length)
        return answer;
    answer.refusal = JEMMYFERN_DEPTH;
    if (f.deepest > (int64_t)DEPTH_MOST)
        return answer;
    add_water(&ledger, f.water[0], f.water[c.n]);
    if (!f.keeps)
        add_mass(&ledger, c, boundaries.boundaries);
    answer.refusal = JEMMYFERN_TOTAL;
    if (!ledger_sound(&ledger))
        return answer;

    if (f.keeps) {
        for (size_t i = 0; i <= c.n; i++)
            carried[i] += f.water[i];
    } else {
        move_mass(c, mass, base, boundaries.boundaries);
        memcpy(carried, f.water, carried_length * sizeof *carried);
    }
    memcpy(depth, f.depth, depth_length * sizeof *depth);
    memcpy(discharge, f.discharge, discharge_length * sizeof *discharge);
    return (jemmyfern_stepped){JEMMYFERN_ACCEPTED, boundaries, ledger, !f.keeps};
}

jemmyfern_answer plain_transport(const int64_t *bed, size_t bed_length, const uint64_t *depth, size_t depth_length,
                                 const int64_t *discharge, size_t discharge_length, uint64_t *mass, size_t mass_length,
                                 uint64_t *base, size_t base_length, int64_t *carried, size_t carried_length,
                                 jemmyfern_outlet *outlets, size_t outlets_length,
                                 uint64_t cell_length, jemmyfern_boundaries boundaries, jemmyfern_ledger ledger)
{
    (void)outlets;
    jemmyfern_answer answer = {JEMMYFERN_LENGTHS, boundaries, ledger};
    if (!LENGTHS_FIT)
        return answer;
    columns c = COLUMNS;
    answer.refusal = check(c, outlets_length, cell_length, boundaries.boundaries, &ledger);
    if (answer.refusal != JEMMYFERN_ACCEPTED)
        return answer;
    add_mass(&ledger, c, boundaries.boundaries);
    answer.refusal = JEMMYFERN_TOTAL;
    if (!ledger_sound(&ledger))
        return answer;

    move_mass(c, mass, base, boundaries.boundaries);
    memset(carried, 0, carried_length * sizeof *carried);
    return (jemmyfern_answer){JEMMYFERN_ACCEPTED, boundaries, ledger};
}

/* A boundary that is not fed counts as 0. */
static inline uint64_t boundary_speed(const jemmyfern_boundary *b)
{
    return b->kind == JEMMYFERN_FED ? signal_speed(water_of(0, b->depth, b->discharge)) : 0;
}

/* A speed with its place below it: the greatest of these has the highest place among equals. */
static inline uint64_t placed(uint64_t speed, size_t place) { return speed << 16 | place; }

jemmyfern_greatest plain_greatest_step(const int64_t *bed, size_t bed_length, const uint64_t *depth, size_t depth_length,
                                       const int64_t *discharge, size_t discharge_length,
                                       const uint64_t *mass, size_t mass_length, const uint64_t *base, size_t base_length,
                                       const int64_t *carried, size_t carried_length,
                                       const jemmyfern_outlet *outlets, size_t outlets_length,
                                       uint64_t cell_length, jemmyfern_boundaries boundaries, jemmyfern_ledger ledger)
{
    (void)outlets;
    jemmyfern_greatest answer = {.refusal = JEMMYFERN_LENGTHS, .boundaries = boundaries, .ledger = ledger};
    if (!LENGTHS_FIT)
        return answer;
    columns c = COLUMNS;
    answer.refusal = check(c, outlets_length, cell_length, boundaries.boundaries, &ledger);
    if (answer.refusal != JEMMYFERN_ACCEPTED)
        return answer;
    uint64_t greatest = placed(boundary_speed(&boundaries.boundaries[0]), 0);
    for (size_t i = 0; i < c.n; i++)
        greatest = larger(greatest, placed(signal_speed(water_of(0, depth[i], discharge[i])), i + 1));
    greatest = larger(greatest, placed(boundary_speed(&boundaries.boundaries[1]), c.n + 1));
    uint64_t fastest = greatest >> 16;
    uint64_t most = fastest == 0 ? JEMMYFERN_TIME_STEP_MOST : 1000 * cell_length / fastest;
    answer.time = most < JEMMYFERN_TIME_STEP_MOST ? most : JEMMYFERN_TIME_STEP_MOST;
    answer.place = greatest & 0xffff;
    return answer;
}
