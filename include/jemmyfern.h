/* A reach of an irrigation canal in whole units: the six proved calls, for C.
 *
 * The reach is straight and rectangular, n equal cells between two boundaries, per metre of width, without inflow along it; up to 32 outlets draw
 * water from its cells. Its record is six arrays, a list of outlets, a cell length, two boundaries and a ledger; all of it is the caller's. Without
 * outlets the list is NULL, 0. Friction of the bed is no part of it: each step is given its own, 0 for none.
 *
 * The words are those of the field. Where the paper that describes the model has another, it stands once in quotes at the definition; the
 * README's glossary pairs them all.
 *
 * Link with target/staticlib/libjemmyfern_c.a (made by `sh tests/archives calls`), built for x86-64 (ELF, System V calls, 64-bit size_t, SSE2). It
 * calls memcpy, memmove and memset, which any C library has, and nothing else.
 *
 * Units
 *   bed level, depth       micrometres
 *   discharge              depth times velocity: micrometres times mm/s, positive rightwards; / 10^9 is m2/s
 *   cell length            mm
 *   time step              ms
 *   concentration          micrograms per litre; of a cell it is mass / base depth, and there is none where the base depth is 0
 *   mass                   grains: one micrometre of depth at concentration 1; times cell length / 10^12 is g per metre of width
 *   water of a total       micrometres of depth of one cell; times cell length / 10^9 is m3 per metre of width; of an outlet as of the ledger
 *   Strickler coefficient  m^(1/3)/s; a large one is a smooth bed: concrete has about 60 to 80, earth about 30 to 40, a bed full of weeds about 15 to 25
 *
 * A record is sound when
 *   - every value keeps the limits below,
 *   - at each cell i, with D what its outlets have `drawn` together: depth = base + carried[i] - carried[i+1] - D, and
 *     max(carried[i+1], 0) + max(-carried[i], 0) + D <= base,
 *   - carried is 0 at a boundary that is a wall.
 *   An opening makes a sound record, and every accepted call leaves one. Every call looks again at all of it, so memory that was damaged between two
 *   calls is refused and not used.
 *
 * Memory
 *   Nothing is allocated and nothing is kept between two calls: there is no global state, so calls may run at the same time on different records.
 *   Each array goes as a pointer and its number of entries; it is aligned as its type is (8 bytes for 64-bit entries, none for bytes), may be NULL
 *   only where its length is 0, and no array that a call may write overlaps another. That holds of the list of outlets too, whose entries are 40
 *   bytes each. For the stack that each call needs see the README.
 *
 * Refusals
 *   A call answers 0, or the number of the first ground in the list below that it does not stand. A refused call has written nothing: columns,
 *   outlets and output are as they were, `boundaries` and `ledger` of its answer are those that it was given, its other fields are 0.
 *
 * Order of work
 *   Open; then step, with greatest_step to tell how long a step may be, and set_boundaries when a gate or a dose changes; transport before you
 *   write. A sheet holds no ledger and no outlets: an opening starts all eight totals and those of the outlets lent to it at 0, so keep them before
 *   you open again.
 *
 * Outlets
 *   The list goes with the record: an opening makes it ready, and each call is given it as the last one left it. In between the caller changes
 *   `want` alone. What a cell can give in a step is its depth before the step less what the step sends out of it to either side (towards a wall
 *   too; what comes in during the step does not count). Where the wants of its outlets fit into that, each has its want; where not, each has
 *   floor(what the cell can give * want / sum of the wants), and the units left go singly, in list order, to those with a want above 0. No outlet
 *   draws more than it wants. A transport gives it the mass of what it drew, after the shares of the right and the left, in list order.
 *
 * The sheet (little-endian, at any address)
 *   bytes 0 edition 1, 4 length in bytes, 8 n, 12 cell length, 16 20 24 28 offsets of bed levels (i32), depths (u32), discharges (i64) and masses
 *   (u64), each u32; from 32 the left and from 56 the right boundary: u32 kind, depth, concentration, reserved (0), i64 discharge; from 80
 *   the columns.
 */
#ifndef JEMMYFERN_H
#define JEMMYFERN_H

#include <stdbool.h>
#include <stddef.h>
#include <stdint.h>

#ifdef __cplusplus
extern "C" {
#endif

/* Limits */
#define JEMMYFERN_CELLS_MOST 512u                        /* cells, at least 1 */
#define JEMMYFERN_DEPTH_MOST 4000000u                    /* micrometres: depth and base depth of a cell, depth of a fed boundary, |carried| */
#define JEMMYFERN_VELOCITY_MOST 8000                     /* mm/s: |discharge| <= this times depth */
#define JEMMYFERN_BED_MOST 100000000                     /* micrometres: |bed level| */
#define JEMMYFERN_CONCENTRATION_MOST 500000u             /* of a boundary; mass of a cell <= this times its base depth */
#define JEMMYFERN_CELL_LENGTH_LEAST 100u                 /* mm */
#define JEMMYFERN_CELL_LENGTH_MOST 100000u               /* mm */
#define JEMMYFERN_TIME_STEP_MOST 1000u                   /* ms, at least 1 */
#define JEMMYFERN_STRICKLER_LEAST 10u                    /* m^(1/3)/s; 0 is allowed too, and means no friction */
#define JEMMYFERN_STRICKLER_MOST 90u                     /* m^(1/3)/s */
#define JEMMYFERN_OUTLETS_MOST 32u                       /* entries of the list */
#define JEMMYFERN_WANT_MOST 4000000u                     /* micrometres per step */
#define JEMMYFERN_TOTAL_MOST UINT64_C(1000000000000000000) /* each total of the ledger and of an outlet */

/* Bytes of the sheet of n cells */
#define JEMMYFERN_SHEET_SIZE(n) (80u + 24u * (size_t)(n))

/* The number of cells that a sheet says it has, to size the columns lent to its opening; 0 where it says none that can be. The opening looks again. */
static inline size_t jemmyfern_cells(const uint8_t *sheet, size_t length)
{
    if (length < 12)
        return 0;
    uint32_t n = sheet[8] | (uint32_t)sheet[9] << 8 | (uint32_t)sheet[10] << 16 | (uint32_t)sheet[11] << 24;
    return n <= JEMMYFERN_CELLS_MOST ? n : 0;
}

/* Grounds for refusal, in checking order, 16 after 7 and 17 after 10. Opening uses 1 to 7 and 16; every other call 4 to 7, 16, 8 and 9, then a step
 * 10, 17 and 11 to 13, a transport or a setting of boundaries 13, a write 14 and 15. */
enum jemmyfern_refusal {
    JEMMYFERN_ACCEPTED = 0,
    JEMMYFERN_EDITION = 1,          /* the sheet is under 80 bytes or its edition is not 1 */
    JEMMYFERN_SIZE = 2,             /* n is outside 1..512, or the length field is not both the bytes given and 80+24n */
    JEMMYFERN_LAYOUT = 3,           /* an offset is under 80, a column passes the end, or two columns overlap */
    JEMMYFERN_LENGTHS = 4,          /* the bed column's length is outside 1..512 (at opening: is not n), or another column's does not fit it */
    JEMMYFERN_CELL_LENGTH = 5,      /* the cell length is out of range */
    JEMMYFERN_BOUNDARIES = 6,       /* a boundary, held or newly given, breaks its kind, or its reserved field is not 0 */
    JEMMYFERN_VALUES = 7,           /* a cell value is out of range */
    JEMMYFERN_OUTLETS = 16,         /* over 32 outlets, an outlet's cell is not in the reach, or its want is above 4,000,000 */
    JEMMYFERN_CARRIED = 8,          /* the carried or drawn water breaks its rules */
    JEMMYFERN_LEDGER = 9,           /* a total, of the ledger or of an outlet, exceeds 10^18 */
    JEMMYFERN_TIME_STEP = 10,       /* t is outside 1..1,000 */
    JEMMYFERN_STRICKLER = 17,       /* the Strickler coefficient is neither 0 nor 10..90 */
    JEMMYFERN_CFL = 11,             /* t is too long for the fastest water */
    JEMMYFERN_DEPTH = 12,           /* a new depth exceeds 4,000,000 */
    JEMMYFERN_TOTAL = 13,           /* a total, of the ledger or of an outlet, would pass 10^18 by this call */
    JEMMYFERN_NOT_TRANSPORTED = 14, /* writing: some carried or drawn water is not 0; transport first */
    JEMMYFERN_SHORT_OUTPUT = 15     /* the output is shorter than the sheet */
};

/* Kinds of boundary */
enum jemmyfern_kind {
    JEMMYFERN_WALL = 0, /* no water passes: depth, discharge and concentration 0 */
    JEMMYFERN_OPEN = 1, /* as if the reach went on: depth and discharge 0; what comes in has this concentration */
    JEMMYFERN_FED = 2   /* water of its own depth (1 or more), discharge and concentration stands there */
};

/* What lies beyond one side of the reach, the paper's 'end' */
typedef struct {
    uint32_t kind;
    uint32_t reserved; /* always 0, the paper's 'zero field' */
    uint64_t depth;
    uint64_t concentration;
    int64_t discharge;
} jemmyfern_boundary;

/* Left, right: both travel as one value. */
typedef struct {
    jemmyfern_boundary boundaries[2];
} jemmyfern_boundaries;

/* What passed one boundary since the opening */
typedef struct {
    uint64_t water_in;
    uint64_t water_out;
    uint64_t mass_in;
    uint64_t mass_out;
} jemmyfern_totals;

/* What passed both boundaries, the paper's 'book' */
typedef struct {
    jemmyfern_totals left;
    jemmyfern_totals right;
} jemmyfern_ledger;

/* An outlet: draws water from one cell. Several may draw from the same cell. */
typedef struct {
    uint64_t cell;  /* counted from 0, below n; stays */
    uint64_t want;  /* micrometres per step, at most 4,000,000; the caller's to change between calls */
    uint64_t drawn; /* micrometres since the last transport: grows with each step, 0 after a transport and after an opening */
    uint64_t water; /* micrometres since the opening: grows with each step */
    uint64_t mass;  /* grains since the opening, the paper's 'nutrient': grows with each transport, also one that a step or a setting makes */
} jemmyfern_outlet;

/* Answers. `boundaries` and `ledger` are those to hand to the next call. The list of outlets is brought up to date in place. */
typedef struct {
    uint32_t refusal;
    jemmyfern_boundaries boundaries;
    jemmyfern_ledger ledger;
} jemmyfern_answer;

/* Of a refused opening all but the number is 0. */
typedef struct {
    uint32_t refusal;
    uint64_t cell_length; /* mm */
    jemmyfern_boundaries boundaries;
    jemmyfern_ledger ledger; /* empty */
} jemmyfern_opened;

typedef struct {
    uint32_t refusal;
    jemmyfern_boundaries boundaries;
    jemmyfern_ledger ledger;
    bool transported; /* a transport came before the step */
} jemmyfern_stepped;

typedef struct {
    uint32_t refusal;
    jemmyfern_boundaries boundaries;
    jemmyfern_ledger ledger;
    uint64_t time; /* ms, 1 to 1,000 */
    /* where the water is fastest: 0 the left boundary, 1..n the cells, n+1 the right boundary. The highest place among equals. A boundary that is
     * not fed counts as 0, so that the place is n+1 where all cells are dry and no boundary is fed */
    size_t place;
} jemmyfern_greatest;

/* The columns, in this order in every call: bed level (the paper's 'bottom'), depth, discharge, mass (the paper's 'nutrient') and base depth,
 * the depth at the last transport, of each of the n cells; carried water, what crossed since the last transport, positive rightwards, of the n+1
 * interfaces. Each is a pointer and its number of entries. The list of outlets follows them in the same way; greatest_step and write do not
 * write it. */

/* Opens a sheet into the columns. Of each outlet lent, cell and want are looked at and kept; drawn, water and mass may be anything and become 0. */
jemmyfern_opened jemmyfern_open(const uint8_t *sheet, size_t sheet_length,
                                int64_t *bed, size_t bed_length, uint64_t *depth, size_t depth_length,
                                int64_t *discharge, size_t discharge_length, uint64_t *mass, size_t mass_length,
                                uint64_t *base, size_t base_length, int64_t *carried, size_t carried_length,
                                jemmyfern_outlet *outlets, size_t outlets_length);

/* One water step of t ms; outlets draw.
 *
 * `strickler` is the friction of the bed in this step: Strickler's coefficient F, 10 to 90, or 0 for none. With it the new discharge of a cell is
 * divided by 1 + g * t * |u| / (F^2 * h^(4/3)), all in metres and seconds, and rounded towards zero, before it is brought into its range; u is the
 * velocity before the step and h the depth after it, down to whole centimetres. So friction alone never makes a discharge greater and never turns it.
 * Where F is not 0, a cell under 1 cm deep has discharge 0 after the step; its water still spreads. Depth stands for the hydraulic radius: side walls
 * have no friction. Friction touches discharges alone, and the greatest step does not ask for it. */
jemmyfern_stepped jemmyfern_step(const int64_t *bed, size_t bed_length, uint64_t *depth, size_t depth_length,
                                 int64_t *discharge, size_t discharge_length, uint64_t *mass, size_t mass_length,
                                 uint64_t *base, size_t base_length, int64_t *carried, size_t carried_length,
                                 jemmyfern_outlet *outlets, size_t outlets_length,
                                 uint64_t cell_length, jemmyfern_boundaries boundaries, jemmyfern_ledger ledger, uint64_t t,
                                 uint64_t strickler);

/* A transport, the paper's 'settling': moves the mass with the water carried and drawn since the last one. */
jemmyfern_answer jemmyfern_transport(const int64_t *bed, size_t bed_length, const uint64_t *depth, size_t depth_length,
                                     const int64_t *discharge, size_t discharge_length, uint64_t *mass, size_t mass_length,
                                     uint64_t *base, size_t base_length, int64_t *carried, size_t carried_length,
                                     jemmyfern_outlet *outlets, size_t outlets_length,
                                     uint64_t cell_length, jemmyfern_boundaries boundaries, jemmyfern_ledger ledger);

/* Sets both boundaries, the paper's 'end setting', after a transport under those held so far. */
jemmyfern_answer jemmyfern_set_boundaries(const int64_t *bed, size_t bed_length, const uint64_t *depth, size_t depth_length,
                                          const int64_t *discharge, size_t discharge_length, uint64_t *mass, size_t mass_length,
                                          uint64_t *base, size_t base_length, int64_t *carried, size_t carried_length,
                                          jemmyfern_outlet *outlets, size_t outlets_length,
                                          uint64_t cell_length, jemmyfern_boundaries boundaries, jemmyfern_ledger ledger,
                                          jemmyfern_boundaries new_boundaries);

/* The greatest time step that the record allows now, and where the water is fastest: the highest place among equals. A step t passes where
 * t * (|u| + a) <= 1000 * cell_length (CFL, refusal 11) in each cell and each fed boundary, with the velocity u, cut towards zero, and the wave
 * speed a, the root of 3gh/2 rounded up, both in whole mm/s; g is 9.80665 m/s2. */
jemmyfern_greatest jemmyfern_greatest_step(const int64_t *bed, size_t bed_length, const uint64_t *depth, size_t depth_length,
                                           const int64_t *discharge, size_t discharge_length,
                                           const uint64_t *mass, size_t mass_length, const uint64_t *base, size_t base_length,
                                           const int64_t *carried, size_t carried_length,
                                           const jemmyfern_outlet *outlets, size_t outlets_length,
                                           uint64_t cell_length, jemmyfern_boundaries boundaries, jemmyfern_ledger ledger);

/* Writes the record as a sheet at the start of out; bytes behind the sheet keep their values. Transport first. */
jemmyfern_answer jemmyfern_write(const int64_t *bed, size_t bed_length, const uint64_t *depth, size_t depth_length,
                                 const int64_t *discharge, size_t discharge_length, const uint64_t *mass, size_t mass_length,
                                 const uint64_t *base, size_t base_length, const int64_t *carried, size_t carried_length,
                                 const jemmyfern_outlet *outlets, size_t outlets_length,
                                 uint64_t cell_length, jemmyfern_boundaries boundaries, jemmyfern_ledger ledger,
                                 uint8_t *out, size_t out_length);

#ifdef __cplusplus
}
#endif

#endif
