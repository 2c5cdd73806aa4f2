/* Every call of include/jemmyfern.h, and every limit, every refusal and the layout of every type, printed. The test beside it prints the same through
 * Rust's declarations. The calls are made without outlets, with three, and with three of which the last is not in the reach. */
#include "jemmyfern.h"

#include <inttypes.h>
#include <stdio.h>
#include <string.h>

#define CELLS JEMMYFERN_CELLS_MOST
#define LAYOUT(type, field) printf(#type " " #field " %zu\n", offsetof(jemmyfern_##type, field))
#define SIZE(type) printf(#type " %zu %zu\n", sizeof(jemmyfern_##type), _Alignof(jemmyfern_##type))
#define LIMIT(name) printf(#name " %" PRIu64 "\n", (uint64_t)JEMMYFERN_##name)
#define REFUSAL(name) printf("refusal " #name " %d\n", JEMMYFERN_##name)
#define COLUMNS bed, n, depth, n, discharge, n, mass, n, base, n, carried, n + 1, outlets, count

static size_t n, count;
static jemmyfern_outlet *outlets, list[3];
static int64_t bed[CELLS], discharge[CELLS], carried[CELLS + 1];
static uint64_t depth[CELLS], mass[CELLS], base[CELLS];
static uint8_t sheet[JEMMYFERN_SHEET_SIZE(CELLS)], out[JEMMYFERN_SHEET_SIZE(CELLS) + 10];

static void limits(void)
{
    LIMIT(CELLS_MOST);
    LIMIT(DEPTH_MOST);
    LIMIT(VELOCITY_MOST);
    LIMIT(BED_MOST);
    LIMIT(CONCENTRATION_MOST);
    LIMIT(CELL_LENGTH_LEAST);
    LIMIT(CELL_LENGTH_MOST);
    LIMIT(TIME_STEP_MOST);
    LIMIT(STRICKLER_LEAST);
    LIMIT(STRICKLER_MOST);
    LIMIT(OUTLETS_MOST);
    LIMIT(WANT_MOST);
    LIMIT(TOTAL_MOST);
}

/* By number */
static void refusals(void)
{
    REFUSAL(EDITION);
    REFUSAL(SIZE);
    REFUSAL(LAYOUT);
    REFUSAL(LENGTHS);
    REFUSAL(CELL_LENGTH);
    REFUSAL(BOUNDARIES);
    REFUSAL(VALUES);
    REFUSAL(CARRIED);
    REFUSAL(LEDGER);
    REFUSAL(TIME_STEP);
    REFUSAL(CFL);
    REFUSAL(DEPTH);
    REFUSAL(TOTAL);
    REFUSAL(NOT_TRANSPORTED);
    REFUSAL(SHORT_OUTPUT);
    REFUSAL(OUTLETS);
    REFUSAL(STRICKLER);
}

static void layouts(void)
{
    SIZE(boundary);
    LAYOUT(boundary, kind);
    LAYOUT(boundary, reserved);
    LAYOUT(boundary, depth);
    LAYOUT(boundary, concentration);
    LAYOUT(boundary, discharge);
    SIZE(boundaries);
    SIZE(totals);
    LAYOUT(totals, water_in);
    LAYOUT(totals, water_out);
    LAYOUT(totals, mass_in);
    LAYOUT(totals, mass_out);
    SIZE(ledger);
    LAYOUT(ledger, left);
    LAYOUT(ledger, right);
    SIZE(outlet);
    LAYOUT(outlet, cell);
    LAYOUT(outlet, want);
    LAYOUT(outlet, drawn);
    LAYOUT(outlet, water);
    LAYOUT(outlet, mass);
    SIZE(answer);
    LAYOUT(answer, refusal);
    LAYOUT(answer, boundaries);
    LAYOUT(answer, ledger);
    SIZE(opened);
    LAYOUT(opened, refusal);
    LAYOUT(opened, cell_length);
    LAYOUT(opened, boundaries);
    LAYOUT(opened, ledger);
    SIZE(stepped);
    LAYOUT(stepped, refusal);
    LAYOUT(stepped, boundaries);
    LAYOUT(stepped, ledger);
    LAYOUT(stepped, transported);
    SIZE(greatest);
    LAYOUT(greatest, refusal);
    LAYOUT(greatest, boundaries);
    LAYOUT(greatest, ledger);
    LAYOUT(greatest, time);
    LAYOUT(greatest, place);
}

static void print_totals(const jemmyfern_totals *t)
{
    printf(" %" PRIu64 " %" PRIu64 " %" PRIu64 " %" PRIu64, t->water_in, t->water_out, t->mass_in, t->mass_out);
}

/* An answer, then all that was lent */
static void print_answer(const char *call, uint32_t refusal, const jemmyfern_boundaries *held, const jemmyfern_ledger *ledger,
                         uint64_t more, uint64_t still_more)
{
    printf("%s %" PRIu32 " %" PRIu64 " %" PRIu64, call, refusal, more, still_more);
    for (int i = 0; i < 2; i++) {
        const jemmyfern_boundary *b = &held->boundaries[i];
        printf(" %" PRIu32 " %" PRIu32 " %" PRIu64 " %" PRIu64 " %" PRId64, b->kind, b->reserved, b->depth, b->concentration, b->discharge);
    }
    print_totals(&ledger->left);
    print_totals(&ledger->right);
    for (size_t i = 0; i < n; i++)
        printf(" %" PRId64 " %" PRIu64 " %" PRId64 " %" PRIu64 " %" PRIu64 " %" PRId64, bed[i], depth[i], discharge[i], mass[i], base[i],
               carried[i]);
    printf(" %" PRId64, carried[n]);
    for (size_t i = 0; i < count; i++)
        printf(" %" PRIu64 " %" PRIu64 " %" PRIu64 " %" PRIu64 " %" PRIu64, list[i].cell, list[i].want, list[i].drawn, list[i].water,
               list[i].mass);
    for (size_t i = 0; i < JEMMYFERN_SHEET_SIZE(n) + 10; i++)
        printf(" %u", out[i]);
    printf("\n");
}

static void calls(size_t length)
{
    jemmyfern_opened o = jemmyfern_open(sheet, length, COLUMNS);
    print_answer("open", o.refusal, &o.boundaries, &o.ledger, o.cell_length, 0);
    uint64_t x = o.cell_length;
    jemmyfern_boundaries held = o.boundaries;
    jemmyfern_ledger ledger = o.ledger;

    jemmyfern_greatest g = jemmyfern_greatest_step(COLUMNS, x, held, ledger);
    print_answer("greatest", g.refusal, &g.boundaries, &g.ledger, g.time, g.place);
    const struct {
        uint64_t t, strickler;
    } steps[] = {{g.time, 0}, {0, 9}, {g.time / 2, 30}, {g.time + 1, 10}, {g.time + 1, 91}, {1001, 0}};
    for (size_t i = 0; i < sizeof steps / sizeof *steps; i++) {
        if (count > 0)
            outlets[0].want += 1000;
        jemmyfern_stepped s = jemmyfern_step(COLUMNS, x, held, ledger, steps[i].t, steps[i].strickler);
        print_answer("step", s.refusal, &s.boundaries, &s.ledger, s.transported, 0);
        ledger = s.ledger;
    }
    jemmyfern_answer a = jemmyfern_write(COLUMNS, x, held, ledger, out, JEMMYFERN_SHEET_SIZE(n));
    print_answer("write", a.refusal, &a.boundaries, &a.ledger, 0, 0);
    jemmyfern_boundaries turned = {{held.boundaries[1], held.boundaries[0]}};
    a = jemmyfern_set_boundaries(COLUMNS, x, held, ledger, turned);
    print_answer("set", a.refusal, &a.boundaries, &a.ledger, 0, 0);
    held = a.boundaries;
    ledger = a.ledger;
    jemmyfern_stepped s = jemmyfern_step(COLUMNS, x, held, ledger, 1, 90);
    print_answer("step", s.refusal, &s.boundaries, &s.ledger, s.transported, 0);
    ledger = s.ledger;
    a = jemmyfern_transport(COLUMNS, x, held, ledger);
    print_answer("transport", a.refusal, &a.boundaries, &a.ledger, 0, 0);
    ledger = a.ledger;
    a = jemmyfern_write(COLUMNS, x, held, ledger, out, JEMMYFERN_SHEET_SIZE(n) - 1);
    print_answer("write", a.refusal, &a.boundaries, &a.ledger, 0, 0);
    a = jemmyfern_write(COLUMNS, x, held, ledger, out, JEMMYFERN_SHEET_SIZE(n) + 10);
    print_answer("write", a.refusal, &a.boundaries, &a.ledger, 0, 0);
}

/* Nothing is left of earlier calls; drawn water and totals are what no opening would leave. */
static void lend(size_t entries, uint64_t last)
{
    memset(bed, 0, sizeof bed), memset(depth, 0, sizeof depth), memset(discharge, 0, sizeof discharge);
    memset(mass, 0, sizeof mass), memset(base, 0, sizeof base), memset(carried, 0, sizeof carried), memset(out, 0, sizeof out);
    const jemmyfern_outlet lent[] = {{0, 700, 1, 2, 3}, {n / 2, 4000000, 4, 5, 6}, {last, 3000, 7, 8, 9}};
    memcpy(list, lent, sizeof list);
    outlets = entries > 0 ? list : NULL;
    count = entries;
}

int main(int argc, char **argv)
{
    limits();
    refusals();
    layouts();
    if (argc != 2)
        return 2;
    FILE *in = fopen(argv[1], "rb");
    if (in == NULL)
        return 3;
    size_t length = fread(sheet, 1, sizeof sheet, in);
    fclose(in);
    n = jemmyfern_cells(sheet, length);
    lend(0, 0), calls(length);
    lend(3, 0), calls(length);
    lend(3, n), calls(length);
    return 0;
}
