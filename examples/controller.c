/* A controller's loop: opens a sheet, follows an hour of canal time with the greatest steps, changes the dose at the head twice, prints what passed
 * the boundaries, writes the sheet and opens it again. What it prints keeps the paper's words: a settling is a transport, nutrient is mass.
 * With WANT two outlets, a third and two thirds down the reach, each want so many micrometres per step until the second dose, when the first of
 * them is closed. With STRICKLER the bed has friction of that coefficient, 10 to 90; 0 is none.
 *
 *     controller IN.sheet OUT.sheet [WANT [STRICKLER]]
 */
#include "jemmyfern.h"

#include <inttypes.h>
#include <stdio.h>
#include <stdlib.h>
#include <string.h>

#define CELLS JEMMYFERN_CELLS_MOST
#define HOUR_MS 3600000u

/* A record: the columns that every call is lent, and what travels with them. All memory is here. */
struct reach {
    size_t n;
    int64_t bed[CELLS];
    uint64_t depth[CELLS];
    int64_t discharge[CELLS];
    uint64_t mass[CELLS];
    uint64_t base[CELLS];
    int64_t carried[CELLS + 1];
    jemmyfern_outlet outlets[2];
    size_t outlet_count;
    uint64_t cell_length;
    jemmyfern_boundaries boundaries;
    jemmyfern_ledger ledger;
};

/* The columns and outlets of a record, as every call takes them */
#define COLUMNS(r)                                                                                          \
    (r)->bed, (r)->n, (r)->depth, (r)->n, (r)->discharge, (r)->n, (r)->mass, (r)->n, (r)->base, (r)->n, \
        (r)->carried, (r)->n + 1, (r)->outlets, (r)->outlet_count

static struct reach reach, again;
static uint8_t sheet[JEMMYFERN_SHEET_SIZE(CELLS) + 1];

static uint32_t open_sheet(struct reach *r, const uint8_t *bytes, size_t length)
{
    r->n = jemmyfern_cells(bytes, length);
    jemmyfern_opened o = jemmyfern_open(bytes, length, COLUMNS(r));
    r->cell_length = o.cell_length;
    r->boundaries = o.boundaries;
    r->ledger = o.ledger;
    return o.refusal;
}

/* The head's dose: the left boundary as it is, with another concentration. A transport under the old one comes first. */
static uint32_t set_dose(struct reach *r, uint64_t concentration)
{
    jemmyfern_boundaries next = r->boundaries;
    next.boundaries[0].concentration = concentration;
    jemmyfern_answer a = jemmyfern_set_boundaries(COLUMNS(r), r->cell_length, r->boundaries, r->ledger, next);
    r->boundaries = a.boundaries;
    r->ledger = a.ledger;
    return a.refusal;
}

static int refused(const char *what, uint32_t number)
{
    fprintf(stderr, "%s: refused %" PRIu32 "\n", what, number);
    return 1;
}

static void print_totals(const char *side, const jemmyfern_totals *t)
{
    printf("%s water in %" PRIu64 " out %" PRIu64 " nutrient in %" PRIu64 " out %" PRIu64 "\n", side, t->water_in, t->water_out,
           t->mass_in, t->mass_out);
}

static int same_record(const struct reach *a, const struct reach *b)
{
    return a->n == b->n && a->cell_length == b->cell_length && memcmp(&a->boundaries, &b->boundaries, sizeof a->boundaries) == 0
        && memcmp(a->bed, b->bed, a->n * sizeof *a->bed) == 0 && memcmp(a->depth, b->depth, a->n * sizeof *a->depth) == 0
        && memcmp(a->discharge, b->discharge, a->n * sizeof *a->discharge) == 0
        && memcmp(a->mass, b->mass, a->n * sizeof *a->mass) == 0 && memcmp(a->base, b->base, a->n * sizeof *a->base) == 0
        && memcmp(a->carried, b->carried, (a->n + 1) * sizeof *a->carried) == 0;
}

int main(int argc, char **argv)
{
    char *want_end = "", *strickler_end = "";
    uint64_t want = argc >= 4 ? strtoull(argv[3], &want_end, 10) : 0;
    uint64_t strickler = argc == 5 ? strtoull(argv[4], &strickler_end, 10) : 0;
    if (argc < 3 || argc > 5 || *want_end != '\0' || *strickler_end != '\0') {
        fprintf(stderr, "usage: controller IN.sheet OUT.sheet [WANT [STRICKLER]]\n");
        return 2;
    }
    FILE *in = fopen(argv[1], "rb");
    if (in == NULL) {
        perror(argv[1]);
        return 3;
    }
    size_t length = fread(sheet, 1, sizeof sheet, in);
    fclose(in);

    if (argc >= 4) {
        size_t n = jemmyfern_cells(sheet, length);
        for (size_t k = 0; k < 2; k++)
            reach.outlets[k] = (jemmyfern_outlet){.cell = (k + 1) * n / 3, .want = want};
        reach.outlet_count = 2;
    }
    uint32_t number = open_sheet(&reach, sheet, length);
    if (number != 0)
        return refused("open", number);
    printf("cells %zu of %" PRIu64 " mm\n", reach.n, reach.cell_length);

    /* doses from the first and from the second third of the hour on, micrograms per litre */
    static const struct {
        uint32_t from;
        uint64_t concentration;
    } doses[] = {{HOUR_MS / 3, 40000}, {HOUR_MS / 3 * 2, 500}};
    size_t dose = 0;
    uint32_t elapsed = 0, steps = 0, transports = 0;
    while (elapsed < HOUR_MS) {
        if (dose < sizeof doses / sizeof *doses && elapsed >= doses[dose].from) {
            number = set_dose(&reach, doses[dose].concentration);
            if (number != 0)
                return refused("set boundaries", number);
            transports++;
            dose++;
            if (dose == sizeof doses / sizeof *doses)
                reach.outlets[0].want = 0;
        }
        jemmyfern_greatest g = jemmyfern_greatest_step(COLUMNS(&reach), reach.cell_length, reach.boundaries, reach.ledger);
        if (g.refusal != 0)
            return refused("greatest step", g.refusal);
        uint64_t left = HOUR_MS - elapsed;
        uint64_t t = g.time < left ? g.time : left;
        jemmyfern_stepped s = jemmyfern_step(COLUMNS(&reach), reach.cell_length, reach.boundaries, reach.ledger, t, strickler);
        if (s.refusal != 0)
            return refused("step", s.refusal);
        reach.boundaries = s.boundaries;
        reach.ledger = s.ledger;
        elapsed += (uint32_t)t;
        steps++;
        transports += s.transported;
    }
    jemmyfern_answer a = jemmyfern_transport(COLUMNS(&reach), reach.cell_length, reach.boundaries, reach.ledger);
    if (a.refusal != 0)
        return refused("transport", a.refusal);
    reach.boundaries = a.boundaries;
    reach.ledger = a.ledger;
    transports++;

    printf("steps %" PRIu32 " settlings %" PRIu32 "\n", steps, transports);
    print_totals("left", &reach.ledger.left);
    print_totals("right", &reach.ledger.right);
    for (size_t k = 0; k < reach.outlet_count; k++)
        printf("outlet at %" PRIu64 " water %" PRIu64 " nutrient %" PRIu64 "\n", reach.outlets[k].cell, reach.outlets[k].water,
               reach.outlets[k].mass);

    length = JEMMYFERN_SHEET_SIZE(reach.n);
    a = jemmyfern_write(COLUMNS(&reach), reach.cell_length, reach.boundaries, reach.ledger, sheet, length);
    if (a.refusal != 0)
        return refused("write", a.refusal);
    FILE *out = fopen(argv[2], "wb");
    if (out == NULL) {
        perror(argv[2]);
        return 3;
    }
    size_t put = fwrite(sheet, 1, length, out);
    if (fclose(out) != 0 || put != length) {
        perror(argv[2]);
        return 3;
    }
    number = open_sheet(&again, sheet, length);
    if (number != 0)
        return refused("open again", number);
    if (!same_record(&reach, &again)) {
        fprintf(stderr, "the sheet opens as another record\n");
        return 1;
    }
    printf("written and opened again: %zu bytes\n", length);
    return 0;
}
