/* instructions KIND CALL WHO: 20 calls on fresh copies of one record of 512 cells, for tests/instructions to count.
 * KIND: sloping still dry half; CALL: step greatest_step transport; WHO: jemmyfern plain. */
#include "jemmyfern.h"

#include <stdio.h>
#include <stdlib.h>
#include <string.h>

#define N JEMMYFERN_CELLS_MOST
#define CALLS 20

/* Those of tests/bench/src/plain.c */
__typeof__(jemmyfern_step) plain_step;
__typeof__(jemmyfern_greatest_step) plain_greatest_step;
__typeof__(jemmyfern_transport) plain_transport;

typedef struct {
    int64_t bed[N], discharge[N], carried[N + 1];
    uint64_t depth[N], mass[N], base[N], cell_length, t;
    jemmyfern_boundaries boundaries;
    jemmyfern_ledger ledger;
} record;

#define GIVEN(r) \
    (r)->bed, N, (r)->depth, N, (r)->discharge, N, (r)->mass, N, (r)->base, N, (r)->carried, N + 1, NULL, 0, (r)->cell_length, (r)->boundaries, \
        (r)->ledger

static bool is(const char *word, const char *other) { return strcmp(word, other) == 0; }

/* A small generator, the same at every run */
static int64_t between(int64_t least, int64_t most)
{
    static uint64_t state = 1;
    state = state * UINT64_C(6364136223846793005) + UINT64_C(1442695040888963407);
    return least + (int64_t)((state >> 33) % (uint64_t)(most - least + 1));
}

static void fill(record *r, size_t i, int64_t depth, int64_t velocity)
{
    r->bed[i] = -1000 * (int64_t)i;
    r->depth[i] = r->base[i] = (uint64_t)depth;
    r->discharge[i] = depth * velocity;
    r->mass[i] = (uint64_t)between(0, 499999) * (uint64_t)depth;
}

/* Of the kind 'dry' 85 % of the cells are, the others wet in stretches of 8. */
static bool wet(const char *kind, size_t i)
{
    if (is(kind, "dry"))
        return i % 53 < 8;
    return !is(kind, "half") || i < N / 2;
}

/* Over a bed that falls by 1 mm a cell: water at rest, or of 1.5 m (15 cm where most cells are dry) at about 1 m/s (0.4) */
static void build(record *r, const char *kind)
{
    bool shallow = is(kind, "dry");
    for (size_t i = 0; i < N; i++)
        if (is(kind, "still"))
            fill(r, i, 1000000 + 1000 * (int64_t)i, 0);
        else if (wet(kind, i))
            fill(r, i, (shallow ? 150000 : 1500000) + between(-10000, 10000), (shallow ? 400 : 1000) + between(-20, 20));
        else
            fill(r, i, 0, 0);
    r->cell_length = 10000;
    for (size_t side = 0; side < 2; side++)
        r->boundaries.boundaries[side].kind = is(kind, "still") ? JEMMYFERN_WALL : JEMMYFERN_OPEN;
}

static void accept(uint32_t refusal)
{
    if (refusal != JEMMYFERN_ACCEPTED) {
        fprintf(stderr, "refused on ground %u\n", refusal);
        exit(1);
    }
}

static void make(record *r, const char *call, bool plain)
{
    if (is(call, "greatest_step")) {
        jemmyfern_greatest a = plain ? plain_greatest_step(GIVEN(r)) : jemmyfern_greatest_step(GIVEN(r));
        accept(a.refusal);
        r->t = a.time;
    } else if (is(call, "step"))
        accept((plain ? plain_step(GIVEN(r), r->t, 0) : jemmyfern_step(GIVEN(r), r->t, 0)).refusal);
    else
        accept((plain ? plain_transport(GIVEN(r)) : jemmyfern_transport(GIVEN(r))).refusal);
}

int main(int argc, char **argv)
{
    static record from, copy;
    if (argc != 4)
        return 2;
    bool plain = is(argv[3], "plain");
    build(&from, argv[1]);
    /* what is made ready is made by the other one, which is not counted */
    make(&from, "greatest_step", !plain);
    if (is(argv[2], "transport"))
        make(&from, "step", !plain);
    for (int k = 0; k < CALLS; k++) {
        copy = from;
        make(&copy, argv[2], plain);
    }
    return 0;
}
