/* Whether the library's step forks on the larger of u+a and 0, or of u−a and 0 (document 02, point 5). With the trap flag set the processor stops after
 * each instruction, and the handler notes where. Where u passes a or −a one of the two sums passes 0; nothing else of a step turns there, so that the
 * path has to be one and the same. x86-64, as the library. */
#define _GNU_SOURCE
#include "jemmyfern.h"

#include <signal.h>
#include <stdio.h>
#include <string.h>
#include <ucontext.h>

#define CELLS 3
#define TRAP_FLAG 0x100u
#define COLUMNS bed, CELLS, depth, CELLS, discharge, CELLS, mass, CELLS, base, CELLS, carried, CELLS + 1, NULL, 0

static int64_t bed[CELLS], discharge[CELLS], carried[CELLS + 1];
static uint64_t depth[CELLS], mass[CELLS], base[CELLS];

struct path {
    uint64_t instructions;
    uint64_t places; /* all of them in their order, mixed */
};

static struct path walked;

static void note(int number, siginfo_t *info, void *context)
{
    (void)number, (void)info;
    uint64_t place = (uint64_t)((ucontext_t *)context)->uc_mcontext.gregs[REG_RIP];
    walked.places = (walked.places ^ place) * UINT64_C(0x100000001b3);
    walked.instructions++;
}

/* a(h), by the paper's words */
static int64_t wave_speed(uint64_t h)
{
    uint64_t a = 0;
    while (1000000 * a * a < 14709975 * h)
        a++;
    return (int64_t)a;
}

/* The path of a step of 10 ms on cells of 1 m, all of depth h and velocity u, between open boundaries; the middle one lies lower by so much */
static struct path step(int64_t lower, uint64_t h, int64_t u)
{
    const jemmyfern_boundaries open = {{{.kind = JEMMYFERN_OPEN}, {.kind = JEMMYFERN_OPEN}}};
    const jemmyfern_ledger empty = {0};
    bed[1] = -lower;
    for (size_t i = 0; i < CELLS; i++)
        depth[i] = base[i] = h, discharge[i] = (int64_t)h * u;
    memset(carried, 0, sizeof carried);
    walked = (struct path){0};
    __builtin_ia32_writeeflags_u64(__builtin_ia32_readeflags_u64() | TRAP_FLAG);
    jemmyfern_stepped s = jemmyfern_step(COLUMNS, 1000, open, empty, 10, 0);
    __builtin_ia32_writeeflags_u64(__builtin_ia32_readeflags_u64() & ~TRAP_FLAG);
    if (s.refusal != 0)
        walked.instructions = 0;
    return walked;
}

static int same(struct path p, struct path q) { return p.instructions == q.instructions && p.places == q.places; }

/* One path at every velocity of first..last */
static int one_path(int64_t lower, uint64_t h, int64_t first, int64_t last)
{
    struct path at = step(lower, h, first);
    for (int64_t u = first; u <= last; u++)
        if (at.instructions == 0 || !same(step(lower, h, u), at)) {
            printf("depth %d, lower by %d, velocity %d: refused, or another path than at %d\n", (int)h, (int)lower, (int)u, (int)first);
            return 0;
        }
    printf("depth %d, lower by %d, velocity %d to %d: one path of %d instructions\n", (int)h, (int)lower, (int)first, (int)last, (int)at.instructions);
    return 1;
}

int main(void)
{
    const uint64_t h = 100000;
    struct sigaction action = {.sa_sigaction = note, .sa_flags = SA_SIGINFO};
    if (sigaction(SIGTRAP, &action, NULL) != 0)
        return 2;
    step(0, h, 0); /* binds what the dynamic linker has to find */
    if (same(step(0, h, 0), step(0, 0, 0))) {
        printf("one path for wet and for dry cells: forks are not seen\n");
        return 1;
    }
    /* over the uneven bed the depths on both sides of the middle cell are reduced, and a with them: u passes both */
    for (int64_t lower = 0; lower <= 300; lower += 300) {
        int64_t a = wave_speed(h), least = wave_speed(h - (uint64_t)lower);
        if (!one_path(lower, h, least - 1, a + 1) || !one_path(lower, h, -a - 1, -least + 1))
            return 1;
    }
    return 0;
}
