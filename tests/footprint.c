/* Stack that each call uses on the longest reach, in bytes, without outlets and with as many as there may be: the call runs on a stack of its own that
 * was painted before. */
#include "jemmyfern.h"

#include <stdio.h>
#include <string.h>
#include <ucontext.h>

#define CELLS JEMMYFERN_CELLS_MOST
#define ROOM (256u * 1024u)
#define PAINT 0xA5
#define OUTLETS JEMMYFERN_OUTLETS_MOST
#define COLUMNS bed, CELLS, depth, CELLS, discharge, CELLS, mass, CELLS, base, CELLS, carried, CELLS + 1, outlets, count

static int64_t bed[CELLS], discharge[CELLS], carried[CELLS + 1];
static uint64_t depth[CELLS], mass[CELLS], base[CELLS];
static jemmyfern_outlet outlets[OUTLETS];
static size_t count;
static uint8_t sheet[JEMMYFERN_SHEET_SIZE(CELLS)];
static jemmyfern_boundaries boundaries;
static jemmyfern_ledger ledger;
static uint64_t cell_length;
static uint32_t refusal;
static unsigned char stack[ROOM] __attribute__((aligned(64)));

static void none(void) { refusal = 0; }

static void open_(void)
{
    jemmyfern_opened o = jemmyfern_open(sheet, sizeof sheet, COLUMNS);
    refusal = o.refusal, cell_length = o.cell_length, boundaries = o.boundaries, ledger = o.ledger;
}

static void greatest(void) { refusal = jemmyfern_greatest_step(COLUMNS, cell_length, boundaries, ledger).refusal; }

static void step(void)
{
    jemmyfern_stepped s = jemmyfern_step(COLUMNS, cell_length, boundaries, ledger, 100, 35);
    refusal = s.refusal, ledger = s.ledger;
}

static void set_boundaries(void)
{
    jemmyfern_answer a = jemmyfern_set_boundaries(COLUMNS, cell_length, boundaries, ledger, boundaries);
    refusal = a.refusal, ledger = a.ledger;
}

static void transport(void)
{
    jemmyfern_answer a = jemmyfern_transport(COLUMNS, cell_length, boundaries, ledger);
    refusal = a.refusal, ledger = a.ledger;
}

static void write_(void) { refusal = jemmyfern_write(COLUMNS, cell_length, boundaries, ledger, sheet, sizeof sheet).refusal; }

/* Bytes from the first that the call painted over to the top */
static size_t used(void (*call)(void))
{
    ucontext_t here, there;
    memset(stack, PAINT, ROOM);
    getcontext(&there);
    there.uc_stack.ss_sp = stack;
    there.uc_stack.ss_size = ROOM;
    there.uc_link = &here;
    makecontext(&there, call, 0);
    swapcontext(&here, &there);
    size_t low = 0;
    while (low < ROOM && stack[low] == PAINT)
        low++;
    return ROOM - low;
}

/* A level reach of 512 wet cells between walls, with a step of depth in the middle */
static void make_sheet(void)
{
    const uint32_t words[] = {1, sizeof sheet, CELLS, 1000, 80, 80 + 4 * CELLS, 80 + 8 * CELLS, 80 + 16 * CELLS};
    memcpy(sheet, words, sizeof words);
    for (uint32_t i = 0; i < CELLS; i++) {
        uint32_t h = i < CELLS / 2 ? 1000000 : 100000;
        uint64_t m = UINT64_C(1000) * h;
        memcpy(sheet + 80 + 4 * CELLS + 4 * i, &h, 4);
        memcpy(sheet + 80 + 16 * CELLS + 8 * i, &m, 8);
    }
}

/* Half of them along the reach, half at one cell, which has to share */
static void make_outlets(void)
{
    for (size_t k = 0; k < OUTLETS; k++)
        outlets[k] = (jemmyfern_outlet){.cell = k % 2 == 0 ? 16 * k : 100, .want = k % 2 == 0 ? 500 : 4000000};
}

static const struct {
    const char *name;
    void (*call)(void);
} calls[] = {{"open", open_}, {"greatest step", greatest}, {"step", step}, {"set boundaries", set_boundaries},
             {"transport", transport}, {"write", write_}};

#define CALLS (sizeof calls / sizeof *calls)

/* The bytes of each call with so many outlets; nothing where one was refused */
static int measure(size_t bytes[CALLS], size_t entries)
{
    size_t frame = used(none);
    count = entries;
    for (size_t i = 0; i < CALLS; i++) {
        bytes[i] = used(calls[i].call) - frame;
        if (refusal != 0) {
            fprintf(stderr, "%s: refused %u\n", calls[i].name, (unsigned)refusal);
            return 0;
        }
    }
    return 1;
}

int main(void)
{
    size_t without[CALLS], with[CALLS], most = 0;
    make_sheet();
    make_outlets();
    if (!measure(without, 0) || !measure(with, OUTLETS))
        return 1;
    for (size_t k = 0; k < OUTLETS; k++)
        if (outlets[k].water == 0 || outlets[k].mass == 0) {
            fprintf(stderr, "outlet %zu drew nothing\n", k);
            return 1;
        }
    for (size_t i = 0; i < CALLS; i++) {
        printf("%-14s %6zu bytes of stack, %6zu with %u outlets\n", calls[i].name, without[i], with[i], OUTLETS);
        most = without[i] > most ? without[i] : most;
        most = with[i] > most ? with[i] : most;
    }
    return most < 65536 ? 0 : 1;
}
