/* A bare-metal program for QEMU's machine virt. It makes accesses by page tables, and writes down what came of each.

   machine.py lays out the memories and accesses from INPUT on, as 64-bit words, and reads the outcomes there when QEMU has ended:

     header     24 words: how many memories, how many frames the probe may touch, whether it came to the end (written by the
                probe), 0, and the PMP entries that are locked from the start on
     PMP        pmpcfg0, pmpcfg2, pmpaddr0 to 15
     memory     how many accesses (the probe writes over it how many words stood changed in the end), how many tables, PMP, the
                tables: the number of the frame and its 512 words each, and the accesses
     access     kind (0 fetch, 1 load, 2 store) + 256 * width + 65536 * (1 in M-mode), the bits of mstatus, satp, virtual address,
                value to store, 0
     outcome    written over the access: mcause (or one of the marks below), what was loaded or mtval, and the address and the new
                word of up to two words that the access changed (0 if there is none)

   What is not in a table holds its filler. After each access memory is put back. */
#include "probe.h"

enum { LEVELS = 5, CHANGES = 2, HEADER = 24, PMP_WORDS = 18 };

static const uint64_t SATP_NOT_HELD = -2, MANY_CHANGES = -3;

struct change {
    uint64_t address, word;
};

struct access {
    uint64_t what, mstatus, satp, va, value, spare;
};

struct record {
    struct outcome outcome;
    struct change changes[CHANGES];
};

struct table {
    uint64_t frame, words[WORDS_OF_FRAME];
};

_Static_assert(sizeof(struct record) == sizeof(struct access), "an outcome is written over its access");

static uint64_t *const KEPT = (uint64_t *)0x80800000; /* what MEMORY holds before each access */
static uint64_t limit;                                /* frames from here on are never touched */

/* Notes a word if it changed, and puts it back. */
static void settle(uint64_t index, struct record *record, int *count) {
    uint64_t now = MEMORY[index];
    if (now == KEPT[index])
        return;
    if (*count < CHANGES)
        record->changes[*count] = (struct change){(uint64_t)&MEMORY[index], now};
    else
        record->outcome.cause = MANY_CHANGES;
    MEMORY[index] = KEPT[index];
    (*count)++;
}

/* Settles the words that an access may have changed: in each table those at an index of the address, where a walk may set A or
   D; after a granted store, in each frame the one at the offset of the address. Any other stands changed in the end. */
static void settle_all(const struct table *tables, uint64_t count, uint64_t va, int stored, struct record *record) {
    int changes = 0;
    for (uint64_t table = 0; table < count; table++)
        for (int level = 0; level < LEVELS; level++)
            settle(tables[table].frame * WORDS_OF_FRAME + (va >> (12 + 9 * level)) % WORDS_OF_FRAME, record, &changes);
    for (uint64_t frame = 0; stored && frame < limit; frame++)
        settle(frame * WORDS_OF_FRAME + va % 4096 / 8, record, &changes);
}

static int holds(uint64_t satp) {
    uint64_t held;
    asm volatile("csrw satp, %1; csrr %0, satp; sfence.vma; fence.i" : "=&r"(held) : "r"(satp) : "memory");
    return held == satp;
}

/* The number of an access as `attempt` takes it. */
static uint64_t number_of(uint64_t kind, uint64_t width, int machine) {
    if (kind == FETCH)
        return machine ? ATTEMPT_FETCH_HERE : ATTEMPT_FETCH;
    uint64_t number = kind == LOAD ? ATTEMPT_LOAD : ATTEMPT_STORE;
    for (; width > 1; width /= 2)
        number++;
    return number;
}

/* Makes an access. The PMP entries of the memory count for it alone: the probe's own accesses may match a part of one. */
static void try_access(struct access *access, const uint64_t *pmp, const struct table *tables, uint64_t count) {
    uint64_t kind = access->what % 256, width = access->what / 256 % 256, va = access->va;
    struct record record = {{SATP_NOT_HELD, 0}, {{0, 0}, {0, 0}}};
    if (holds(access->satp)) {
        write_pmp_configs(pmp[0], pmp[1]);
        record.outcome = attempt(va, access->value, number_of(kind, width, access->what >> 16), access->mstatus);
        write_pmp_configs(0, 0);
        asm volatile("fence.i" ::: "memory");
        settle_all(tables, count, va, kind == STORE && record.outcome.cause == GRANTED, &record);
    }
    *(struct record *)access = record;
}

static void lay_out(const struct table *tables, uint64_t count) {
    for (uint64_t index = 0; index < limit * WORDS_OF_FRAME; index++)
        KEPT[index] = filler(index);
    for (uint64_t table = 0; table < count; table++)
        for (uint64_t index = 0; index < WORDS_OF_FRAME; index++)
            KEPT[tables[table].frame * WORDS_OF_FRAME + index] = tables[table].words[index];
    for (uint64_t index = 0; index < limit * WORDS_OF_FRAME; index++)
        MEMORY[index] = KEPT[index];
}

static uint64_t changed_words(void) {
    uint64_t changed = 0;
    for (uint64_t index = 0; index < limit * WORDS_OF_FRAME; index++)
        changed += MEMORY[index] != KEPT[index];
    return changed;
}

/* Makes the accesses of the memory that is laid out at a place. Returns the place after them. */
static uint64_t *try_memory(uint64_t *at) {
    uint64_t accesses = at[0], count = at[1];
    const uint64_t *pmp = at + 2;
    const struct table *tables = (struct table *)(pmp + PMP_WORDS);
    struct access *access = (struct access *)(tables + count);
    lay_out(tables, count);
    write_pmp_addresses(pmp + 2);
    for (uint64_t number = 0; number < accesses; number++)
        try_access(access + number, pmp, tables, count);
    at[0] = changed_words();
    return (uint64_t *)(access + accesses);
}

void run(void) {
    uint64_t *at = INPUT + HEADER, *locked = INPUT + 4;
    limit = INPUT[1];
    for (uint64_t index = 0; index < WORDS; index++)
        MEMORY[index] = filler(index);
    allow_extensions();
    write_pmp_addresses(locked + 2);
    write_pmp_configs(locked[0], locked[1]);
    for (uint64_t number = 0; number < INPUT[0]; number++)
        at = try_memory(at);
    INPUT[2] = 1;
}
