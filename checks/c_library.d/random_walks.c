/* Random accesses to random page tables: xv6vm_translate, xv6vm_lookup, and xv6vm_translate_by over the memory in two regions must return what the plain
   walk does; the last also why. */
#include "check.h"
#include <stdio.h>

enum { MEMORIES = 200000, ACCESSES = 20 };

static const char *const WHY[WHYS] = {
    "a leaf",
    "MODE 0",
    "an argument without meaning",
    "a table outside the memory",
    "a byte outside the memory",
    "an address that is not canonical",
    "V clear",
    "W without R",
    "a reserved bit",
    "U, A or D in a pointer",
    "a pointer at level 0",
    "a misaligned superpage",
    "U against the mode",
    "no right for the access",
    "A clear",
    "D clear",
};

/* The step of the standard's 4.3.2 of each fault. */
static const uint64_t STEPS[WHYS] = {[TABLE_OUTSIDE] = 2, [NOT_VALID] = 3,         [WRITE_WITHOUT_READ] = 3, [RESERVED_BIT] = 3, [RESERVED_IN_POINTER] = 3,
                                     [POINTER_AT_LEVEL_0] = 4, [WRONG_MODE] = 5, [NO_RIGHT] = 5,           [MISALIGNED] = 6,   [NOT_ACCESSED] = 7,
                                     [NOT_DIRTY] = 7,     [BYTE_OUTSIDE] = 8};

static unsigned long long questions;

static unsigned long long whys[2][WHYS], levels[2][4], causes[16], global_leaves, bare_leaves, no_leaves, outside, unknown_modes;

static void count(uint64_t satp, struct xv6vm_outcome outcome, enum why why) {
    if (why == NO_TRANSLATION || why == BAD_ARGUMENT) {
        whys[0][why]++;
        return;
    }
    whys[satp >> 60 == 9][why]++;
    if (outcome.status == XV6VM_LEAF)
        levels[satp >> 60 == 9][outcome.level]++;
    else
        causes[outcome.cause]++;
}

static void count_leaf(struct xv6vm_leaf leaf) {
    bare_leaves += leaf.status == XV6VM_BARE;
    no_leaves += leaf.status == XV6VM_NO_LEAF;
    outside += leaf.status == XV6VM_ACCESS_FAULT;
    unknown_modes += leaf.status == XV6VM_UNKNOWN;
    global_leaves += leaf.global == 1;
}

/* The reader of a memory in two regions, which counts. */
static int read_counted(void *context, uint64_t address, uint64_t *word) {
    questions++;
    return xv6vm_read_regions(context, address, word);
}

/* The PTE at which a walk ends must be the one that it tells. */
static int is_pte(const struct memory *memory, const struct xv6vm_walk *walk, enum why why) {
    uint64_t place = walk->at.table * 4096 + walk->at.index * 8, word;
    if (why == NO_TRANSLATION || why == BAD_ARGUMENT || why == NOT_CANONICAL)
        return 1;
    return plain_read(memory, place, &word) ? why != TABLE_OUTSIDE && word == walk->at.word : why == TABLE_OUTSIDE;
}

static void try_reader(const struct memory *memory, uint64_t satp, uint64_t address, uint32_t access, uint32_t mode,
                       struct xv6vm_outcome want, enum why why) {
    int is_last = memory->base_ppn > UINT64_MAX - MOST_FRAMES; /* no page has a number above: one region then */
    size_t cut = below(memory->count / 512 + 1), first = is_last ? memory->count : cut * 512;
    struct xv6vm_region regions[2] = {{memory->words, first, memory->base_ppn},
                                      {memory->words + first, memory->count - first, memory->base_ppn + cut}};
    struct xv6vm_regions all = {regions, is_last ? 1 : 2};
    struct xv6vm_walk walk;
    unsigned long long before = questions;
    struct xv6vm_outcome got = xv6vm_translate_by(read_counted, &all, satp, address, access, mode, &walk);
    if (!same_outcome(got, want) || walk.at.step != STEPS[why] || !is_pte(memory, &walk, why) || questions - before > 5)
        differs("by a reader, %zu words from page %#" PRIx64 ", satp %#" PRIx64 ", address %#" PRIx64 ", access %" PRIu32 ", mode %" PRIu32
                ": %s in place of %s, step %" PRIu64 " in place of %" PRIu64,
                memory->count, memory->base_ppn, satp, address, access, mode, outcome_text(got), outcome_text(want), walk.at.step, STEPS[why]);
}

static void try_access(const struct memory *memory) {
    uint64_t satp = random_satp(memory), address = random_address(satp);
    uint32_t access = (uint32_t)(one_in(64) ? any_number() : below(3));
    uint32_t mode = (uint32_t)(one_in(64) ? any_number() : below(4) / 3);
    enum why why;
    struct xv6vm_outcome want = plain_translate(memory, satp, address, access, mode, &why);
    struct xv6vm_outcome got = CALL(translate)(memory->words, memory->count, memory->base_ppn, satp, address, access, mode);
    count(satp, want, why);
    if (!same_outcome(got, want))
        differs("%zu words from page %#" PRIx64 ", satp %#" PRIx64 ", address %#" PRIx64 ", access %" PRIu32 ", mode %" PRIu32
                ": %s in place of %s",
                memory->count, memory->base_ppn, satp, address, access, mode, outcome_text(got), outcome_text(want));
    try_reader(memory, satp, address, access, mode, want, why);
    struct xv6vm_leaf leaf = plain_lookup(memory, satp, address);
    struct xv6vm_leaf found = CALL(lookup)(memory->words, memory->count, memory->base_ppn, satp, address);
    count_leaf(leaf);
    if (!same_leaf(found, leaf))
        differs("%zu words from page %#" PRIx64 ", satp %#" PRIx64 ", address %#" PRIx64 ": %s in place of %s", memory->count,
                memory->base_ppn, satp, address, leaf_text(found), leaf_text(leaf));
}

static void print_counts(void) {
    static const char *const SCHEMES[2] = {"Sv39", "Sv48"};
    char what[80];
    printf("random memories %d\n", MEMORIES);
    printf("random accesses %d\n", MEMORIES * ACCESSES);
    for (int scheme = 0; scheme < 2; scheme++) {
        for (int level = 0; level < 3 + scheme; level++) {
            snprintf(what, sizeof what, "%s: leaves of level %d", SCHEMES[scheme], level);
            often(what, levels[scheme][level]);
        }
        for (int why = TABLE_OUTSIDE; why < WHYS; why++) {
            snprintf(what, sizeof what, "%s: faults by %s", SCHEMES[scheme], WHY[why]);
            often(what, whys[scheme][why]);
        }
    }
    static const uint64_t CAUSES[6] = {1, 5, 7, 12, 13, 15};
    for (int i = 0; i < 6; i++) {
        snprintf(what, sizeof what, "faults of cause %" PRIu64, CAUSES[i]);
        often(what, causes[CAUSES[i]]);
    }
    for (int why = NO_TRANSLATION; why <= BAD_ARGUMENT; why++) {
        snprintf(what, sizeof what, "accesses with %s", WHY[why]);
        often(what, whys[0][why]);
    }
    often("words that a reader was asked for", questions);
    often("look-ups of no leaf", no_leaves);
    often("look-ups of a table outside the memory", outside);
    often("look-ups of a global leaf", global_leaves);
    often("look-ups with MODE 0", bare_leaves);
    often("look-ups with a MODE without meaning", unknown_modes);
}

int main(void) {
    for (int i = 0; i < MEMORIES; i++) {
        struct memory memory = random_memory();
        for (int n = 0; n < ACCESSES; n++)
            try_access(&memory);
    }
    print_counts();
    return report();
}
