#define _DEFAULT_SOURCE
#include "check.h"
#include <stdarg.h>
#include <stdio.h>
#include <stdlib.h>
#include <string.h>
#include <sys/mman.h>

/* ---- counts and differences */

unsigned long long called[CALLS];

static unsigned long long differences;

static const char *const NAMES[CALLS] = {"translate", "lookup",    "tlb_fill",  "tlb_match",
                                         "tlb_use",   "tlb_evict", "tlb_fence", "permits"};

void differs(const char *format, ...) {
    if (differences++ >= 8)
        return;
    va_list numbers;
    va_start(numbers, format);
    printf("differs: ");
    vprintf(format, numbers);
    printf("\n");
    va_end(numbers);
}

void often(const char *what, unsigned long long times) {
    printf("%s %llu\n", what, times);
    if (times <= 1000)
        differs("%s only %llu times", what, times);
}

int report(void) {
    for (int i = 0; i < CALLS; i++)
        if (called[i] != 0)
            printf("calls of xv6vm_%s %llu\n", NAMES[i], called[i]);
    printf("differences %llu\n", differences);
    return differences != 0;
}

static char *next_text(void) {
    static char texts[8][160];
    static int last;
    last = (last + 1) % 8;
    return texts[last];
}

const char *outcome_text(struct xv6vm_outcome outcome) {
    char *text = next_text();
    snprintf(text, 160, "status %" PRIu32 " level %" PRIu32 " word %#" PRIx64 " address %#" PRIx64 " cause %" PRIu64,
             outcome.status, outcome.level, outcome.word, outcome.address, outcome.cause);
    return text;
}

const char *leaf_text(struct xv6vm_leaf leaf) {
    char *text = next_text();
    snprintf(text, 160, "status %" PRIu32 " level %" PRIu32 " word %#" PRIx64 " address %#" PRIx64 " global %" PRIu64,
             leaf.status, leaf.level, leaf.word, leaf.address, leaf.global);
    return text;
}

/* ---- random numbers */

uint64_t any_number(void) {
    static uint64_t state = 0x9e3779b97f4a7c15;
    state ^= state << 13;
    state ^= state >> 7;
    state ^= state << 17;
    return state;
}

uint64_t below(uint64_t limit) { return (any_number() >> 16) % limit; }

int one_in(uint64_t n) { return below(n) == 0; }

/* ---- random page tables */

/* The indices at which page tables have entries, and addresses have theirs. */
static const size_t PLACES[8] = {0, 1, 2, 3, 255, 256, 510, 511};

/* The page number of a memory's first frame: in the first row multiples of 1 GiB, most of them of 512 GiB too; in the last one
   numbers at and past the end of the physical addresses. */
static const uint64_t BASES[16] = {
    0x80000, 0x80000, 0x8000000, 0x8000000, 0, 0, 0x10000000, 0x40000,
    0x123450000000, 0x200, 0x12345, 1, 0x80003,
    ((uint64_t)1 << 44) - 4, (uint64_t)1 << 44, UINT64_MAX,
};

static const uint64_t PPN = ((uint64_t)1 << 44) - 1;

/* Returns the words of some frames at either end of the readable pages. */
static uint64_t *guarded(size_t count) {
    static uint64_t *start;
    const size_t pages = (size_t)MOST_FRAMES * 4096;
    if (start == NULL) {
        char *all = (char *)mmap(NULL, pages + 2 * 4096, PROT_NONE, MAP_PRIVATE | MAP_ANONYMOUS, -1, 0);
        if (all == MAP_FAILED || mprotect(all + 4096, pages, PROT_READ | PROT_WRITE) != 0) {
            perror("mmap");
            exit(2);
        }
        start = (uint64_t *)(void *)(all + 4096);
    }
    memset(start, 0, pages);
    return one_in(2) ? start : start + (size_t)MOST_FRAMES * 512 - count;
}

/* The number of words: mostly of whole frames. */
static size_t random_count(void) {
    size_t frames = 1 + below(MOST_FRAMES);
    if (one_in(64))
        return 0;
    return frames * 512 - (one_in(4) ? below(512) : 0);
}

struct memory random_memory(void) {
    struct memory memory;
    memory.count = random_count();
    memory.words = guarded(memory.count);
    memory.base_ppn = BASES[below(one_in(4) ? 16 : 8)];
    for (size_t frame = 0; frame * 512 < memory.count; frame++)
        for (size_t i = 0; i < 8; i++)
            if (frame * 512 + PLACES[i] < memory.count)
                memory.words[frame * 512 + PLACES[i]] = random_entry(&memory);
    return memory;
}

size_t random_place(const struct memory *memory) {
    size_t place = below(memory->count / 512 + 1) * 512 + PLACES[below(8)];
    return place < memory->count ? place : 0;
}

/* A pointer to a frame of the memory, at times with G, and with a bit that is reserved there. */
static uint64_t random_pointer(uint64_t ppn) {
    static const uint64_t RESERVED[3] = {U, A, D};
    uint64_t word = ppn << 10 | V | (one_in(6) ? G : 0) | below(4) << 8;
    return one_in(16) ? word | RESERVED[below(3)] : word;
}

/* A leaf of any size, with any rights, mostly ones that permit something. */
static uint64_t random_leaf(uint64_t ppn) {
    if (!one_in(8))
        ppn &= ~(((uint64_t)1 << 9 * below(4)) - 1);
    uint64_t flags = one_in(4) ? V | below(1024) : V | R | A | (one_in(8) ? 0 : U) | (below(1024) & (W | X | G | D | 0x300));
    return ppn << 10 | flags;
}

/* The number of a page: mostly of a frame of the memory, else of the first one past it, or any. */
static uint64_t random_page(const struct memory *memory) {
    size_t frames = (memory->count + 511) / 512;
    if (one_in(32))
        return any_number() & PPN;
    return (memory->base_ppn + (frames == 0 || one_in(16) ? frames : below(frames))) & PPN;
}

uint64_t random_entry(const struct memory *memory) {
    uint64_t word = one_in(2) ? random_pointer(random_page(memory)) : random_leaf(random_page(memory));
    if (one_in(40))
        word |= (uint64_t)1 << (54 + below(10));
    if (one_in(40))
        word &= ~(uint64_t)V;
    return one_in(40) ? any_number() : word;
}

uint64_t random_satp(const struct memory *memory) {
    uint64_t mode = one_in(32) ? below(16) : 8 + below(2);
    return mode << 60 | below(4) << 44 | random_page(memory);
}

uint64_t random_address(uint64_t satp) {
    int levels = satp >> 60 == 8 ? 3 : 4;
    /* below this level the indices are small: such an address lies in the first frames of a superpage */
    int start = (int)below((uint64_t)levels + 1);
    uint64_t address = below(4096);
    for (int level = 0; level < levels; level++) {
        uint64_t index = PLACES[below(one_in(2) ? 4 : 8)];
        if (level < start)
            index = level == 0 ? below(4) : 0;
        address |= index << (12 + 9 * level);
    }
    int sign = 11 + 9 * levels;
    if (address >> sign & 1)
        address |= ~(uint64_t)0 << sign;
    if (one_in(16))
        address ^= (uint64_t)1 << (sign + (int)below((uint64_t)(64 - sign)));
    return address;
}
