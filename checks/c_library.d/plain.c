#include "plain.h"

static const uint64_t PPN = ((uint64_t)1 << 44) - 1;

static const uint64_t PAGE_FAULT[] = {12, 13, 15}, ACCESS_FAULT[] = {1, 5, 7};

/* What steps 1 to 4 find. */
struct found {
    enum why why;
    uint64_t word;
    unsigned level;
    int global;
};

static struct found not_found(enum why why) {
    struct found found = {why, 0, 0, 0};
    return found;
}

int plain_read(const struct memory *memory, uint64_t physical, uint64_t *word) {
    uint64_t page = physical >> 12;
    if (page < memory->base_ppn)
        return 0;
    uint64_t at = (page - memory->base_ppn) * 512 + (physical >> 3 & 511);
    if (at >= memory->count)
        return 0;
    *word = memory->words[at];
    return 1;
}

/* 4.3.2, steps 1 to 4: from the root in satp to the first leaf. */
static struct found find(const struct memory *memory, uint64_t satp, uint64_t address) {
    int levels = satp >> 60 == 8 ? 3 : 4;
    /* 4.4.1, 4.5.1: the bits above the highest index equal its highest bit */
    int64_t high = (int64_t)address >> (11 + 9 * levels);
    if (high != 0 && high != -1)
        return not_found(NOT_CANONICAL);
    uint64_t table = (satp & PPN) << 12;
    struct found found = {GIVES_LEAF, 0, 0, 0};
    for (int level = levels - 1; level >= 0; level--) {
        uint64_t word;
        if (!plain_read(memory, table + 8 * (address >> (12 + 9 * level) & 511), &word))
            return not_found(TABLE_OUTSIDE);
        if (!(word & V))
            return not_found(NOT_VALID);
        if ((word & (R | W)) == W)
            return not_found(WRITE_WITHOUT_READ);
        if (word >> 54)
            return not_found(RESERVED_BIT);
        if (word & G)
            found.global = 1;
        if (word & (R | X)) {
            found.word = word;
            found.level = (unsigned)level;
            return found;
        }
        if (word & (U | A | D))
            return not_found(RESERVED_IN_POINTER);
        table = (word >> 10 & PPN) << 12;
    }
    return not_found(POINTER_AT_LEVEL_0);
}

/* Step 6, of a leaf at a level above 0. */
static int is_misaligned(uint64_t word, unsigned level) { return (word >> 10 & (((uint64_t)1 << 9 * level) - 1)) != 0; }

/* Step 8: the indices below the leaf's level come from the address. */
static uint64_t physical(uint64_t word, unsigned level, uint64_t address) {
    uint64_t below = ((uint64_t)1 << (12 + 9 * level)) - 1;
    return ((word >> 10 & PPN) << 12 & ~below) | (address & below);
}

static struct xv6vm_outcome outcome(uint32_t status, uint64_t address, uint64_t cause) {
    struct xv6vm_outcome outcome = {status, 0, 0, address, cause};
    return outcome;
}

struct xv6vm_outcome plain_page_fault(uint32_t access) {
    return outcome(XV6VM_PAGE_FAULT, 0, PAGE_FAULT[access]);
}

/* Steps 5 and 7, with SUM = 0 and MXR = 0. */
static enum why judge(uint64_t word, uint32_t access, uint32_t mode) {
    if ((mode == XV6VM_USER) != ((word & U) != 0))
        return WRONG_MODE;
    if (!(word & (access == XV6VM_FETCH ? X : access == XV6VM_LOAD ? R : W)))
        return NO_RIGHT;
    if (!(word & A))
        return NOT_ACCESSED;
    if (access == XV6VM_STORE && !(word & D))
        return NOT_DIRTY;
    return GIVES_LEAF;
}

struct xv6vm_outcome plain_use(uint64_t word, unsigned level, uint64_t address, uint32_t access, uint32_t mode, enum why *why) {
    *why = judge(word, access, mode);
    if (*why != GIVES_LEAF)
        return plain_page_fault(access);
    struct xv6vm_outcome leaf = {XV6VM_LEAF, level, word, physical(word, level, address), 0};
    return leaf;
}

struct xv6vm_outcome plain_translate(const struct memory *memory, uint64_t satp, uint64_t address, uint32_t access, uint32_t mode,
                                     enum why *why) {
    *why = BAD_ARGUMENT;
    if (access > XV6VM_STORE)
        return outcome(XV6VM_UNKNOWN, 0, 1);
    if (mode > XV6VM_SUPERVISOR)
        return outcome(XV6VM_UNKNOWN, 0, 2);
    uint64_t scheme = satp >> 60;
    if (scheme != 0 && scheme != 8 && scheme != 9)
        return outcome(XV6VM_UNKNOWN, 0, 3);
    *why = NO_TRANSLATION;
    if (scheme == 0)
        return outcome(XV6VM_BARE, address, 0);
    struct found found = find(memory, satp, address);
    *why = found.why;
    if (found.why == TABLE_OUTSIDE)
        return outcome(XV6VM_ACCESS_FAULT, 0, ACCESS_FAULT[access]);
    if (found.why != GIVES_LEAF)
        return plain_page_fault(access);
    struct xv6vm_outcome leaf = plain_use(found.word, found.level, address, access, mode, why);
    if (*why == WRONG_MODE || *why == NO_RIGHT)
        return leaf;
    if (is_misaligned(found.word, found.level)) {
        *why = MISALIGNED;
        return plain_page_fault(access);
    }
    if (leaf.status != XV6VM_LEAF)
        return leaf;
    uint64_t unused;
    if (!plain_read(memory, leaf.address, &unused)) {
        *why = BYTE_OUTSIDE;
        return outcome(XV6VM_ACCESS_FAULT, 0, ACCESS_FAULT[access]);
    }
    return leaf;
}

struct xv6vm_leaf plain_lookup(const struct memory *memory, uint64_t satp, uint64_t address) {
    struct xv6vm_leaf leaf = {XV6VM_UNKNOWN, 0, 0, 0, 0};
    uint64_t scheme = satp >> 60;
    if (scheme == 0) {
        leaf.status = XV6VM_BARE;
        leaf.address = address;
    }
    if (scheme != 8 && scheme != 9)
        return leaf;
    struct found found = find(memory, satp, address);
    leaf.status = found.why == TABLE_OUTSIDE ? XV6VM_ACCESS_FAULT : XV6VM_NO_LEAF;
    if (found.why != GIVES_LEAF || is_misaligned(found.word, found.level))
        return leaf;
    leaf.status = XV6VM_LEAF;
    leaf.level = found.level;
    leaf.word = found.word;
    leaf.address = physical(found.word, found.level, address);
    leaf.global = (uint64_t)found.global;
    return leaf;
}

int same_outcome(struct xv6vm_outcome one, struct xv6vm_outcome other) {
    return one.status == other.status && one.level == other.level && one.word == other.word && one.address == other.address &&
           one.cause == other.cause;
}

int same_leaf(struct xv6vm_leaf one, struct xv6vm_leaf other) {
    return one.status == other.status && one.level == other.level && one.word == other.word && one.address == other.address &&
           one.global == other.global;
}
