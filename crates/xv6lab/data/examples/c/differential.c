/* Compares the MMU of a toy emulator with xv6vm_translate on random page tables. At the first difference it clears all bits of the
   memory and the address that the difference does without, and prints what is left. To test another MMU, replace toy_has,
   toy_fault and toy_translate: docs/C_LIBRARY.md says how. With a release:

     gcc -O2 examples/c/differential.c $(pkg-config --cflags --libs xv6vm) -o differential
     ./differential

   docs/C_LIBRARY.md says how in a clone. What it prints is at the end of this file. */
#include "xv6vm.h"
#include <inttypes.h>
#include <stdio.h>

/* ---- the MMU under test */

/* The emulator's memory: four frames from 0x80000000 on. The tests write page tables into it. */
enum { BASE_PPN = 0x80000, FRAMES = 4 };

static uint64_t ram[FRAMES * 512];

/* Bits of a page table entry. */
enum { V = 1, R = 2, W = 4, X = 8, U = 16, G = 32, A = 64, D = 128 };

static int toy_has(uint64_t physical) { return physical >> 12 >= BASE_PPN && physical >> 12 < BASE_PPN + FRAMES; }

static struct xv6vm_outcome toy_fault(uint32_t status, uint64_t fetch_cause, uint32_t access) {
    struct xv6vm_outcome fault = {status, 0, 0, 0, fetch_cause + (access == XV6VM_LOAD ? 1 : access == XV6VM_STORE ? 3 : 0)};
    if (status == XV6VM_ACCESS_FAULT && access != XV6VM_FETCH)
        fault.cause += 3;
    return fault;
}

/* A walk of Sv39. Step 6 of the standard's 4.3.2 is missing: a superpage must begin at a multiple of its size. */
static struct xv6vm_outcome toy_translate(uint64_t satp, uint64_t address, uint32_t access, uint32_t mode) {
    const uint64_t needed = (access == XV6VM_FETCH ? X : access == XV6VM_LOAD ? R : W | D) | A;
    struct xv6vm_outcome page_fault = toy_fault(XV6VM_PAGE_FAULT, 12, access),
                         access_fault = toy_fault(XV6VM_ACCESS_FAULT, 1, access);
    uint64_t table = (satp & (((uint64_t)1 << 44) - 1)) << 12;
    if (address >> 38 != 0 && address >> 38 != 0x3ffffff)
        return page_fault;
    for (int level = 2; level >= 0; level--) {
        uint64_t place = table + (address >> (12 + 9 * level) & 511) * 8;
        if (!toy_has(place))
            return access_fault;
        uint64_t word = ram[(place - ((uint64_t)BASE_PPN << 12)) / 8];
        if (!(word & V) || (word & (R | W)) == W || word >> 54 != 0)
            return page_fault;
        if (word & (R | X)) {
            if ((word & needed) != needed || !(word & U) != (mode == XV6VM_SUPERVISOR))
                return page_fault;
            struct xv6vm_outcome leaf = {XV6VM_LEAF, (uint32_t)level, word, 0, 0};
            leaf.address = (word >> 10 << 12) + (address & (((uint64_t)4096 << 9 * level) - 1));
            return toy_has(leaf.address) ? leaf : access_fault;
        }
        if (word & (U | A | D))
            return page_fault;
        table = word >> 10 << 12;
    }
    return page_fault;
}

/* ---- random cases */

struct test {
    uint64_t satp, address;
    uint32_t access, mode;
};

/* A random number (xorshift64), the same ones in each run. */
static uint64_t any_number(void) {
    static uint64_t state = 1;
    state ^= state << 13;
    state ^= state >> 7;
    state ^= state << 17;
    return state;
}

/* One of the bits from `low` up to 64, one time in `n`; else 0. */
static uint64_t any_bit(int low, uint64_t n) {
    uint64_t number = any_number();
    return (number >> 8) % n == 0 ? (uint64_t)1 << (low + (int)((number >> 32) % (uint64_t)(64 - low))) : 0;
}

/* A pointer, or a leaf for loads and more, of a frame of the memory or the next one; at times with one bit wrong. Half of the
   leaves are of frame 0, so at each level a walk can find one: frame 0 is at a multiple of 1 GiB. One leaf in four is without U. */
static uint64_t random_entry(void) {
    uint64_t number = any_number(), frame = (number >> 32) % (FRAMES + 1);
    if (number >> 8 & 1)
        return ((BASE_PPN + frame) << 10 | V | (number >> 16 & G)) ^ any_bit(0, 8);
    if (number >> 9 & 1)
        frame = 0;
    uint64_t user = number >> 10 & 3 ? U : 0;
    return ((BASE_PPN + frame) << 10 | V | R | user | A | (number >> 16 & (W | X | G | D))) ^ any_bit(0, 8);
}

/* Each table has four words that can be other than 0, two at each end, and the indices in an address are of these. */
static const uint64_t PLACES[4] = {0, 1, 510, 511};

enum { WORDS = FRAMES * 4 };

static uint64_t *word_number(int i) { return &ram[(uint64_t)(i / 4 * 512) + PLACES[i % 4]]; }

static struct test random_test(void) {
    for (int i = 0; i < WORDS; i++)
        *word_number(i) = random_entry();
    uint64_t number = any_number();
    struct test test = {(uint64_t)8 << 60 | (BASE_PPN + number % FRAMES), number >> 48 & 4095, (uint32_t)(number >> 8) % 3,
                        XV6VM_USER};
    if ((number >> 40) % 4 == 0)
        test.mode = XV6VM_SUPERVISOR;
    test.satp ^= any_bit(0, 32) >> 20;
    for (int level = 0; level < 3; level++)
        test.address |= PLACES[number >> (24 + 2 * level) & 3] << (12 + 9 * level);
    if (test.address >> 38 & 1)
        test.address |= ~(uint64_t)0 << 38;
    test.address ^= any_bit(38, 16);
    return test;
}

/* ---- comparison */

/* The memory is as before after that: an MMU may set A and D in it. */
static struct xv6vm_outcome toy(const struct test *test) {
    uint64_t kept[WORDS];
    for (int i = 0; i < WORDS; i++)
        kept[i] = *word_number(i);
    struct xv6vm_outcome outcome = toy_translate(test->satp, test->address, test->access, test->mode);
    for (int i = 0; i < WORDS; i++)
        *word_number(i) = kept[i];
    return outcome;
}

static struct xv6vm_outcome proved(const struct test *test) {
    return xv6vm_translate(ram, FRAMES * 512, BASE_PPN, test->satp, test->address, test->access, test->mode);
}

/* An MMU that reports neither the leaf nor its level can be compared too: they do not count here. */
static int differ(const struct test *test) {
    struct xv6vm_outcome one = toy(test), other = proved(test);
    return one.status != other.status || one.address != other.address || one.cause != other.cause;
}

static int finds_leaf(const struct test *test) {
    return toy(test).status == XV6VM_LEAF || proved(test).status == XV6VM_LEAF;
}

/* Points a word at a frame of the memory, and the address at the begin of a page or superpage, where then one of the two finds a
   physical address and the other does not: so a question of rights does not look like one of memory. */
static void point_inside(struct test *test) {
    const uint64_t ppn = (((uint64_t)1 << 44) - 1) << 10;
    for (int i = 0; i < 4 * WORDS * FRAMES && !finds_leaf(test); i++) {
        uint64_t *word = word_number(i / FRAMES % WORDS), old = *word, address = test->address;
        *word = (old & ~ppn) | (uint64_t)(BASE_PPN + i % FRAMES) << 10;
        test->address &= ~(uint64_t)0 << (3 + 9 * (i / FRAMES / WORDS));
        if (!differ(test) || !finds_leaf(test)) {
            *word = old;
            test->address = address;
        }
    }
}

/* Clears bits of a number for as long as the two answers keep their kinds and differ. */
static void shrink_number(uint64_t *number, const struct test *test) {
    uint32_t one = toy(test).status, other = proved(test).status;
    for (int bit = -1; bit < 64; bit++) {
        uint64_t old = *number;
        *number &= bit < 0 ? 0 : ~((uint64_t)1 << bit);
        if (!differ(test) || toy(test).status != one || proved(test).status != other)
            *number = old;
    }
}

static void shrink(struct test *test) {
    point_inside(test);
    for (int round = 0; round < 2; round++) {
        shrink_number(&test->address, test);
        for (int i = 0; i < WORDS; i++)
            shrink_number(word_number(i), test);
    }
}

static void print_outcome(const char *who, struct xv6vm_outcome outcome) {
    if (outcome.status == XV6VM_LEAF)
        printf("%s: physical address %#" PRIx64 "\n", who, outcome.address);
    else
        printf("%s: %s fault, cause %" PRIu64 "\n", who, outcome.status == XV6VM_PAGE_FAULT ? "page" : "access", outcome.cause);
}

/* Prints by which step of the standard's 4.3.2 the right answer is a fault, and the entry that was read last. */
static void print_reason(const struct test *test) {
    struct xv6vm_walk walk;
    xv6vm_walk_begin(&walk, test->satp, test->address, test->access, test->mode);
    while (walk.at.status == XV6VM_READ || walk.at.status == XV6VM_BYTE) {
        uint32_t there = toy_has(walk.at.place) ? 1 : 0;
        xv6vm_walk_next(&walk, there, there ? ram[(walk.at.place - ((uint64_t)BASE_PPN << 12)) / 8] : 0);
    }
    if (walk.at.status == XV6VM_PAGE_FAULT || walk.at.status == XV6VM_ACCESS_FAULT)
        printf("xv6vm: by step %" PRIu64 ", level %" PRIu32 ", entry %#" PRIx64 "\n", walk.at.step, walk.at.level, walk.at.word);
}

static void print_test(const struct test *test) {
    static const char *const ACCESSES[3] = {"fetch from", "load from", "store to"};
    for (int i = 0; i < WORDS; i++)
        if (*word_number(i) != 0)
            printf("word at %#" PRIx64 ": %#" PRIx64 "\n", ((uint64_t)BASE_PPN << 12) + 8 * (uint64_t)(word_number(i) - ram),
                   *word_number(i));
    printf("satp %#" PRIx64 ", %s %#" PRIx64 " in %s mode\n", test->satp, ACCESSES[test->access], test->address,
           test->mode == XV6VM_USER ? "user" : "supervisor");
    print_outcome("toy", toy(test));
    print_outcome("xv6vm", proved(test));
    print_reason(test);
}

int main(void) {
    unsigned long agreed[3] = {0, 0, 0};
    for (int i = 0; i < 1000000; i++) {
        struct test test = random_test();
        if (differ(&test)) {
            printf("they differ; before that both had leaves %lu, page faults %lu, access faults %lu\n", agreed[0], agreed[1],
                   agreed[2]);
            shrink(&test);
            print_test(&test);
            return 1;
        }
        agreed[proved(&test).status]++;
    }
    printf("no difference; both had leaves %lu, page faults %lu, access faults %lu\n", agreed[0], agreed[1], agreed[2]);
    return 0;
}

/* Prints, and ends with status 1:
they differ; before that both had leaves 1, page faults 6, access faults 1
word at 0x80002000: 0x20000453
satp 0x8000000000080002, load from 0 in user mode
toy: physical address 0x80001000
xv6vm: page fault, cause 13
xv6vm: by step 6, level 2, entry 0x20000453
*/
