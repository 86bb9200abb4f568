/* Asks of each load of a toy emulator whether the standard permits its outcome, whatever a hart caches. The toy's TLB does not know
   ASIDs: an entry of one address space serves the next. Each event is printed as a line for xv6lab mmu too, which says why. With a release:

     gcc examples/c/hart.c $(pkg-config --cflags --libs xv6vm) -o hart
     ./hart > hart.mmu
     xv6lab mmu --shrink hart.mmu

   docs/C_LIBRARY.md says how in a clone. What the program prints is at the end of this file. */
#include "xv6vm.h"
#include <inttypes.h>
#include <stdio.h>

/* Three frames of physical memory, from 0x80000000 on; frames 1 and 2 are page tables of Sv39. */
enum { BASE_PPN = 0x80000, FRAMES = 3, WORDS = FRAMES * 512 };

static const uint64_t BASE = (uint64_t)BASE_PPN << 12;

static uint64_t memory[WORDS];

static uint64_t satp;

/* ---- the toy: a TLB of one place */
static struct {
    int valid;
    uint64_t page;
    uint64_t frame;
} toy_tlb;

static struct xv6vm_judged toy_load(uint64_t address) {
    if (!toy_tlb.valid || toy_tlb.page != address >> 12) {
        /* its walk is right, so it is xv6vm_translate here */
        struct xv6vm_outcome walk = xv6vm_translate(memory, WORDS, BASE_PPN, satp, address, XV6VM_LOAD, XV6VM_USER);
        if (walk.status != XV6VM_LEAF)
            return (struct xv6vm_judged){.status = XV6VM_REFUSED, .cause = walk.cause};
        toy_tlb.valid = 1;
        toy_tlb.page = address >> 12;
        toy_tlb.frame = walk.address >> 12;
    }
    return (struct xv6vm_judged){.status = XV6VM_GRANTED, .address = toy_tlb.frame << 12 | (address & 4095)};
}

/* ---- the reference: what is told of the hart, in the order in which it happens */
static struct xv6vm_hart hart;
static struct xv6vm_event events[64];

enum { CAPACITY = sizeof events / sizeof events[0] };

static void store(uint64_t address, uint64_t word) {
    uint64_t *place = &memory[(address - BASE) / 8];
    printf("mem %#" PRIx64 " %#" PRIx64 "\n", address, word);
    xv6vm_hart_mem(&hart, events, CAPACITY, address, *place, word);
    *place = word;
}

static void write_satp(uint64_t word) {
    printf("satp %#" PRIx64 "\n", word);
    xv6vm_hart_satp(&hart, events, CAPACITY, word);
    satp = word;
}

static void fence(void) {
    printf("sfence\n");
    xv6vm_hart_fence(&hart, events, CAPACITY, 0, 0, 0, 0);
    toy_tlb.valid = 0;
}

static int not_permitted;

static void load(uint64_t address) {
    struct xv6vm_judged outcome = toy_load(address);
    struct xv6vm_access access = {.address = address, .width = 8, .access = XV6VM_LOAD, .mode = XV6VM_USER};
    if (outcome.status == XV6VM_GRANTED)
        printf("load %#" PRIx64 " 8 U => pa %#" PRIx64 "\n", address, outcome.address);
    else
        printf("load %#" PRIx64 " 8 U => fault %" PRIu64 "\n", address, outcome.cause);
    if (xv6vm_hart_judge(&hart, events, CAPACITY, memory, WORDS, BASE_PPN, &access, &outcome) == 1) {
        printf("# permitted\n");
    } else {
        printf("# NOT permitted\n");
        not_permitted = 1;
    }
}

int main(void) {
    const uint64_t leaf = (uint64_t)BASE_PPN << 10 | 0x53; /* V, R, U and A: a superpage of 1 GiB */
    const uint64_t sv39 = (uint64_t)8 << 60;
    xv6vm_hart_begin(&hart, XV6VM_SV39 | XV6VM_SVADE, 16, 0);
    printf("profile sv39 svade\nram %#" PRIx64 " %#x\n", BASE, FRAMES * 4096);
    store(BASE + 0x1000, leaf);
    fence();
    write_satp(sv39 | (uint64_t)1 << 44 | (BASE_PPN + 1)); /* ASID 1, and the table in frame 1 */
    load(0x8);
    printf("# the leaf is removed; until it fences, the hart may go by the old one\n");
    store(BASE + 0x1000, 0);
    load(0x8);
    printf("# another address space: ASID 2, and the table in frame 2, which is empty\n");
    write_satp(sv39 | (uint64_t)2 << 44 | (BASE_PPN + 2));
    load(0x8);
    return not_permitted;
}

/* Prints, and ends with status 1:
profile sv39 svade
ram 0x80000000 0x3000
mem 0x80001000 0x20000053
sfence
satp 0x8000100000080001
load 0x8 8 U => pa 0x80000008
# permitted
# the leaf is removed; until it fences, the hart may go by the old one
mem 0x80001000 0
load 0x8 8 U => pa 0x80000008
# permitted
# another address space: ASID 2, and the table in frame 2, which is empty
satp 0x8000200000080002
load 0x8 8 U => pa 0x80000008
# NOT permitted
*/
