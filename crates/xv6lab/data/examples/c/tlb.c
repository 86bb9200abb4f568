/* Asks of each load of a toy emulator with a TLB whether its outcome is the walk's or one by an entry that the fences left. The
   toy's fence with an address removes the entry of one page; it should remove those of all pages of the superpage that holds the
   address. With a release:

     gcc examples/c/tlb.c $(pkg-config --cflags --libs xv6vm) -o tlb
     ./tlb

   docs/C_LIBRARY.md says how in a clone. What it prints is at the end of this file. */
#include "xv6vm.h"
#include <inttypes.h>
#include <stdio.h>

/* Four frames of physical memory, from 0x80000000 on; the page table of Sv39 is frame 3. */
enum { BASE_PPN = 0x80000, FRAMES = 4, WORDS = FRAMES * 512 };

static uint64_t memory[WORDS];

static const uint64_t SATP = (uint64_t)8 << 60 | (BASE_PPN + 3);

/* ---- the reference: each entry that the toy's TLB may hold, whatever its size and order; room for all fills between two fences */
static struct xv6vm_entry entries[16];

enum { PLACES = sizeof entries / sizeof entries[0] };

/* ---- the toy: a TLB of four places by the low bits of the page's number. Its walk is right, so it is xv6vm_translate here */
struct toy_entry {
    int valid;
    uint64_t page;
    struct xv6vm_outcome outcome;
};

static struct toy_entry toy_tlb[4];

static struct xv6vm_outcome toy_load(uint64_t address) {
    struct toy_entry *entry = &toy_tlb[address >> 12 & 3];
    if (!entry->valid || entry->page != address >> 12) {
        struct xv6vm_outcome outcome = xv6vm_translate(memory, WORDS, BASE_PPN, SATP, address, XV6VM_LOAD, XV6VM_USER);
        if (outcome.status != XV6VM_LEAF)
            return outcome;
        *entry = (struct toy_entry){1, address >> 12, outcome};
        /* a TLB is filled here, so the reference is too */
        xv6vm_tlb_fill(entries, PLACES, memory, WORDS, BASE_PPN, SATP, address);
    }
    struct xv6vm_outcome outcome = entry->outcome;
    outcome.address = (outcome.address & ~(uint64_t)4095) | (address & 4095);
    return outcome;
}

static void toy_fence(uint64_t address) {
    struct toy_entry *entry = &toy_tlb[address >> 12 & 3];
    if (entry->page == address >> 12)
        entry->valid = 0;
}

/* ---- the comparison */

static int not_permitted;

/* All five numbers of an outcome count: the leaf and its level too. */
static void load(uint64_t address) {
    struct xv6vm_outcome outcome = toy_load(address);
    printf("load from %#" PRIx64 ": ", address);
    if (outcome.status == XV6VM_LEAF)
        printf("physical address %#" PRIx64, outcome.address);
    else
        printf("page fault, cause %" PRIu64, outcome.cause);
    if (xv6vm_permits(entries, PLACES, memory, WORDS, BASE_PPN, SATP, address, XV6VM_LOAD, XV6VM_USER, outcome)) {
        printf(", permitted\n");
    } else {
        printf(", NOT permitted: neither the page table nor an entry that the fences left gives this\n");
        not_permitted = 1;
    }
}

static void fence(uint64_t address) {
    printf("sfence.vma of %#" PRIx64 "\n", address);
    toy_fence(address);
    xv6vm_tlb_fence(entries, PLACES, 1, address, 0, 0);
}

int main(void) {
    memory[3 * 512] = (uint64_t)BASE_PPN << 10 | 0x53; /* V, R, U and A: a superpage of 1 GiB, from address 0 on */
    load(0x8);
    load(0x1008);
    printf("the leaf is removed\n");
    memory[3 * 512] = 0;
    load(0x8);
    fence(0x8);
    load(0x8);
    load(0x1008);
    return not_permitted;
}

/* Prints, and ends with status 1:
load from 0x8: physical address 0x80000008, permitted
load from 0x1008: physical address 0x80001008, permitted
the leaf is removed
load from 0x8: physical address 0x80000008, permitted
sfence.vma of 0x8
load from 0x8: page fault, cause 13, permitted
load from 0x1008: physical address 0x80001008, NOT permitted: neither the page table nor an entry that the fences left gives this
*/
