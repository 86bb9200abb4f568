/* Translates three accesses by a page table of Sv39 in an array. With a release:

     gcc examples/c/translate.c $(pkg-config --cflags --libs xv6vm) -o translate
     ./translate

   docs/C_LIBRARY.md says how in a clone. What it prints is at the end of this file. */
#include "xv6vm.h"
#include <inttypes.h>
#include <stdio.h>

/* Bits of a page table entry. */
enum { V = 1, R = 2, U = 16, A = 64 };

/* Four frames of physical memory, from 0x80000000 on: page tables of levels 2, 1 and 0, and a page. */
enum { BASE_PPN = 0x80000, FRAMES = 4 };

static uint64_t memory[FRAMES * 512];

static uint64_t entry(uint64_t frame, uint64_t flags) { return (BASE_PPN + frame) << 10 | flags; }

static void try_access(const char *name, uint32_t access, uint64_t address) {
    const uint64_t satp = (uint64_t)8 << 60 | BASE_PPN; /* MODE 8 is Sv39; the root is frame 0 */
    struct xv6vm_outcome outcome = xv6vm_translate(memory, FRAMES * 512, BASE_PPN, satp, address, access, XV6VM_USER);
    printf("%s of %#" PRIx64 ": ", name, address);
    if (outcome.status == XV6VM_LEAF)
        printf("leaf %#" PRIx64 " at level %" PRIu32 ", physical address %#" PRIx64 "\n", outcome.word, outcome.level,
               outcome.address);
    else
        printf("%s fault, cause %" PRIu64 "\n", outcome.status == XV6VM_PAGE_FAULT ? "page" : "access", outcome.cause);
}

int main(void) {
    memory[0] = entry(1, V);
    memory[512] = entry(2, V);
    memory[2 * 512 + 1] = entry(3, V | R | U | A); /* the page at 0x1000: user loads alone */
    memory[2 * 512 + 2] = entry(4, V | R | U | A); /* the page at 0x2000: its frame is past the memory */
    try_access("load", XV6VM_LOAD, 0x1234);
    try_access("store", XV6VM_STORE, 0x1234);
    try_access("load", XV6VM_LOAD, 0x2000);
    return 0;
}

/* Prints:
load of 0x1234: leaf 0x20000c53 at level 0, physical address 0x80003234
store of 0x1234: page fault, cause 15
load of 0x2000: access fault, cause 5
*/
