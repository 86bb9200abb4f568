/* The walk of a page table, written from the standard alone (the RISC-V Privileged Architecture 20211203, 4.3.2), with which
   checks/c_library compares the library. The proofs know nothing of it. */
#ifndef PLAIN_H
#define PLAIN_H

#include "xv6vm.h"

/* Bits of a page table entry, 4.4.1. */
enum { V = 1, R = 2, W = 4, X = 8, U = 16, G = 32, A = 64, D = 128 };

/* The words of the frames from physical page number `base_ppn` on. */
struct memory {
    uint64_t *words;
    size_t count;
    uint64_t base_ppn;
};

/* Why a translation ends as it does. */
enum why {
    GIVES_LEAF,
    NO_TRANSLATION,
    BAD_ARGUMENT,
    TABLE_OUTSIDE,
    BYTE_OUTSIDE,
    NOT_CANONICAL,
    NOT_VALID,
    WRITE_WITHOUT_READ,
    RESERVED_BIT,
    RESERVED_IN_POINTER,
    POINTER_AT_LEVEL_0,
    MISALIGNED,
    WRONG_MODE,
    NO_RIGHT,
    NOT_ACCESSED,
    NOT_DIRTY,
    WHYS
};

/* Returns what xv6vm_translate must return, and in `why` the reason. */
struct xv6vm_outcome plain_translate(const struct memory *memory, uint64_t satp, uint64_t address, uint32_t access, uint32_t mode,
                                     enum why *why);

/* Returns what xv6vm_lookup must return. */
struct xv6vm_leaf plain_lookup(const struct memory *memory, uint64_t satp, uint64_t address);

/* Returns the outcome of an access by a leaf, with its rights; the byte at the physical address is not looked for. */
struct xv6vm_outcome plain_use(uint64_t word, unsigned level, uint64_t address, uint32_t access, uint32_t mode, enum why *why);

/* Reads the 8 bytes at a physical address. Returns whether they are in the memory. */
int plain_read(const struct memory *memory, uint64_t physical, uint64_t *word);

/* Returns a page fault of an access. */
struct xv6vm_outcome plain_page_fault(uint32_t access);

/* Returns whether all numbers are equal. */
int same_outcome(struct xv6vm_outcome one, struct xv6vm_outcome other);
int same_leaf(struct xv6vm_leaf one, struct xv6vm_leaf other);

#endif
