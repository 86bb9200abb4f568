/* Numbers for the tests of the C library: counts, differences, and random page tables. A program prints a line `NAME NUMBER` for
   each count, which checks/c_library adds up, and `differs: ..` for the first differences. */
#ifndef CHECK_H
#define CHECK_H

#include "plain.h"
#include <inttypes.h>

/* The calls of the library, by their names after `xv6vm_`. */
enum call { translate, lookup, tlb_fill, tlb_match, tlb_use, tlb_evict, tlb_fence, permits, CALLS };

extern unsigned long long called[CALLS];

/* CALL(translate)(words, ..) calls xv6vm_translate, and counts the call. */
#define CALL(name) (called[name]++, xv6vm_##name)

/* Counts and prints a difference. Of many, only the first ones are printed. */
#if defined(__GNUC__)
__attribute__((format(printf, 1, 2)))
#endif
void differs(const char *format, ...);

/* Demands that something was seen more than a thousand times. */
void often(const char *what, unsigned long long times);

/* Prints the counts. Returns the status for main: 1 if there was a difference. */
int report(void);

/* Prints the numbers of an outcome or of a leaf into a text that the next calls but seven overwrite. */
const char *outcome_text(struct xv6vm_outcome outcome);
const char *leaf_text(struct xv6vm_leaf leaf);

/* A random number, always of one sequence (xorshift64, from a fixed seed); one below a limit; whether one in `n` comes up. */
uint64_t any_number(void);
uint64_t below(uint64_t limit);
int one_in(uint64_t n);

/* At most this many frames of random page tables. */
enum { MOST_FRAMES = 10 };

/* Makes a memory of up to ten frames. Most entries are pointers to its frames or leaves of them; the rest have every fault that
   an entry can have. The words lie at one end of their pages, and the pages beside these cannot be read: a call that reads past
   that end ends the program. */
struct memory random_memory(void);

/* An entry for such a memory, and the place of a word that random walks often read. */
uint64_t random_entry(const struct memory *memory);
size_t random_place(const struct memory *memory);

/* A satp whose root is mostly a frame of the memory; an address of its scheme, mostly a canonical one. */
uint64_t random_satp(const struct memory *memory);
uint64_t random_address(uint64_t satp);

#endif
