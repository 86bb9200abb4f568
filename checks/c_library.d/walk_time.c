/* Measures xv6vm_translate beside the plain walk: the best of ten rounds of a million calls each, in turn, over random addresses
   of 1,000 pages that are all in memory. Both must find the same; the library may take half as long again as the plain walk. */
#define _DEFAULT_SOURCE
#include "check.h"
#include <stdio.h>
#include <time.h>

enum { ROUNDS = 10, CALLS_OF_ROUND = 1000000, ADDRESSES = 1 << 16, PAGES = 1000, FRAMES = 1024 };

static uint64_t words[FRAMES * 512], addresses[ADDRESSES];

static struct memory memory = {words, FRAMES * 512, 0x80000};

static uint64_t entry(uint64_t frame, uint64_t flags) { return (memory.base_ppn + frame) << 10 | flags; }

/* Tables of four levels in frames 0 to 4, and pages in the frames from 5 on. */
static void map_pages(void) {
    words[0] = entry(1, V);
    words[1 * 512] = entry(2, V);
    words[2 * 512] = entry(3, V);
    words[2 * 512 + 1] = entry(4, V);
    for (uint64_t page = 0; page < PAGES; page++)
        words[3 * 512 + page] = entry(5 + page, V | R | W | U | A | D);
    for (int i = 0; i < ADDRESSES; i++)
        addresses[i] = below(PAGES) << 12 | below(4096);
}

static double now(void) {
    struct timespec time;
    clock_gettime(CLOCK_PROCESS_CPUTIME_ID, &time);
    return (double)time.tv_sec * 1e9 + (double)time.tv_nsec;
}

static double time_library(uint64_t satp, uint64_t *sum) {
    double start = now();
    for (int i = 0; i < CALLS_OF_ROUND; i++)
        *sum +=
            CALL(translate)(words, memory.count, memory.base_ppn, satp, addresses[i % ADDRESSES], XV6VM_LOAD, XV6VM_USER).address;
    return (now() - start) / CALLS_OF_ROUND;
}

static double time_plain(uint64_t satp, uint64_t *sum) {
    enum why why;
    double start = now();
    for (int i = 0; i < CALLS_OF_ROUND; i++)
        *sum += plain_translate(&memory, satp, addresses[i % ADDRESSES], XV6VM_LOAD, XV6VM_USER, &why).address;
    return (now() - start) / CALLS_OF_ROUND;
}

static void measure(const char *scheme, uint64_t satp) {
    uint64_t sum = 0, plain_sum = 0;
    double best = 1e9, plain_best = 1e9;
    for (int round = 0; round < ROUNDS; round++) {
        double time = time_library(satp, &sum), plain_time = time_plain(satp, &plain_sum);
        best = time < best ? time : best;
        plain_best = plain_time < plain_best ? plain_time : plain_best;
    }
    printf("%s: xv6vm_translate %.1f ns, plain walk %.1f ns, ratio %.2f\n", scheme, best, plain_best, best / plain_best);
    if (sum != plain_sum)
        differs("%s: the sums of the addresses", scheme);
    if (best > 1.5 * plain_best)
        differs("%s: the library takes more than half as long again", scheme);
}

int main(void) {
    map_pages();
    measure("Sv39", (uint64_t)8 << 60 | (memory.base_ppn + 1));
    measure("Sv48", (uint64_t)9 << 60 | memory.base_ppn);
    return report();
}
