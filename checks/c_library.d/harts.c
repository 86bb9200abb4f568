/* The calls over a hart's history, by hand: what each must return is written here as numbers. Also on bytes that no call wrote. */
#include "xv6vm.h"
#include <assert.h>
#include <stdio.h>
#include <string.h>

static_assert(sizeof(struct xv6vm_event) == 32, "struct xv6vm_event");
static_assert(sizeof(struct xv6vm_hart) == 1064 && offsetof(struct xv6vm_hart, pmp) == 40, "struct xv6vm_hart");
static_assert(sizeof(struct xv6vm_access) == 24 && offsetof(struct xv6vm_access, mode) == 20, "struct xv6vm_access");
static_assert(sizeof(struct xv6vm_judged) == 56 && offsetof(struct xv6vm_judged, word) == 48, "struct xv6vm_judged");

enum { FRAMES = 4, WORDS = FRAMES * 512, PLACES = 8 };

static uint64_t words[WORDS];
static struct xv6vm_hart hart;
static struct xv6vm_event events[PLACES];
static unsigned long calls, differences;

static const uint64_t BASE_PPN = 0x80000, SATP = 0x8000700000080000, DATA = 0x20000cd7;

static void expect(const char *what, uint64_t is, uint64_t wanted) {
    calls++;
    if (is != wanted) {
        differences++;
        printf("differs: %s: 0x%llx, not 0x%llx\n", what, (unsigned long long)is, (unsigned long long)wanted);
    }
}

static struct xv6vm_access access_to(uint64_t address, uint32_t access, uint32_t mode) {
    struct xv6vm_access it = {address, 8, access, mode};
    return it;
}

static struct xv6vm_judged granted(uint64_t address) {
    struct xv6vm_judged it = {XV6VM_GRANTED, 0, address, 0, 0, 0, 0, 0};
    return it;
}

static struct xv6vm_judged fault(uint64_t cause) {
    struct xv6vm_judged it = {XV6VM_REFUSED, 0, 0, cause, 0, 0, 0, 0};
    return it;
}

static uint32_t judge(struct xv6vm_access access, struct xv6vm_judged outcome) {
    return xv6vm_hart_judge(&hart, events, PLACES, words, WORDS, BASE_PPN, &access, &outcome);
}

static size_t list(struct xv6vm_access access, struct xv6vm_judged *found, size_t places) {
    size_t listed = 999;
    expect("outcomes", xv6vm_hart_outcomes(&hart, events, PLACES, words, WORDS, BASE_PPN, &access, found, places, &listed), 0);
    return listed;
}

/* Sv39 by tables in the frames 0, 1 and 2; page 0 is frame 3, and all events are forgotten. */
static void begin(uint32_t profile, uint32_t pmp_count) {
    memset(words, 0, sizeof words);
    words[0] = 0x20000401;
    words[512] = 0x20000801;
    words[1024] = DATA;
    xv6vm_hart_begin(&hart, profile, 16, pmp_count);
    expect("satp", xv6vm_hart_satp(&hart, events, PLACES, SATP), 0);
    expect("fence of everything", xv6vm_hart_fence(&hart, events, PLACES, 0, 0, 0, 0), 0);
    expect("the events are dropped", hart.count, 0);
    expect("satp is kept", hart.satp, SATP);
}

static void store(uint64_t place, uint64_t word) {
    expect("mem", xv6vm_hart_mem(&hart, events, PLACES, 0x80000000 + 8 * place, words[place], word), 0);
    words[place] = word;
}

static void stale_leaves(void) {
    struct xv6vm_judged found[3];
    begin(XV6VM_SV39 | XV6VM_SVADE, 0);
    struct xv6vm_access load = access_to(8, XV6VM_LOAD, XV6VM_USER);
    expect("the walk", judge(load, granted(0x80003008)), 1);
    expect("a page fault", judge(load, fault(13)), 0);
    store(1024, 0);
    expect("a stale leaf", judge(load, granted(0x80003008)), 1);
    expect("the walk now", judge(load, fault(13)), 1);
    expect("another page", judge(load, granted(0x80002008)), 0);
    expect("outcomes", list(load, found, 3), 2);
    expect("the walk first", found[0].status == XV6VM_REFUSED && found[0].cause == 13, 1);
    expect("then the leaf", found[1].status == XV6VM_GRANTED && found[1].address == 0x80003008, 1);
    expect("outcomes beyond the places", list(load, found, 1), 2);
    expect("outcomes without places", list(load, found, 0), 1);
    expect("fence of another page", xv6vm_hart_fence(&hart, events, PLACES, 1, 0x1000, 0, 0), 0);
    expect("a leaf that no fence covered", judge(load, granted(0x80003008)), 1);
    expect("fence of another ASID", xv6vm_hart_fence(&hart, events, PLACES, 0, 0, 1, 6), 0);
    expect("a leaf of this ASID", judge(load, granted(0x80003008)), 1);
    expect("fence of the page", xv6vm_hart_fence(&hart, events, PLACES, 1, 0, 0, 0), 0);
    expect("a leaf that a fence covered", judge(load, granted(0x80003008)), 0);
    expect("the walk", judge(load, fault(13)), 1);
}

static void statuses(void) {
    begin(XV6VM_SV39 | XV6VM_SVADE, 0);
    struct xv6vm_access super = access_to(0, XV6VM_LOAD, XV6VM_SUPERVISOR), machine = access_to(0, XV6VM_LOAD, XV6VM_MACHINE);
    expect("without SUM", judge(super, fault(13)), 1);
    xv6vm_hart_status(&hart, (uint64_t)1 << 18);
    expect("with SUM", judge(super, granted(0x80003000)), 1);
    expect("in M-mode the address is physical", judge(machine, fault(5)), 1);
    xv6vm_hart_status(&hart, (uint64_t)1 << 17);
    expect("with MPRV and MPP 0", judge(machine, granted(0x80003000)), 1);
}

static void updates(void) {
    begin(XV6VM_SV39 | XV6VM_SVADU, 0);
    words[1024] = 0x20000c57; /* without D */
    struct xv6vm_access storing = access_to(0, XV6VM_STORE, XV6VM_USER);
    struct xv6vm_judged updated = granted(0x80003000);
    updated.updates = 1, updated.table = 0x80002, updated.index = 0, updated.word = DATA;
    expect("an update of D", judge(storing, updated), 1);
    expect("no update of D", judge(storing, granted(0x80003000)), 0);
    expect("no fault", judge(storing, fault(15)), 0);
}

static void protection(void) {
    begin(XV6VM_SV39 | XV6VM_SVADE, 16);
    struct xv6vm_access load = access_to(0, XV6VM_LOAD, XV6VM_USER);
    expect("all entries OFF", judge(load, fault(5)), 1);
    expect("pmp", xv6vm_hart_pmp(&hart, events, PLACES, 0, 0x1f, (uint64_t)-1), 0);
    expect("refused as before", judge(load, fault(5)), 1);
    expect("granted now", judge(load, granted(0x80003000)), 1);
    expect("fence of everything", xv6vm_hart_fence(&hart, events, PLACES, 0, 0, 0, 0), 0);
    expect("no longer refused", judge(load, fault(5)), 0);
    expect("an entry that is not there", xv6vm_hart_pmp(&hart, events, PLACES, 16, 0, 0), 0);
    expect("changes nothing", judge(load, fault(5)), 0);
    expect("the first entry is kept", hart.pmp[0].config == 0x1f && hart.pmp[0].address == (uint64_t)-1, 1);
}

static void limits(void) {
    begin(XV6VM_SV39, 0);
    expect("Sv48 is not there", xv6vm_hart_satp(&hart, events, PLACES, 0x9000000000080000), XV6VM_UNKNOWN);
    expect("MODE 0 with a root", xv6vm_hart_satp(&hart, events, PLACES, 0x80000), XV6VM_UNKNOWN);
    expect("no event", hart.count, 0);
    for (int i = 0; i < PLACES; i++)
        store(1024, DATA + 0x400 * (uint64_t)(i % 2));
    expect("full", xv6vm_hart_mem(&hart, events, PLACES, 0x80000000, 0, 0), XV6VM_FULL);
    expect("full", xv6vm_hart_satp(&hart, events, PLACES, SATP), XV6VM_FULL);
    expect("full", xv6vm_hart_pmp(&hart, events, PLACES, 0, 0, 0), XV6VM_FULL);
    expect("full", xv6vm_hart_fence(&hart, events, PLACES, 1, 0, 0, 0), XV6VM_FULL);
    expect("never full", xv6vm_hart_fence(&hart, events, PLACES, 0, 0, 0, 0), 0);
    struct xv6vm_access load = access_to(0, XV6VM_LOAD, XV6VM_USER);
    load.width = 3;
    expect("a width of 3", judge(load, fault(13)), XV6VM_UNKNOWN);
    load.width = 8, load.mode = 2;
    expect("mode 2", judge(load, fault(13)), XV6VM_UNKNOWN);
    load.mode = XV6VM_USER;
    struct xv6vm_judged odd = fault(13);
    odd.status = 2;
    expect("an outcome of status 2", judge(load, odd), XV6VM_UNKNOWN);
    load.address = 1;
    expect("misaligned", judge(load, fault(4)), 1);
    xv6vm_hart_begin(&hart, XV6VM_SV39, 4, 0);
    expect("an ASID of 4 bits", xv6vm_hart_satp(&hart, events, PLACES, 0x8012300000080000), 0);
    expect("an ASID of 4 bits", events[0].value, 0x8000300000080000);
}

/* any bytes are a hart and its events */
static void bytes(void) {
    uint64_t state = 1;
    struct xv6vm_judged found[4];
    for (int round = 0; round < 20000; round++) {
        unsigned char *to[2] = {(unsigned char *)&hart, (unsigned char *)events};
        size_t sizes[2] = {sizeof hart, sizeof events};
        for (int k = 0; k < 2; k++)
            for (size_t i = 0; i < sizes[k]; i++) {
                state = state * 6364136223846793005u + 1442695040888963407u;
                to[k][i] = (unsigned char)(i % 8 && round % 2 ? 0 : state >> 33);
            }
        struct xv6vm_access access = access_to(8 * (state >> 60), (uint32_t)(state >> 20) % 3, (uint32_t)(state >> 30) % 2);
        size_t listed = list(access, found, 4);
        for (size_t i = 0; i < listed && i < 4; i++)
            expect("what is listed is permitted", judge(access, found[i]), 1);
    }
}

int main(void) {
    stale_leaves();
    statuses();
    updates();
    protection();
    limits();
    bytes();
    printf("answers of calls by history compared %lu\n", calls);
    printf("differences %lu\n", differences);
    return differences != 0;
}
