/* Random operations on TLBs of 0 to 8 places, over random page tables that change meanwhile, beside a plain row of entries. */
#include "check.h"
#include <stdio.h>
#include <string.h>

enum { ROWS = 40000, STEPS = 100, MOST_PLACES = 8 };

/* ---- the plain row: the newest entry is last, and an empty place is a hole */

struct plain_entry {
    int is_there;
    uint64_t page;
    uint16_t asid;
    int global;
    int has_leaf;
    uint64_t word;
    unsigned level;
};

static struct plain_entry row[MOST_PLACES];

static size_t places;

/* What a place of the caller's array says, by the header. */
static struct plain_entry said(struct xv6vm_entry place) {
    struct plain_entry entry = {0, 0, 0, 0, 0, 0, 0};
    if (place.kind != 2 && (place.kind != 1 || place.level > 3))
        return entry;
    entry.is_there = 1;
    entry.page = place.address >> 12;
    entry.asid = place.asid;
    entry.global = place.global != 0;
    if (place.kind == 1) {
        entry.has_leaf = 1;
        entry.word = place.word;
        entry.level = place.level;
    }
    return entry;
}

static int same_entry(const struct plain_entry *one, const struct plain_entry *other) {
    return one->is_there == other->is_there && one->page == other->page && one->asid == other->asid &&
           one->global == other->global && one->has_leaf == other->has_leaf && one->word == other->word &&
           one->level == other->level;
}

static int plain_matches(const struct plain_entry *entry, uint64_t address, uint16_t asid) {
    return entry->is_there && entry->page == address >> 12 && (entry->global || entry->asid == asid);
}

static size_t plain_match(size_t from, uint64_t address, uint16_t asid) {
    size_t n = from;
    while (n < places && !plain_matches(&row[n], address, asid))
        n++;
    return n < places ? n : places;
}

static struct xv6vm_outcome plain_answer(const struct plain_entry *entry, uint64_t address, uint32_t access, uint32_t mode) {
    enum why why;
    return entry->has_leaf ? plain_use(entry->word, entry->level, address, access, mode, &why) : plain_page_fault(access);
}

static int plain_covers(const struct plain_entry *entry, uint64_t address) {
    unsigned bits = 9 * entry->level;
    return !entry->has_leaf || entry->page >> bits == address >> 12 >> bits;
}

static int plain_is_fenced(const struct plain_entry *entry, uint32_t has_address, uint64_t address, uint32_t has_asid,
                           uint16_t asid) {
    return entry->is_there && (!has_address || plain_covers(entry, address)) &&
           (!has_asid || (entry->asid == asid && !entry->global));
}

/* ---- one random sequence */

static struct xv6vm_entry lent[MOST_PLACES + 2], *const tlb = lent + 1;

static struct memory memory;

static uint64_t satps[3], addresses[6];

/* What was seen. */
static unsigned long long fills[7], leaf_fills, no_leaf_fills, global_fills, full_fills, hole_fills, matches, no_matches, uses[7],
    stale_uses, evictions, fenced[2][2], kept, wide, no_leaf_wide, global_kept, now_permitted, cached_permitted, not_permitted,
    changes;

/* Picks one of the satps, and an address: often one that its walk was tried for, with any low bits. */
static uint64_t pick_satp(uint64_t *address) {
    size_t i = below(6);
    *address = addresses[i] ^ below(4096);
    return satps[one_in(4) ? below(3) : i % 3];
}

/* Picks a place, mostly one with an entry; of no places a hole. */
static const struct plain_entry *pick_place(void) {
    const struct plain_entry *entry = &row[0];
    for (int i = 0; i < 4 && places != 0; i++) {
        entry = &row[below(places)];
        if (entry->is_there)
            break;
    }
    return entry;
}

/* Picks an address and an ASID: often those of an entry. */
static uint16_t pick_asid(uint64_t *address) {
    const struct plain_entry *entry = pick_place();
    *address = (entry->is_there && !one_in(8) ? entry->page << 12 : addresses[below(6)]) ^ below(4096);
    return entry->is_there && !one_in(4) ? entry->asid : (uint16_t)below(4);
}

/* Compares all places, and looks whether anything beside them was written. */
static void compare(const char *after) {
    struct xv6vm_entry untouched;
    memset(&untouched, 0xa5, sizeof untouched);
    if (memcmp(lent, &untouched, sizeof untouched) != 0 || memcmp(tlb + places, &untouched, sizeof untouched) != 0)
        differs("%s wrote beside the places", after);
    for (size_t n = 0; n < places; n++) {
        struct plain_entry entry = said(tlb[n]);
        if (!same_entry(&entry, &row[n])) {
            differs("after %s place %zu of %zu differs", after, n, places);
            row[n] = entry;
        }
    }
}

/* An address with a leaf under a satp, if one of forty random ones has one. */
static uint64_t mapped_address(uint64_t satp) {
    uint64_t address = random_address(satp);
    for (int i = 0; i < 40 && plain_lookup(&memory, satp, address).status != XV6VM_LEAF; i++)
        address = random_address(satp);
    return address;
}

/* Any numbers are allowed in a place. But no walk finds a misaligned superpage, and the header does not say where one leads. */
static struct xv6vm_entry random_place_of_tlb(void) {
    struct xv6vm_entry place;
    place.address = addresses[below(6)];
    place.level = (uint32_t)below(one_in(2) ? 4 : 6);
    place.word = one_in(2) ? any_number() : random_entry(&memory);
    if (place.level < 4)
        place.word &= ~((((uint64_t)1 << 9 * place.level) - 1) << 10);
    place.asid = (uint16_t)below(4);
    place.global = (uint8_t)(one_in(2) ? 0 : any_number());
    place.kind = (uint8_t)(one_in(4) ? any_number() : below(4));
    return place;
}

static void begin(void) {
    memory = random_memory();
    places = below(MOST_PLACES + 1);
    memset(lent, 0, sizeof lent);
    memset(row, 0, sizeof row);
    memset(lent, 0xa5, sizeof *lent);
    memset(tlb + places, 0xa5, sizeof *tlb);
    for (int i = 0; i < 3; i++)
        satps[i] = random_satp(&memory);
    for (int i = 0; i < 6; i++)
        addresses[i] = i < 4 ? mapped_address(satps[i % 3]) : random_address(satps[i % 3]);
    if (one_in(4))
        for (size_t n = 0; n < places; n++) {
            tlb[n] = random_place_of_tlb();
            row[n] = said(tlb[n]);
        }
}

static void add(uint64_t satp, uint64_t address, struct xv6vm_leaf leaf) {
    struct plain_entry entry = {1, address >> 12, (uint16_t)(satp >> 44), leaf.global == 1, 0, leaf.word, leaf.level};
    entry.has_leaf = leaf.status == XV6VM_LEAF;
    leaf_fills += entry.has_leaf != 0;
    no_leaf_fills += !entry.has_leaf;
    global_fills += entry.global != 0;
    if (places == 0)
        return;
    size_t gap = 0;
    while (gap < places && row[gap].is_there)
        gap++;
    full_fills += gap == places;
    hole_fills += gap < places;
    gap = gap < places ? gap : 0;
    memmove(row + gap, row + gap + 1, (places - gap - 1) * sizeof *row);
    row[places - 1] = entry;
}

static void try_fill(void) {
    uint64_t address, satp = pick_satp(&address), unused;
    struct xv6vm_leaf leaf = plain_lookup(&memory, satp, address);
    uint32_t want = leaf.status == XV6VM_NO_LEAF ? XV6VM_LEAF : leaf.status;
    if (leaf.status == XV6VM_LEAF && !plain_read(&memory, leaf.address, &unused))
        want = XV6VM_ACCESS_FAULT;
    if (want == XV6VM_LEAF)
        add(satp, address, leaf);
    uint32_t got = CALL(tlb_fill)(tlb, places, memory.words, memory.count, memory.base_ppn, satp, address);
    fills[want]++;
    if (got != want)
        differs("a fill returns %" PRIu32 " in place of %" PRIu32, got, want);
    compare("a fill");
}

static void try_match(void) {
    size_t from = one_in(2) ? 0 : one_in(8) ? (size_t)any_number() : (size_t)below(MOST_PLACES + 2);
    uint64_t address;
    uint16_t asid = pick_asid(&address);
    size_t want = plain_match(from, address, asid), got = CALL(tlb_match)(tlb, places, from, address, asid);
    matches += want < places;
    no_matches += want == places;
    if (got != want)
        differs("the match from %zu on is %zu in place of %zu, of %zu places", from, got, want, places);
    compare("a match");
}

/* Whether a walk under one of the satps has this outcome now. */
static int is_walk_now(uint64_t address, uint32_t access, uint32_t mode, struct xv6vm_outcome outcome) {
    enum why why;
    for (int i = 0; i < 3; i++)
        if (same_outcome(plain_translate(&memory, satps[i], address, access, mode, &why), outcome))
            return 1;
    return 0;
}

static void try_use(void) {
    uint64_t address;
    uint16_t asid = pick_asid(&address);
    size_t n = one_in(2) ? plain_match(0, address, asid) : one_in(8) ? (size_t)any_number() : (size_t)below(MOST_PLACES + 2);
    uint32_t access = (uint32_t)below(one_in(32) ? 5 : 3), mode = (uint32_t)below(one_in(32) ? 4 : 2);
    struct xv6vm_outcome want = {XV6VM_NO_ENTRY, 0, 0, 0, 0}, got = CALL(tlb_use)(tlb, places, n, address, asid, access, mode);
    if (access > 2 || mode > 1) {
        want.status = XV6VM_UNKNOWN;
        want.cause = access > 2 ? 1 : 2;
    } else if (n < places && plain_matches(&row[n], address, asid)) {
        want = plain_answer(&row[n], address, access, mode);
        stale_uses += !is_walk_now(address, access, mode, want);
    }
    uses[want.status]++;
    if (!same_outcome(got, want))
        differs("the use of place %zu of %zu: %s in place of %s", n, places, outcome_text(got), outcome_text(want));
    compare("a use");
}

static void try_evict(void) {
    size_t n = one_in(8) ? (size_t)any_number() : (size_t)below(MOST_PLACES + 2);
    if (n < places) {
        evictions += row[n].is_there != 0;
        memset(&row[n], 0, sizeof row[n]);
    }
    CALL(tlb_evict)(tlb, places, n);
    compare("an eviction");
}

static void count_fenced(const struct plain_entry *entry, uint32_t has_address, uint64_t address, uint32_t has_asid,
                         int is_fenced) {
    if (!entry->is_there)
        return;
    fenced[has_address != 0][has_asid != 0] += is_fenced != 0;
    kept += !is_fenced;
    wide += is_fenced && has_address && entry->has_leaf && entry->page != address >> 12;
    no_leaf_wide += is_fenced && has_address && !entry->has_leaf && entry->page != address >> 12;
    global_kept += !is_fenced && has_asid && entry->global;
}

static void try_fence(void) {
    static const uint32_t FLAGS[4] = {0, 1, 2, UINT32_MAX};
    uint32_t has_address = FLAGS[one_in(4) ? 0 : below(4)], has_asid = FLAGS[one_in(2) ? 0 : below(4)];
    uint64_t address;
    uint16_t asid = pick_asid(&address);
    if (one_in(2))
        address ^= (uint64_t)1 << (12 + below(40));
    for (size_t n = 0; n < places; n++) {
        int is_fenced = plain_is_fenced(&row[n], has_address, address, has_asid, asid);
        count_fenced(&row[n], has_address, address, has_asid, is_fenced);
        if (is_fenced)
            memset(&row[n], 0, sizeof row[n]);
    }
    CALL(tlb_fence)(tlb, places, has_address, address, has_asid, asid);
    compare("a fence");
}

/* Whether an entry that matches gives this outcome. */
static int plain_is_cached(uint64_t satp, uint64_t address, uint32_t access, uint32_t mode, struct xv6vm_outcome outcome) {
    if ((satp >> 60 != 8 && satp >> 60 != 9) || access > 2 || mode > 1)
        return 0;
    for (size_t n = 0; n < places; n++)
        if (plain_matches(&row[n], address, (uint16_t)(satp >> 44)) &&
            same_outcome(plain_answer(&row[n], address, access, mode), outcome))
            return 1;
    return 0;
}

/* The outcome of the walk now, or of any entry; at times with another number. */
static struct xv6vm_outcome random_outcome(struct xv6vm_outcome now, uint64_t address, uint32_t access, uint32_t mode) {
    const struct plain_entry *entry = pick_place();
    struct xv6vm_outcome outcome = one_in(3) || access > 2 || mode > 1 ? now : plain_answer(entry, address, access, mode);
    if (one_in(6))
        outcome.address ^= (uint64_t)1 << below(56);
    if (one_in(12))
        outcome.word ^= (uint64_t)1 << below(64);
    if (one_in(12))
        outcome.level ^= 1u << below(2);
    if (one_in(12))
        outcome.cause ^= (uint64_t)1 << below(4);
    if (one_in(12))
        outcome.status = (uint32_t)below(8);
    return outcome;
}

static void try_permits(void) {
    uint64_t address, satp = random_satp(&memory);
    if (one_in(3))
        satp = pick_satp(&address);
    else
        satp = (satp & ~((uint64_t)0xffff << 44)) | (uint64_t)pick_asid(&address) << 44;
    uint32_t access = (uint32_t)below(one_in(32) ? 5 : 3), mode = (uint32_t)below(one_in(32) ? 4 : 2);
    enum why why;
    struct xv6vm_outcome now = plain_translate(&memory, satp, address, access, mode, &why);
    struct xv6vm_outcome outcome = random_outcome(now, address, access, mode);
    int is_now = same_outcome(outcome, now), is_cached = plain_is_cached(satp, address, access, mode, outcome);
    uint32_t got = CALL(permits)(tlb, places, memory.words, memory.count, memory.base_ppn, satp, address, access, mode, outcome);
    now_permitted += is_now != 0;
    cached_permitted += !is_now && is_cached;
    not_permitted += !is_now && !is_cached;
    if (got != (uint32_t)(is_now || is_cached))
        differs("permits is %" PRIu32 " for %s; satp %#" PRIx64 ", address %#" PRIx64 ", access %" PRIu32 ", mode %" PRIu32, got,
                outcome_text(outcome), satp, address, access, mode);
    compare("permits");
}

static void change_memory(void) {
    if (memory.count == 0)
        return;
    memory.words[random_place(&memory)] = random_entry(&memory);
    changes++;
}

static void step(void) {
    static void (*const STEPS_OF[16])(void) = {try_fill,  try_fill,    try_fill,    try_fill,     try_fill,  try_match,
                                               try_match, try_use,     try_use,     try_use,      try_evict, try_fence,
                                               try_fence, try_permits, try_permits, change_memory};
    STEPS_OF[below(16)]();
}

static void print_counts(void) {
    printf("random TLBs %d\n", ROWS);
    printf("random steps of TLBs %d\n", ROWS * STEPS);
    often("fills with a leaf", leaf_fills);
    often("fills that record no leaf", no_leaf_fills);
    often("fills with a global leaf", global_fills);
    often("fills of a TLB without an empty place", full_fills);
    often("fills of a TLB with an empty place", hole_fills);
    often("fills that end in an access fault", fills[XV6VM_ACCESS_FAULT]);
    often("fills with MODE 0", fills[XV6VM_BARE]);
    often("fills with a MODE without meaning", fills[XV6VM_UNKNOWN]);
    often("matches", matches);
    often("matches of no place", no_matches);
    often("uses that give a leaf", uses[XV6VM_LEAF]);
    often("uses that give a page fault", uses[XV6VM_PAGE_FAULT]);
    often("uses of no entry", uses[XV6VM_NO_ENTRY]);
    often("uses with an argument without meaning", uses[XV6VM_UNKNOWN]);
    often("uses of an entry that no walk gives now", stale_uses);
    often("evicted entries", evictions);
    often("entries fenced for all addresses and ASIDs", fenced[0][0]);
    often("entries fenced for an ASID", fenced[0][1]);
    often("entries fenced for an address", fenced[1][0]);
    often("entries fenced for an address and an ASID", fenced[1][1]);
    often("entries kept in a fence", kept);
    often("entries fenced for another page of their superpage", wide);
    often("entries of no leaf fenced for another page", no_leaf_wide);
    often("global entries kept in a fence for an ASID", global_kept);
    often("outcomes permitted by the walk", now_permitted);
    often("outcomes permitted by an entry alone", cached_permitted);
    often("outcomes not permitted", not_permitted);
    often("changes of page tables", changes);
}

int main(void) {
    for (int i = 0; i < ROWS; i++) {
        begin();
        for (int n = 0; n < STEPS; n++)
            step();
    }
    print_counts();
    return report();
}
