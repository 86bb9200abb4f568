/* Compares xv6vm_hart_outcomes and xv6vm_hart_judge with a plain hart that caches each page table entry that it may, of every word that memory
   had, and drops only what a fence covers (RISC-V Privileged Architecture 20211203, 4.2.1 and 4.3), over random histories of Sv39 with
   ASIDs, global entries, fences and satp writes. The numbers of the plain hart's outcomes and those of the library are the same sets. */
#include <stdio.h>
#include <stdlib.h>
#include <string.h>

#include "xv6vm.h"

enum { FRAMES = 6, WORDS = FRAMES * 512, MOST = 40, READS = 4000, OUTCOMES = 400, ROUNDS = 5000 };

static const uint64_t BASE_PPN = 0x80000;
static const uint64_t BASE = 0x80000000;

static uint64_t words[WORDS];
static uint64_t state = 12345;
static unsigned long differences, accesses, granted, refused, several, many;

static uint64_t random_below(uint64_t n) {
    state ^= state << 13;
    state ^= state >> 7;
    state ^= state << 17;
    return state % n;
}

/* ---- the plain history */

enum kind { STORE, SATP, FENCE };

struct plain_event {
    enum kind kind;
    uint64_t place, before, word; /* a store by the number of its word; of satp the word */
    int has_address, has_asid;
    uint64_t address, asid;
};

static struct plain_event past[MOST];
static int moments;
static uint64_t first_satp;

static uint64_t word_at(uint64_t place, int moment) {
    for (int i = moment; i > 0; i--)
        if (past[i - 1].kind == STORE && past[i - 1].place == place)
            return past[i - 1].word;
    for (int i = 0; i < moments; i++)
        if (past[i].kind == STORE && past[i].place == place)
            return past[i].before;
    return words[place];
}

static uint64_t satp_at(int moment) {
    for (int i = moment; i > 0; i--)
        if (past[i - 1].kind == SATP)
            return past[i - 1].word;
    return first_satp;
}

static int is_canonical(uint64_t address) {
    return address >> 38 == 0 || address >> 38 == (1 << 26) - 1;
}

/* ---- the plain hart */

enum entry { INVALID, POINTER, LEAF };

static enum entry kind_of(uint64_t word, int level) {
    if (!(word & 1) || (word & 6) == 4 || word >> 54)
        return INVALID;
    if (word & 10)
        return LEAF;
    return level == 0 || word & 0xd0 ? INVALID : POINTER;
}

struct read {
    int level, moment, global;
    uint64_t table, word, asid;
};

static struct read kept[READS];
static int kept_count;

/* the fence of number i covers a read of the word of a moment */
static int is_covered(int i, const struct read *r, uint64_t address) {
    const struct plain_event *e = &past[i - 1];
    if (e->kind != FENCE || (e->has_asid && (r->global || e->asid != r->asid)))
        return 0;
    if (!e->has_address)
        return 1;
    uint64_t satp = satp_at(i - 1);
    int bits = 12 + 9 * r->level;
    if ((satp >> 60 && !is_canonical(e->address)) || e->address >> bits != address >> bits)
        return 0;
    enum entry kind = kind_of(r->word, r->level);
    if (kind != INVALID)
        return kind == LEAF;
    uint64_t place = (r->table - BASE_PPN) * 512 + (address >> (12 + 9 * r->level)) % 512;
    for (int j = r->moment + 1; j < i; j++)
        if (past[j - 1].kind == STORE && past[j - 1].place == place && kind_of(past[j - 1].word, r->level) == LEAF)
            return 1;
    return 0;
}

static void keep(struct read r, int moment, uint64_t address) {
    for (int i = r.moment + 1; i <= moment; i++)
        if (is_covered(i, &r, address))
            return;
    for (int i = 0; i < kept_count; i++)
        if (kept[i].level == r.level && kept[i].moment == r.moment && kept[i].global == r.global && kept[i].table == r.table &&
            kept[i].word == r.word && kept[i].asid == r.asid)
            return;
    if (kept_count == READS)
        abort();
    kept[kept_count++] = r;
}

static int is_memory(uint64_t ppn) {
    return ppn >= BASE_PPN && ppn < BASE_PPN + FRAMES;
}

static void read_table(int level, uint64_t table, uint64_t asid, int global, int moment, uint64_t address) {
    if (!is_memory(table))
        return;
    uint64_t place = (table - BASE_PPN) * 512 + (address >> (12 + 9 * level)) % 512;
    for (int t = 0; t <= moment; t++) {
        uint64_t word = word_at(place, t);
        keep((struct read){level, t, global || ((word & 1) && (word & 0x20)), table, word, asid}, moment, address);
    }
}

/* which tables the walk may be at, at a moment: by the root, or by a pointer that is kept; `stand` takes each */
static void stands(int moment, uint64_t address, void (*stand)(int, uint64_t, uint64_t, int, int, uint64_t)) {
    uint64_t satp = satp_at(moment), asid = satp >> 44 & 0xffff;
    if (satp >> 60 != 8 || !is_canonical(address))
        return;
    stand(2, satp & (((uint64_t)1 << 44) - 1), asid, 0, moment, address);
    for (int level = 2; level > 0; level--)
        for (int i = 0; i < kept_count; i++) {
            struct read r = kept[i];
            if (r.level == level && kind_of(r.word, level) == POINTER && (r.asid == asid || r.global))
                stand(level - 1, r.word >> 10 & (((uint64_t)1 << 44) - 1), asid, r.global, moment, address);
        }
}

static struct xv6vm_judged found[OUTCOMES], listed[OUTCOMES];
static int found_count;

static void add(struct xv6vm_judged o) {
    for (int i = 0; i < found_count; i++)
        if (memcmp(&found[i], &o, sizeof o) == 0)
            return;
    found[found_count++] = o;
}

static void refuse(uint64_t cause) {
    struct xv6vm_judged o = {XV6VM_REFUSED, 0, 0, 0, 0, 0, 0, 0};
    o.cause = cause;
    add(o);
}

static const struct xv6vm_access *asked;
static const uint64_t page_faults[3] = {12, 13, 15}, access_faults[3] = {1, 5, 7};

static void unread(int level, uint64_t table, uint64_t asid, int global, int moment, uint64_t address) {
    (void)level, (void)asid, (void)global, (void)moment, (void)address;
    if (!is_memory(table))
        refuse(access_faults[asked->access]);
}

static void says(const struct read *r, int svade, int svadu) {
    uint64_t needs = asked->access == XV6VM_STORE ? 0xc0 : 0x40, ppn = r->word >> 10 & (((uint64_t)1 << 44) - 1);
    uint64_t right = asked->access == XV6VM_FETCH ? 8 : asked->access == XV6VM_LOAD ? 2 : 4;
    int user = (r->word & 0x10) != 0;
    struct xv6vm_judged o = {XV6VM_GRANTED, 0, 0, 0, 0, 0, 0, 0};
    if (kind_of(r->word, r->level) != LEAF || !(r->word & right) || user != (asked->mode == XV6VM_USER) ||
        ppn % ((uint64_t)1 << 9 * r->level)) {
        refuse(page_faults[asked->access]);
        return;
    }
    if ((r->word & needs) != needs) {
        uint64_t index = (asked->address >> (12 + 9 * r->level)) % 512;
        if (svade)
            refuse(page_faults[asked->access]);
        if (!svadu || word_at((r->table - BASE_PPN) * 512 + index, moments) != r->word)
            return;
        o.updates = 1, o.table = r->table, o.index = index, o.word = r->word | needs;
    }
    o.address = (ppn << 12) + asked->address % ((uint64_t)1 << (12 + 9 * r->level));
    if (is_memory(o.address >> 12)) {
        add(o);
        return;
    }
    o.status = XV6VM_REFUSED, o.cause = access_faults[asked->access], o.address = 0;
    add(o);
    refuse(o.cause);
}

static void plain_outcomes(int svade, int svadu) {
    uint64_t satp = satp_at(moments), asid = satp >> 44 & 0xffff, address = asked->address;
    found_count = 0;
    kept_count = 0;
    if (satp >> 60 == 0) {
        struct xv6vm_judged o = {XV6VM_GRANTED, 0, 0, 0, 0, 0, 0, 0};
        o.address = address;
        if (is_memory(address >> 12))
            add(o);
        else
            refuse(access_faults[asked->access]);
        return;
    }
    if (!is_canonical(address)) {
        refuse(page_faults[asked->access]);
        return;
    }
    for (int moment = 0; moment <= moments; moment++) {
        int left = 0;
        for (int i = 0; moment > 0 && i < kept_count; i++)
            if (!is_covered(moment, &kept[i], address))
                kept[left++] = kept[i];
        kept_count = left;
        stands(moment, address, read_table);
    }
    for (int i = 0; i < kept_count; i++)
        if (kind_of(kept[i].word, kept[i].level) != POINTER && (kept[i].asid == asid || kept[i].global))
            says(&kept[i], svade, svadu);
    stands(moments, address, unread);
}

/* ---- random histories */

/* half of the entries are pointers, and most others leaves with all rights */
static uint64_t random_entry(void) {
    uint64_t flags = 0xcf | (random_below(2) ? 0x10 : 0), ppn = BASE_PPN + random_below(FRAMES + (random_below(8) == 0));
    if (random_below(2))
        flags = 1;
    else if (random_below(3) == 0)
        flags ^= random_below(256);
    if (random_below(3) == 0)
        ppn = BASE_PPN;
    return ppn << 10 | flags | (random_below(6) == 0 ? 0x20 : 0);
}

static uint64_t random_address(void) {
    uint64_t address = random_below(2) << 30 | random_below(2) << 21 | random_below(2) << 12 | 8 * random_below(4);
    return random_below(40) == 0 ? address | (uint64_t)1 << 45 : address;
}

static uint64_t random_satp(void) {
    return random_below(8) == 0 ? 0 : (uint64_t)8 << 60 | random_below(2) << 44 | (BASE_PPN + random_below(2));
}

static uint64_t random_place(void) {
    return random_below(FRAMES) * 512 + random_below(2);
}

static struct xv6vm_hart hart;
static struct xv6vm_event events[MOST];

static void expect(uint64_t is, uint64_t wanted, const char *what) {
    if (is != wanted && differences++ < 10)
        printf("differs: %s is %llu, not %llu\n", what, (unsigned long long)is, (unsigned long long)wanted);
}

static void happen(void) {
    struct plain_event e = {STORE, 0, 0, 0, 0, 0, 0, 0};
    uint64_t choice = random_below(10);
    if (choice < 6) {
        e.place = random_place(), e.before = words[e.place], e.word = random_entry();
        words[e.place] = e.word;
        expect(xv6vm_hart_mem(&hart, events, MOST, BASE + 8 * e.place, e.before, e.word), 0, "mem");
    } else if (choice < 8) {
        e.kind = SATP, e.word = random_satp();
        expect(xv6vm_hart_satp(&hart, events, MOST, e.word), 0, "satp");
    } else {
        e.kind = FENCE, e.has_address = random_below(3) != 0, e.has_asid = !e.has_address || random_below(2);
        e.address = random_address(), e.asid = random_below(2);
        expect(xv6vm_hart_fence(&hart, events, MOST, (uint32_t)e.has_address, e.address, (uint32_t)e.has_asid, (uint16_t)e.asid), 0, "fence");
    }
    past[moments++] = e;
}

static int has(const struct xv6vm_judged *outcomes, size_t count, const struct xv6vm_judged *o) {
    for (size_t i = 0; i < count; i++)
        if (memcmp(&outcomes[i], o, sizeof *o) == 0)
            return 1;
    return 0;
}

static void compare(int svade, int svadu) {
    struct xv6vm_access access = {random_address(), 8, (uint32_t)random_below(3), (uint32_t)random_below(2)};
    size_t count = 0;
    asked = &access;
    plain_outcomes(svade, svadu);
    expect(xv6vm_hart_outcomes(&hart, events, MOST, words, WORDS, BASE_PPN, &access, listed, OUTCOMES, &count), 0, "outcomes");
    expect(count, (uint64_t)found_count, "the number of outcomes");
    for (int i = 0; i < found_count; i++) {
        expect((uint64_t)has(listed, count, &found[i]), 1, "an outcome of the plain hart is listed");
        expect(xv6vm_hart_judge(&hart, events, MOST, words, WORDS, BASE_PPN, &access, &found[i]), 1, "an outcome of the plain hart");
        struct xv6vm_judged other = found[i];
        other.status == XV6VM_GRANTED ? (other.address ^= 0x1000) : (other.cause ^= 1);
        expect(xv6vm_hart_judge(&hart, events, MOST, words, WORDS, BASE_PPN, &access, &other), (uint64_t)has(found, (size_t)found_count, &other),
               "another outcome");
        found[i].status == XV6VM_GRANTED ? granted++ : refused++;
    }
    accesses++;
    several += found_count > 1;
    many += found_count > 2;
}

int main(void) {
    for (int round = 0; round < ROUNDS; round++) {
        int svade = round % 3 != 1, svadu = round % 3 != 0;
        xv6vm_hart_begin(&hart, XV6VM_SV39 | (svade ? XV6VM_SVADE : 0) | (svadu ? XV6VM_SVADU : 0), 16, 0);
        for (int i = 0; i < FRAMES; i++)
            words[i * 512] = random_entry(), words[i * 512 + 1] = random_entry();
        first_satp = random_satp();
        moments = 0;
        expect(xv6vm_hart_satp(&hart, events, MOST, first_satp), 0, "satp");
        expect(xv6vm_hart_fence(&hart, events, MOST, 0, 0, 0, 0), 0, "fence of everything");
        while (moments < MOST / 2) {
            happen();
            compare(svade, svadu);
        }
    }
    printf("random histories %d\n", ROUNDS);
    printf("accesses judged by history %lu\n", accesses);
    printf("outcomes granted by history %lu\n", granted);
    printf("outcomes refused by history %lu\n", refused);
    printf("accesses with two outcomes %lu\n", several - many);
    printf("accesses with more outcomes %lu\n", many);
    if (granted < 1000 || refused < 1000 || several < 1000 || many < 1000) {
        printf("differs: some kind of outcome came less than a thousand times\n");
        differences++;
    }
    printf("differences %lu\n", differences);
    return differences != 0;
}
