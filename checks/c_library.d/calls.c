/* Every call of the library, on page tables and TLBs written by hand: what it must return is written here as numbers. */
#include "check.h"
#include <assert.h>
#include <stdio.h>
#include <string.h>

static_assert(sizeof(struct xv6vm_outcome) == 32 && offsetof(struct xv6vm_outcome, cause) == 24, "struct xv6vm_outcome");
static_assert(sizeof(struct xv6vm_leaf) == 32 && offsetof(struct xv6vm_leaf, global) == 24, "struct xv6vm_leaf");
static_assert(sizeof(struct xv6vm_entry) == 24 && offsetof(struct xv6vm_entry, kind) == 23, "struct xv6vm_entry");

/* The memory: 1,024 frames from 0x80000000 on. The page tables of level 0, 1, 2 and 3 are in frames 4, 2, 1 and 3. Word 0 of
   each points to the table one level below; word 1 is the entry under test. Sv39 begins at level 2, Sv48 at level 3. */
static uint64_t words[1024 * 512];

static const size_t COUNT = 1024 * 512;

static const uint64_t BASE = 0x80000, SV39 = 0x8000700000080001, SV48 = 0x9000700000080003;

static const size_t TABLES[4] = {4, 2, 1, 3};

static const uint32_t FETCH = XV6VM_FETCH, LOAD = XV6VM_LOAD, STORE = XV6VM_STORE, USER = XV6VM_USER, SUPER = XV6VM_SUPERVISOR;

static const uint64_t PAGE_FAULTS[3] = {12, 13, 15}, ACCESS_FAULTS[3] = {1, 5, 7};

/* A leaf of the frame at 0x80200000 for user loads and stores, with A and D. */
static const uint64_t DATA = 0x200800d7;

static void tables(void) {
    memset(words, 0, sizeof words);
    words[3 * 512] = 0x20000401;
    words[1 * 512] = 0x20000801;
    words[2 * 512] = 0x20001001;
}

static uint64_t *entry_of(unsigned level) { return &words[TABLES[level] * 512 + 1]; }

static uint64_t address_of(unsigned level) { return (uint64_t)1 << (12 + 9 * level); }

/* ---- comparisons */

#define SAME(got, want) same_at(__LINE__, got, want)
#define EQUAL(got, want) equal_at(__LINE__, got, want)

static void same_at(int line, struct xv6vm_outcome got, struct xv6vm_outcome want) {
    if (!same_outcome(got, want))
        differs("calls.c:%d: %s in place of %s", line, outcome_text(got), outcome_text(want));
}

static void equal_at(int line, uint64_t got, uint64_t want) {
    if (got != want)
        differs("calls.c:%d: %#" PRIx64 " in place of %#" PRIx64, line, got, want);
}

static struct xv6vm_outcome ends(uint32_t status, uint64_t cause) {
    struct xv6vm_outcome outcome = {status, 0, 0, 0, cause};
    return outcome;
}

static struct xv6vm_outcome leaf(unsigned level, uint64_t word, uint64_t address) {
    struct xv6vm_outcome outcome = {XV6VM_LEAF, level, word, address, 0};
    return outcome;
}

static struct xv6vm_outcome walk(uint64_t satp, uint64_t address, uint32_t access, uint32_t mode) {
    return CALL(translate)(words, COUNT, BASE, satp, address, access, mode);
}

/* ---- walks */

struct row {
    unsigned level;
    uint64_t word;
    uint32_t access;
    uint64_t address;
    uint32_t mode;
    struct xv6vm_outcome outcome;
};

#define LEAF(level, word, address) {XV6VM_LEAF, level, word, address, 0}
#define PAGE_FAULT(cause) {XV6VM_PAGE_FAULT, 0, 0, 0, cause}
#define ACCESS_FAULT(cause) {XV6VM_ACCESS_FAULT, 0, 0, 0, cause}

static const struct row ROWS[] = {
    /* a page: any frame, the address's low 12 bits */
    {0, 0x200800d7, LOAD, 0x1567, USER, LEAF(0, 0x200800d7, 0x80200567)},
    {0, 0x200804d7, STORE, 0x1567, USER, LEAF(0, 0x200804d7, 0x80201567)},
    {0, 0x20080059, FETCH, 0x1002, USER, LEAF(0, 0x20080059, 0x80200002)},
    {0, 0x20080059, LOAD, 0x1000, USER, PAGE_FAULT(13)},
    /* a superpage of 2 MiB */
    {1, 0x200800d7, LOAD, 0x234567, USER, LEAF(1, 0x200800d7, 0x80234567)},
    {1, 0x200804d7, LOAD, 0x234567, USER, PAGE_FAULT(13)},
    {1, 0x00400000200800d7, LOAD, 0x234567, USER, PAGE_FAULT(13)},
    {1, 0x200800d7, FETCH, 0x200000, USER, PAGE_FAULT(12)},
    {1, 0x20080057, STORE, 0x200000, USER, PAGE_FAULT(15)},
    {1, 0x20080057, LOAD, 0x200000, USER, LEAF(1, 0x20080057, 0x80200000)},
    {1, 0x20080097, LOAD, 0x200000, USER, PAGE_FAULT(13)},
    {1, 0x200800c7, LOAD, 0x200000, USER, PAGE_FAULT(13)},
    {1, 0x200800c7, LOAD, 0x200000, SUPER, LEAF(1, 0x200800c7, 0x80200000)},
    {1, 0x200800d7, LOAD, 0x200000, SUPER, PAGE_FAULT(13)},
    {1, 0x200800d5, LOAD, 0x200000, USER, PAGE_FAULT(13)},
    {1, 0x20000c41, LOAD, 0x200000, USER, PAGE_FAULT(13)},
    {1, 0x00000001, STORE, 0x200000, USER, ACCESS_FAULT(7)},
    {1, 0x000000d7, LOAD, 0x200000, USER, ACCESS_FAULT(5)},
    /* rights are judged before the byte at the physical address is looked for */
    {1, 0x000000c7, LOAD, 0x200000, USER, PAGE_FAULT(13)},
    /* a pointer at level 0: in a table of level 1 that points to itself, and in one of level 0 */
    {1, 0x20000801, LOAD, 0x200000, USER, PAGE_FAULT(13)},
    {0, 0x20001001, LOAD, 0x1000, USER, PAGE_FAULT(13)},
    /* a superpage of 1 GiB */
    {2, 0x200000d7, LOAD, 0x40234567, USER, LEAF(2, 0x200000d7, 0x80234567)},
    {2, 0x200000d7, LOAD, 0x40400000, USER, ACCESS_FAULT(5)},
    {2, 0x200000df, FETCH, 0x7fffffff, USER, ACCESS_FAULT(1)},
    {2, 0x200800d7, LOAD, 0x40000000, USER, PAGE_FAULT(13)},
    {2, 0x200004d7, STORE, 0x40000000, USER, PAGE_FAULT(15)},
    /* a superpage of 512 GiB, which only Sv48 has */
    {3, 0x000000d7, LOAD, 0x8080234567, USER, LEAF(3, 0x000000d7, 0x80234567)},
    {3, 0x000000d7, STORE, 0x8000234567, USER, ACCESS_FAULT(7)},
    {3, 0x200000d7, LOAD, 0x8000000000, USER, PAGE_FAULT(13)},
    /* bits 9 and 8 are software's */
    {1, 0x200803d7, LOAD, 0x200000, USER, LEAF(1, 0x200803d7, 0x80200000)},
};

static void try_rows(void) {
    for (const struct row *row = ROWS; row < ROWS + sizeof ROWS / sizeof *ROWS; row++) {
        tables();
        *entry_of(row->level) = row->word;
        SAME(walk(SV48, row->address, row->access, row->mode), row->outcome);
        if (row->level < 3)
            SAME(walk(SV39, row->address, row->access, row->mode), row->outcome);
    }
}

/* Walks to the entry under test at a level, with each access: the outcome must be a fault. */
static void faults(unsigned level, uint64_t word, uint32_t mode, uint32_t status, const uint64_t *causes) {
    *entry_of(level) = word;
    for (uint32_t access = 0; access < 3; access++) {
        SAME(walk(SV48, address_of(level), access, mode), ends(status, causes[access]));
        if (level < 3)
            SAME(walk(SV39, address_of(level), access, mode), ends(status, causes[access]));
    }
}

/* Words that are no leaf and no pointer to a table in memory, at each level. With one bit less each would lead to a leaf. */
static void try_bad_entries(void) {
    static const uint64_t OUTSIDE[3] = {0x7ffff, 0x80400, 0xfffffffffff};
    tables();
    words[4 * 512] = DATA;
    for (unsigned level = 0; level < 4; level++) {
        const uint64_t data = 0x200000df, pointer = (BASE + (level == 0 ? 4 : TABLES[level - 1])) << 10 | V;
        for (int bit = 54; bit < 64; bit++) {
            faults(level, data | (uint64_t)1 << bit, USER, XV6VM_PAGE_FAULT, PAGE_FAULTS);
            faults(level, pointer | (uint64_t)1 << bit, USER, XV6VM_PAGE_FAULT, PAGE_FAULTS);
        }
        faults(level, 0, USER, XV6VM_PAGE_FAULT, PAGE_FAULTS);
        faults(level, data & ~(uint64_t)V, USER, XV6VM_PAGE_FAULT, PAGE_FAULTS);
        faults(level, data & ~(uint64_t)R, USER, XV6VM_PAGE_FAULT, PAGE_FAULTS);
        faults(level, data & ~(uint64_t)(R | X), USER, XV6VM_PAGE_FAULT, PAGE_FAULTS);
        faults(level, data & ~(uint64_t)A, USER, XV6VM_PAGE_FAULT, PAGE_FAULTS);
        faults(level, data, SUPER, XV6VM_PAGE_FAULT, PAGE_FAULTS);
        faults(level, pointer | U, USER, XV6VM_PAGE_FAULT, PAGE_FAULTS);
        faults(level, pointer | A, USER, XV6VM_PAGE_FAULT, PAGE_FAULTS);
        faults(level, pointer | D, USER, XV6VM_PAGE_FAULT, PAGE_FAULTS);
        /* tables of the frames just below and just past the memory, and of the last physical page; at level 0 no pointer counts */
        for (int i = 0; i < 3; i++)
            if (level == 0)
                faults(level, OUTSIDE[i] << 10 | V, USER, XV6VM_PAGE_FAULT, PAGE_FAULTS);
            else
                faults(level, OUTSIDE[i] << 10 | V, USER, XV6VM_ACCESS_FAULT, ACCESS_FAULTS);
        *entry_of(level) = pointer | G;
        SAME(walk(SV48, address_of(level), LOAD, USER), level == 0 ? ends(XV6VM_PAGE_FAULT, 13) : leaf(0, DATA, 0x80200000));
    }
}

/* Walks to a leaf of each level: the access must be permitted, or end in a page fault. */
static void judges(uint64_t word, uint32_t access, uint32_t mode, int permitted) {
    for (unsigned level = 0; level < 3; level++) {
        struct xv6vm_outcome want = permitted ? leaf(level, word, 0x80000000) : ends(XV6VM_PAGE_FAULT, PAGE_FAULTS[access]);
        *entry_of(level) = word;
        SAME(walk(SV39, address_of(level), access, mode), want);
        SAME(walk(SV48, address_of(level), access, mode), want);
        *entry_of(level) = 0;
    }
}

/* Which accesses R, W and X permit (fetch, load, store), with each of U, A and D and in each mode. */
static void try_rights(void) {
    static const uint64_t RIGHTS[7] = {R, R | W, X, R | X, R | W | X, W, W | X};
    static const int PERMITTED[7][3] = {{0, 1, 0}, {0, 1, 1}, {1, 0, 0}, {1, 1, 0}, {1, 1, 1}, {0, 0, 0}, {0, 0, 0}};
    tables();
    for (int i = 0; i < 7 * 8; i++) {
        uint64_t marks = (i & 1 ? U : 0) | (i & 2 ? A : 0) | (i & 4 ? D : 0);
        for (uint32_t access = 0; access < 3; access++)
            for (uint32_t mode = 0; mode < 2; mode++) {
                int for_mode = mode == (marks & U ? USER : SUPER), marked = (marks & A) && (access != STORE || (marks & D));
                judges(0x20000000 | marks | RIGHTS[i / 8] | V, access, mode, PERMITTED[i / 8][access] && for_mode && marked);
            }
    }
}

/* Addresses: the bits above the highest index must equal its highest bit. */
static void try_addresses(void) {
    const uint64_t low39 = 0x3f80234567, high39 = 0xffffffc080234567, low48 = 0x7f8080234567, high48 = 0xffff800080234567;
    tables();
    words[512 + 254] = words[512 + 258] = 0x200000d7;
    words[3 * 512 + 255] = words[3 * 512 + 256] = 0xd7;
    SAME(walk(SV39, low39, LOAD, USER), leaf(2, 0x200000d7, 0x80234567));
    SAME(walk(SV39, high39, LOAD, USER), leaf(2, 0x200000d7, 0x80234567));
    SAME(walk(SV48, low48, LOAD, USER), leaf(3, 0xd7, 0x80234567));
    SAME(walk(SV48, high48, LOAD, USER), leaf(3, 0xd7, 0x80234567));
    for (uint32_t access = 0; access < 3; access++) {
        struct xv6vm_outcome fault = ends(XV6VM_PAGE_FAULT, PAGE_FAULTS[access]);
        for (int bit = 38; bit < 64; bit++) {
            SAME(walk(SV39, low39 ^ (uint64_t)1 << bit, access, USER), fault);
            SAME(walk(SV39, high39 ^ (uint64_t)1 << bit, access, USER), fault);
        }
        for (int bit = 47; bit < 64; bit++) {
            SAME(walk(SV48, low48 ^ (uint64_t)1 << bit, access, USER), fault);
            SAME(walk(SV48, high48 ^ (uint64_t)1 << bit, access, USER), fault);
        }
        /* the address is judged before the root is read, which is outside the memory */
        SAME(walk((uint64_t)8 << 60, (uint64_t)1 << 38, access, USER), fault);
        SAME(walk((uint64_t)8 << 60, 0, access, USER), ends(XV6VM_ACCESS_FAULT, ACCESS_FAULTS[access]));
    }
}

/* Memories that begin elsewhere, end within a frame, or have no word. */
static void try_memories(void) {
    static const uint64_t BASES[] = {0, 1, 0x12345, 0x80000, ((uint64_t)1 << 44) - 5};
    for (size_t i = 0; i < sizeof BASES / sizeof *BASES; i++) {
        uint64_t base = BASES[i], satp = (uint64_t)8 << 60 | (base + 1);
        memset(words, 0, 5 * 4096);
        words[512] = (base + 2) << 10 | V;
        words[2 * 512] = (base + 3) << 10 | V;
        words[3 * 512 + 510] = words[3 * 512 + 511] = (base + 4) << 10 | 0xd7;
        struct xv6vm_outcome page = leaf(0, words[3 * 512 + 510], (base + 4) << 12 | 0x238);
        struct xv6vm_outcome last = leaf(0, words[3 * 512 + 511], (base + 4) << 12 | 0xfff);
        struct xv6vm_outcome outside = ends(XV6VM_ACCESS_FAULT, 5);
        SAME(CALL(translate)(words, 5 * 512, base, satp, 0x1fe238, LOAD, USER), page);
        SAME(CALL(translate)(words, 5 * 512, base, satp, 0x1fffff, LOAD, USER), last);
        /* the last word is that of the page at 0x238, and then the one before it */
        SAME(CALL(translate)(words, 4 * 512 + 72, base, satp, 0x1fe238, LOAD, USER), page);
        SAME(CALL(translate)(words, 4 * 512 + 71, base, satp, 0x1fe238, LOAD, USER), outside);
        /* the page is outside the memory, then the entry too, then its table */
        SAME(CALL(translate)(words, 3 * 512 + 511, base, satp, 0x1fe238, LOAD, USER), outside);
        SAME(CALL(translate)(words, 3 * 512 + 510, base, satp, 0x1fe238, LOAD, USER), outside);
        SAME(CALL(translate)(words, 512, base, satp, 0x1fe238, LOAD, USER), outside);
        SAME(CALL(translate)(words, 0, base, satp, 0x1fe238, LOAD, USER), outside);
        EQUAL(CALL(lookup)(words, 3 * 512 + 510, base, satp, 0x1fe238).status, XV6VM_ACCESS_FAULT);
        EQUAL(CALL(lookup)(words, 0, base, satp, 0x1fe238).status, XV6VM_ACCESS_FAULT);
        /* the tables are below the memory, or the memory is where no walk leads */
        SAME(CALL(translate)(words, 5 * 512, base + 2, satp, 0x1fe238, LOAD, USER), outside);
        SAME(CALL(translate)(words, 5 * 512, base | (uint64_t)1 << 44, satp, 0x1fe238, LOAD, USER), outside);
        SAME(CALL(translate)(words, 5 * 512, UINT64_MAX, satp, 0x1fe238, LOAD, USER), outside);
    }
}

/* MODE 0; MODEs, accesses and modes without meaning. Of several of these, access comes before mode, and mode before MODE. */
static void try_codes(void) {
    tables();
    struct xv6vm_outcome bare = {XV6VM_BARE, 0, 0, 0x8000000000000567, 0};
    SAME(walk(0, 0x8000000000000567, STORE, SUPER), bare);
    SAME(walk(SV39 & ~((uint64_t)15 << 60), 0x8000000000000567, FETCH, USER), bare);
    SAME(CALL(translate)(words, 0, UINT64_MAX, 0, 0x8000000000000567, LOAD, USER), bare);
    for (uint64_t code = 1; code < 16; code++)
        if (code != 8 && code != 9) {
            uint64_t satp = code << 60 | 0x80001;
            SAME(walk(satp, 0, LOAD, USER), ends(XV6VM_UNKNOWN, 3));
            EQUAL(CALL(lookup)(words, COUNT, BASE, satp, 0).status, XV6VM_UNKNOWN);
        }
    static const uint32_t CODES[] = {3, 4, 256, 0x80000000, UINT32_MAX};
    for (size_t i = 0; i < sizeof CODES / sizeof *CODES; i++) {
        SAME(walk(SV39, 0, CODES[i], USER), ends(XV6VM_UNKNOWN, 1));
        SAME(walk(SV48, 0, CODES[i], 2), ends(XV6VM_UNKNOWN, 1));
        SAME(walk(0, 0, CODES[i], SUPER), ends(XV6VM_UNKNOWN, 1));
        SAME(walk(SV39, 0, FETCH, CODES[i] - 1), ends(XV6VM_UNKNOWN, 2));
        SAME(walk((uint64_t)10 << 60, 0, FETCH, CODES[i] - 1), ends(XV6VM_UNKNOWN, 2));
        SAME(walk(0, 0, FETCH, CODES[i] - 1), ends(XV6VM_UNKNOWN, 2));
    }
}

/* ---- look-ups */

static void finds(int line, uint64_t satp, uint64_t address, struct xv6vm_leaf want) {
    struct xv6vm_leaf got = CALL(lookup)(words, COUNT, BASE, satp, address);
    if (!same_leaf(got, want))
        differs("calls.c:%d: %s in place of %s", line, leaf_text(got), leaf_text(want));
}

#define FINDS(satp, address, ...)                                                                                                \
    do {                                                                                                                         \
        struct xv6vm_leaf want = {__VA_ARGS__};                                                                                  \
        finds(__LINE__, satp, address, want);                                                                                    \
    } while (0)

static void try_lookups(void) {
    tables();
    *entry_of(1) = DATA;
    FINDS(SV39, 0x3fffff, XV6VM_LEAF, 1, DATA, 0x803fffff, 0);
    FINDS(SV48, 0x3fffff, XV6VM_LEAF, 1, DATA, 0x803fffff, 0);
    FINDS(SV39, 0x400000, XV6VM_NO_LEAF, 0, 0, 0, 0);
    FINDS(SV39, 0x4000000000, XV6VM_NO_LEAF, 0, 0, 0, 0);
    FINDS(SV48, 0x800000000000, XV6VM_NO_LEAF, 0, 0, 0, 0);
    FINDS((uint64_t)8 << 60 | 0x80400, 0, XV6VM_ACCESS_FAULT, 0, 0, 0, 0);
    FINDS(0x80001, 0x123, XV6VM_BARE, 0, 0, 0x123, 0);
    FINDS((uint64_t)10 << 60 | 0x80001, 0x123, XV6VM_UNKNOWN, 0, 0, 0, 0);
    /* rights, A and D do not count, nor does the byte at the physical address */
    *entry_of(1) = 0x00000009;
    FINDS(SV39, 0x234567, XV6VM_LEAF, 1, 0x00000009, 0x34567, 0);
    /* a misaligned superpage is no leaf, nor is a word with a reserved bit */
    *entry_of(1) = DATA | 0x400;
    FINDS(SV39, 0x200000, XV6VM_NO_LEAF, 0, 0, 0, 0);
    *entry_of(1) = DATA | (uint64_t)1 << 62;
    FINDS(SV39, 0x200000, XV6VM_NO_LEAF, 0, 0, 0, 0);
    /* G of the leaf, and of each pointer on the way */
    *entry_of(1) = DATA | G;
    FINDS(SV39, 0x200000, XV6VM_LEAF, 1, DATA | G, 0x80200000, 1);
    *entry_of(1) = DATA;
    words[512] |= G;
    FINDS(SV39, 0x200000, XV6VM_LEAF, 1, DATA, 0x80200000, 1);
    FINDS(SV48, 0x200000, XV6VM_LEAF, 1, DATA, 0x80200000, 1);
    tables();
    *entry_of(1) = DATA;
    words[3 * 512] |= G;
    FINDS(SV39, 0x200000, XV6VM_LEAF, 1, DATA, 0x80200000, 0);
    FINDS(SV48, 0x200000, XV6VM_LEAF, 1, DATA, 0x80200000, 1);
}

/* ---- a TLB */

enum { PLACES = 3 };

static struct xv6vm_entry tlb[PLACES];

/* Four pages: their leaves are in the table of level 0, of frames 0x200 to 0x203; the third has G. */
static void pages(void) {
    tables();
    memset(tlb, 0, sizeof tlb);
    for (uint64_t i = 1; i < 5; i++)
        words[4 * 512 + i] = (0x80200 + i - 1) << 10 | 0xd7 | (i == 3 ? G : 0);
}

static uint32_t fill(uint64_t satp, uint64_t address) { return CALL(tlb_fill)(tlb, PLACES, words, COUNT, BASE, satp, address); }

static size_t match(size_t from, uint64_t address, uint16_t asid) { return CALL(tlb_match)(tlb, PLACES, from, address, asid); }

static struct xv6vm_outcome use(size_t n, uint64_t address, uint16_t asid, uint32_t access) {
    return CALL(tlb_use)(tlb, PLACES, n, address, asid, access, USER);
}

static void fence(uint32_t has_address, uint64_t address, uint32_t has_asid, uint16_t asid) {
    CALL(tlb_fence)(tlb, PLACES, has_address, address, has_asid, asid);
}

/* Checks which page each of the three places serves under ASID 7; 0 for none. */
static void row_is(int line, uint64_t first, uint64_t second, uint64_t third) {
    const uint64_t pages[PLACES] = {first, second, third};
    for (size_t n = 0; n < PLACES; n++)
        for (uint64_t page = 1; page < 8; page++) {
            int is = use(n, page << 12, 7, LOAD).status != XV6VM_NO_ENTRY;
            if (is != (page == pages[n]))
                differs("calls.c:%d: place %zu and page %" PRIu64, line, n, page);
        }
}

#define ROW_IS(first, second, third) row_is(__LINE__, first, second, third)

/* The row of places: fills go last, into the room of the first empty place or of the oldest entry. */
static void try_fills(void) {
    pages();
    ROW_IS(0, 0, 0);
    EQUAL(fill(SV39, 0x1123), XV6VM_LEAF);
    ROW_IS(0, 0, 1);
    EQUAL(fill(SV48, 0x2123), XV6VM_LEAF);
    ROW_IS(0, 1, 2);
    /* page 5 has no leaf, and the entry records it */
    EQUAL(fill(SV39, 0x5000), XV6VM_LEAF);
    ROW_IS(1, 2, 5);
    EQUAL(fill(SV39, 0x4000), XV6VM_LEAF);
    ROW_IS(2, 5, 4);
    CALL(tlb_evict)(tlb, PLACES, 1);
    ROW_IS(2, 0, 4);
    EQUAL(fill(SV39, 0x4000), XV6VM_LEAF);
    ROW_IS(2, 4, 4);
    CALL(tlb_evict)(tlb, PLACES, 2);
    EQUAL(fill(SV39, 0x1000), XV6VM_LEAF);
    ROW_IS(2, 4, 1);
    /* nothing changes: no such place; a table or the byte is outside the memory; MODE 0; a MODE without meaning */
    CALL(tlb_evict)(tlb, PLACES, PLACES);
    CALL(tlb_evict)(tlb, PLACES, SIZE_MAX);
    EQUAL(fill((uint64_t)8 << 60, 0x1000), XV6VM_ACCESS_FAULT);
    words[4 * 512 + 6] = 0xd7;
    EQUAL(fill(SV39, 0x6000), XV6VM_ACCESS_FAULT);
    EQUAL(fill(0x80001, 0x1000), XV6VM_BARE);
    EQUAL(fill((uint64_t)10 << 60 | 0x80001, 0x1000), XV6VM_UNKNOWN);
    ROW_IS(2, 4, 1);
}

/* What an entry answers: its leaf is from the fill, its rights are judged at the use. */
static void try_uses(void) {
    pages();
    words[4 * 512 + 1] &= ~(uint64_t)D;
    fill(SV39, 0x1000);
    fill(SV39, 0x5000);
    words[4 * 512 + 1] = 0;
    words[4 * 512 + 5] = DATA;
    SAME(use(1, 0x1567, 7, LOAD), leaf(0, 0x20080057, 0x80200567));
    SAME(use(1, 0x1567, 7, STORE), ends(XV6VM_PAGE_FAULT, 15));
    SAME(use(1, 0x1567, 7, FETCH), ends(XV6VM_PAGE_FAULT, 12));
    SAME(CALL(tlb_use)(tlb, PLACES, 1, 0x1567, 7, LOAD, SUPER), ends(XV6VM_PAGE_FAULT, 13));
    SAME(use(2, 0x5567, 7, LOAD), ends(XV6VM_PAGE_FAULT, 13));
    SAME(use(1, 0x1567, 6, LOAD), ends(XV6VM_NO_ENTRY, 0));
    SAME(use(1, 0x2567, 7, LOAD), ends(XV6VM_NO_ENTRY, 0));
    SAME(use(1, 0x1567 | (uint64_t)1 << 63, 7, LOAD), ends(XV6VM_NO_ENTRY, 0));
    SAME(use(0, 0, 0, LOAD), ends(XV6VM_NO_ENTRY, 0));
    SAME(use(PLACES, 0x1567, 7, LOAD), ends(XV6VM_NO_ENTRY, 0));
    SAME(use(SIZE_MAX, 0x1567, 7, LOAD), ends(XV6VM_NO_ENTRY, 0));
    SAME(use(1, 0x1567, 7, 3), ends(XV6VM_UNKNOWN, 1));
    SAME(CALL(tlb_use)(tlb, PLACES, 9, 0x1567, 7, 3, 2), ends(XV6VM_UNKNOWN, 1));
    SAME(CALL(tlb_use)(tlb, PLACES, 1, 0x1567, 7, LOAD, 2), ends(XV6VM_UNKNOWN, 2));
}

/* Which places match: the first from `from` on. */
static void try_matches(void) {
    pages();
    fill(SV39, 0x1000);
    fill(SV39, 0x3000);
    fill(SV48, 0x1000);
    EQUAL(match(0, 0x1fff, 7), 0);
    EQUAL(match(1, 0x1fff, 7), 2);
    EQUAL(match(3, 0x1fff, 7), PLACES);
    EQUAL(match(SIZE_MAX, 0x1fff, 7), PLACES);
    EQUAL(match(0, 0x1fff, 8), PLACES);
    EQUAL(match(0, 0x2000, 7), PLACES);
    /* the global entry serves each ASID */
    EQUAL(match(0, 0x3fff, 8), 1);
    EQUAL(match(0, 0x3fff, UINT16_MAX), 1);
    EQUAL(match(0, 0x3fff | (uint64_t)1 << 63, 7), PLACES);
}

static void refill(void) {
    pages();
    fill(SV39, 0x1000);
    fill(SV39, 0x5000);
    fill(SV39, 0x3000);
    ROW_IS(1, 5, 3);
}

/* SFENCE.VMA with each pair of arguments. Page 5 has no leaf, page 3 is global. */
static void try_fences(void) {
    refill();
    fence(0, 0x1000, 0, 7);
    ROW_IS(0, 0, 0);
    refill();
    fence(0, 0x1000, 1, 8);
    ROW_IS(1, 5, 3);
    fence(0, 0x1000, 2, 7);
    ROW_IS(0, 0, 3);
    refill();
    fence(1, 0x2fff, 1, 7);
    ROW_IS(1, 0, 3);
    fence(1, 0x3fff, 1, 7);
    ROW_IS(1, 0, 3);
    fence(1, 0x1fff, 1, 8);
    ROW_IS(1, 0, 3);
    fence(1, 0x1fff, 1, 7);
    ROW_IS(0, 0, 3);
    refill();
    fence(UINT32_MAX, 0x3fff, 0, 7);
    ROW_IS(1, 0, 0);
    fence(1, 0x1fff | (uint64_t)1 << 63, 0, 7);
    ROW_IS(1, 0, 0);
    fence(1, 0x1fff, 0, 9);
    ROW_IS(0, 0, 0);
}

/* An entry of a superpage serves the page that it was filled for. A fence for any address of the superpage removes it. */
static void try_superpages(void) {
    for (unsigned level = 1; level < 4; level++) {
        uint64_t page = address_of(level) + (level == 3 ? 0x80000000 : 0), word = level == 3 ? 0xd7 : 0x200000d7;
        uint64_t last = address_of(level) * 2 - 1;
        tables();
        memset(tlb, 0, sizeof tlb);
        *entry_of(level) = word;
        EQUAL(fill(SV48, page + 0x3123), XV6VM_LEAF);
        SAME(use(2, page + 0x3456, 7, LOAD), leaf(level, word, 0x80003456));
        SAME(use(2, page + 0x4456, 7, LOAD), ends(XV6VM_NO_ENTRY, 0));
        fence(1, last + 1, 0, 0);
        fence(1, address_of(level) - 1, 0, 0);
        EQUAL(match(0, page + 0x3000, 7), 2);
        fence(1, last, 0, 0);
        EQUAL(match(0, page + 0x3000, 7), PLACES);
        EQUAL(fill(SV48, page + 0x3123), XV6VM_LEAF);
        fence(1, address_of(level), 1, 7);
        EQUAL(match(0, page + 0x3000, 7), PLACES);
    }
}

/* Numbers that no fill writes, and a TLB of no places. */
static void try_strange_entries(void) {
    pages();
    struct xv6vm_entry strange[4] = {
        {0x1fff, 0xd7, 4, 7, 0, 1}, {0x1fff, 0xd7, 0, 7, 0, 3}, {0x1fff, DATA, 0, 9, 255, 1}, {0x1fff, 0xd7, 0, 7, 0, 2}};
    EQUAL(CALL(tlb_match)(strange, 4, 0, 0x1000, 7), 2);
    EQUAL(CALL(tlb_match)(strange, 4, 3, 0x1000, 7), 3);
    SAME(CALL(tlb_use)(strange, 4, 0, 0x1000, 7, LOAD, USER), ends(XV6VM_NO_ENTRY, 0));
    SAME(CALL(tlb_use)(strange, 4, 1, 0x1000, 7, LOAD, USER), ends(XV6VM_NO_ENTRY, 0));
    SAME(CALL(tlb_use)(strange, 4, 2, 0x1000, 7, LOAD, USER), leaf(0, DATA, 0x80200000));
    SAME(CALL(tlb_use)(strange, 4, 3, 0x1000, 7, LOAD, USER), ends(XV6VM_PAGE_FAULT, 13));
    struct xv6vm_entry before[4];
    memcpy(before, strange, sizeof before);
    EQUAL(CALL(tlb_fill)(strange, 0, words, COUNT, BASE, SV39, 0x1000), XV6VM_LEAF);
    EQUAL(CALL(tlb_match)(strange, 0, 0, 0x1000, 7), 0);
    SAME(CALL(tlb_use)(strange, 0, 0, 0x1000, 7, LOAD, USER), ends(XV6VM_NO_ENTRY, 0));
    CALL(tlb_evict)(strange, 0, 0);
    CALL(tlb_fence)(strange, 0, 0, 0, 0, 0);
    EQUAL((uint64_t)memcmp(before, strange, sizeof before), 0);
}

/* ---- which outcomes are permitted */

static uint32_t permitted(uint64_t satp, uint64_t address, uint32_t access, struct xv6vm_outcome outcome) {
    return CALL(permits)(tlb, PLACES, words, COUNT, BASE, satp, address, access, USER, outcome);
}

static void try_permits(void) {
    const struct xv6vm_outcome fault = ends(XV6VM_PAGE_FAULT, 13), old = leaf(0, 0x200800d7, 0x80200567),
                               now = leaf(0, 0x200804d7, 0x80201567);
    const uint64_t other = SV39 ^ (uint64_t)3 << 44;
    pages();
    /* the walk as the memory is now */
    EQUAL(permitted(SV39, 0x1567, LOAD, old), 1);
    EQUAL(permitted(SV39, 0x1567, LOAD, fault), 0);
    EQUAL(permitted(SV39, 0x7567, LOAD, fault), 1);
    EQUAL(permitted((uint64_t)8 << 60, 0x1567, LOAD, ends(XV6VM_ACCESS_FAULT, 5)), 1);
    EQUAL(permitted((uint64_t)8 << 60, 0x1567, STORE, ends(XV6VM_ACCESS_FAULT, 5)), 0);
    /* a stale entry, and an entry that records that there was no leaf: only under their ASID, which is 7 */
    fill(SV39, 0x1000);
    fill(SV39, 0x5000);
    words[4 * 512 + 1] = 0x200804d7;
    words[4 * 512 + 5] = 0x200804d7;
    EQUAL(permitted(SV39, 0x1567, LOAD, old), 1);
    EQUAL(permitted(SV48, 0x1567, LOAD, old), 1);
    EQUAL(permitted(other, 0x1567, LOAD, old), 0);
    EQUAL(permitted(SV39, 0x1567, LOAD, now), 1);
    EQUAL(permitted(other, 0x1567, LOAD, now), 1);
    EQUAL(permitted(SV39, 0x5567, LOAD, fault), 1);
    EQUAL(permitted(SV39, 0x5567, LOAD, now), 1);
    EQUAL(permitted(other, 0x5567, LOAD, fault), 0);
    /* a fence takes them away */
    fence(1, 0x1000, 1, 7);
    EQUAL(permitted(SV39, 0x1567, LOAD, old), 0);
    EQUAL(permitted(SV39, 0x5567, LOAD, fault), 0);
    EQUAL(permitted(SV39, 0x1567, LOAD, now), 1);
    /* a global entry serves each ASID */
    fill(SV39, 0x3000);
    words[4 * 512 + 3] = 0;
    EQUAL(permitted(other, 0x3567, LOAD, leaf(0, 0x200808f7, 0x80202567)), 1);
    /* each number counts */
    EQUAL(permitted(SV39, 0x1567, LOAD, leaf(1, 0x200804d7, 0x80201567)), 0);
    EQUAL(permitted(SV39, 0x1567, LOAD, leaf(0, 0x200804f7, 0x80201567)), 0);
    EQUAL(permitted(SV39, 0x1567, LOAD, leaf(0, 0x200804d7, 0x80201568)), 0);
    EQUAL(permitted(SV39, 0x1567, FETCH, now), 0);
    EQUAL(permitted(SV39, 0x1567, FETCH, ends(XV6VM_PAGE_FAULT, 12)), 1);
    EQUAL(permitted(SV39, 0x1567, LOAD, ends(XV6VM_NO_ENTRY, 0)), 0);
    EQUAL(permitted(SV39, 0x1567, LOAD, ends(XV6VM_LEAF, 0)), 0);
    EQUAL(permitted(SV39, 0x1567, LOAD, ends(77, 13)), 0);
    /* without translation, or with an argument without meaning, no entry counts */
    struct xv6vm_outcome bare = {XV6VM_BARE, 0, 0, 0x3567, 0};
    EQUAL(permitted(SV39 & ~((uint64_t)15 << 60), 0x3567, LOAD, bare), 1);
    EQUAL(permitted(SV39 & ~((uint64_t)15 << 60), 0x3567, LOAD, leaf(0, 0x200808f7, 0x80202567)), 0);
    EQUAL(permitted(SV39 ^ (uint64_t)2 << 60, 0x3567, LOAD, ends(XV6VM_UNKNOWN, 3)), 1);
    EQUAL(permitted(SV39 ^ (uint64_t)2 << 60, 0x3567, LOAD, leaf(0, 0x200808f7, 0x80202567)), 0);
    EQUAL(permitted(SV39, 0x3567, 3, ends(XV6VM_UNKNOWN, 1)), 1);
    EQUAL(permitted(SV39, 0x3567, 3, fault), 0);
}

int main(void) {
    try_rows();
    try_bad_entries();
    try_rights();
    try_addresses();
    try_memories();
    try_codes();
    try_lookups();
    try_fills();
    try_uses();
    try_matches();
    try_fences();
    try_superpages();
    try_strange_entries();
    try_permits();
    return report();
}
