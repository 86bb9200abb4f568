/* xv6vm.h: page-table walks of RISC-V Sv39 and Sv48, a TLB of whole walks, a judge of what the standard permits given a hart's history, and
   the scripts of xv6vm, for C. Each call is proved to do what its
   comment says; nothing checks the caller. x86-64 Linux. Link libxv6vm; in a clone libxv6vm_c.a, and for xv6vm_play other archives.

   For all calls:
   - `words`, `count`: the physical memory that a call may read, 64-bit words in the host's byte order (little-endian), those of the
     frames from physical page number `base_ppn` on, 512 words a frame. What is below, or past `count` words, is outside the memory;
     the last frame may be there in part.
   - `entries`, `places`: a TLB of whole walks in the caller's memory, an array of `places` places. All zeros is an empty TLB.
   - `hart`, `events`, `capacity`: a hart's history in the caller's memory. Any bytes are allowed there; xv6vm_hart_begin makes a new one.
   - A pointer is aligned as its type. It may be null where its count is 0, as `data()` of an empty vector may be; nowhere else.
   - While a call runs nobody writes what it reads, and nobody else reads or writes what it writes. Calls on other memory may run at
     the same time on other threads. A call keeps no pointer. Only xv6vm_play takes memory from malloc, and it gives all back.
   - "The standard" is the RISC-V Privileged Architecture 20211203. */
#ifndef XV6VM_H
#define XV6VM_H

#include <stddef.h>
#include <stdint.h>

/* The version of the library; `xv6vm --version` prints the same. */
#define XV6VM_VERSION_MAJOR 0
#define XV6VM_VERSION_MINOR 9
#define XV6VM_VERSION_PATCH 0
#define XV6VM_VERSION "0.9.0"

#ifdef __cplusplus
extern "C" {
#endif

/* access: the kind of an access */
enum { XV6VM_FETCH = 0, XV6VM_LOAD = 1, XV6VM_STORE = 2 };

/* mode: the privilege mode of an access. In supervisor mode mstatus.SUM and MXR count as 0. */
enum { XV6VM_USER = 0, XV6VM_SUPERVISOR = 1 };

/* status */
enum {
    XV6VM_LEAF = 0,         /* a leaf permits the access (translate, use); there is a leaf (lookup); an entry was added (fill) */
    XV6VM_PAGE_FAULT = 1,   /* cause 12, 13 or 15 */
    XV6VM_ACCESS_FAULT = 2, /* cause 1, 5 or 7: a word of a table, or the byte at the physical address, is outside the memory */
    XV6VM_BARE = 3,         /* satp has MODE 0: no translation, the address is the physical address; no memory is looked at */
    XV6VM_NO_LEAF = 4,      /* lookup: no leaf, or a misaligned one, or the address is not canonical */
    XV6VM_NO_ENTRY = 5,     /* use: the place is empty, or there is no such place, or its entry does not match */
    XV6VM_UNKNOWN = 6,      /* an argument has no meaning; `cause` says which: 1 access, 2 mode, 3 the MODE of satp */
    XV6VM_FULL = 7          /* hart: each place of the array has an event */
};

/* The outcome of the translation of an access. What does not belong to its status is 0. */
struct xv6vm_outcome {
    uint32_t status;
    uint32_t level;   /* of a leaf: 0 for a page of 4,096 bytes, 1 to 3 for superpages of 2^(12 + 9 * level) bytes */
    uint64_t word;    /* of a leaf: its page table entry */
    uint64_t address; /* of a leaf, and of XV6VM_BARE: the physical address */
    uint64_t cause;   /* of a fault: the exception code, as in scause */
};

/* What a walk finds for an address, whatever the rights. What does not belong to its status is 0. */
struct xv6vm_leaf {
    uint32_t status;  /* XV6VM_LEAF, _NO_LEAF, _BARE, _UNKNOWN, or _ACCESS_FAULT: a word of a table is outside the memory */
    uint32_t level;
    uint64_t word;
    uint64_t address; /* the physical address; it need not be inside the memory */
    uint64_t global;  /* 1 if the leaf or a pointer on the way to it has G, else 0 */
};

/* A place of a TLB. Any numbers are allowed. An entry that no fill made is used as it stands: nobody asks for its V, its reserved
   bits or its alignment, and the physical address is its PPN times 4,096 plus the low 12 + 9 * level bits of the address. */
struct xv6vm_entry {
    uint64_t address; /* an address of the page that the entry serves; its low 12 bits do not count */
    uint64_t word;    /* the page table entry of the leaf */
    uint32_t level;   /* of the leaf; a place of kind 1 with more than 3 is empty */
    uint16_t asid;
    uint8_t global;   /* 0, or not 0: the entry serves every ASID */
    uint8_t kind;     /* 1: an entry with a leaf; 2: an entry that records that there is no leaf; anything else: an empty place */
};

/* Translates the address of an access by the page table in `satp` (the standard, 4.3.2, and 4.1.11 for satp: MODE 0, 8 is Sv39, 9
   is Sv48). A page fault if there is no leaf, or the leaf's rights do not permit the access, or A is clear, or D is clear in a
   store; an access fault if a word on the way, or the byte at the physical address, is outside the memory. Rights are judged before
   that byte is looked for. Only one byte is looked for, so the bytes of an access should lie in one aligned word. */
struct xv6vm_outcome xv6vm_translate(const uint64_t *words, size_t count, uint64_t base_ppn, uint64_t satp, uint64_t address,
                                     uint32_t access, uint32_t mode);

/* Walks to an address, and returns the leaf alone. */
struct xv6vm_leaf xv6vm_lookup(const uint64_t *words, size_t count, uint64_t base_ppn, uint64_t satp, uint64_t address);

/* Walks to an address, and adds what the walk finds, a leaf or none, as the newest entry, in the last place. The other entries keep
   their order, but may move to lower places; if no place is empty, the oldest, in place 0, is removed. Returns XV6VM_LEAF; or
   XV6VM_ACCESS_FAULT, XV6VM_BARE or XV6VM_UNKNOWN, when nothing changes. With 0 places nothing is kept. */
uint32_t xv6vm_tlb_fill(struct xv6vm_entry *entries, size_t places, const uint64_t *words, size_t count, uint64_t base_ppn,
                        uint64_t satp, uint64_t address);

/* Returns the first place from `from` on whose entry serves an address under an ASID; `places` if there is none. A hart may use any
   entry that matches. */
size_t xv6vm_tlb_match(const struct xv6vm_entry *entries, size_t places, size_t from, uint64_t address, uint16_t asid);

/* Translates an access by the entry in place `n`; its rights are judged at this use. XV6VM_LEAF, XV6VM_PAGE_FAULT, XV6VM_NO_ENTRY
   or XV6VM_UNKNOWN. */
struct xv6vm_outcome xv6vm_tlb_use(const struct xv6vm_entry *entries, size_t places, size_t n, uint64_t address, uint16_t asid,
                                   uint32_t access, uint32_t mode);

/* Empties place `n`, as hardware may at any time. The others stay as they are. */
void xv6vm_tlb_evict(struct xv6vm_entry *entries, size_t places, size_t n);

/* SFENCE.VMA (the standard, 4.2.1): empties the places of the entries that match both arguments; the others stay in their places.
   `has_address` 0: every address (rs1 = x0); else entries whose page or superpage holds `address`, and each entry that records no
   leaf. `has_asid` 0: every ASID (rs2 = x0), global entries too; else entries of `asid` that are not global. */
void xv6vm_tlb_fence(struct xv6vm_entry *entries, size_t places, uint32_t has_address, uint64_t address, uint32_t has_asid,
                     uint16_t asid);

/* Judges a TLB of whole walks; what a hart may do that also caches pointers or invalid entries, xv6vm_hart_judge says. Returns 1 exactly when
   the outcome is one of those that the definition of such a TLB lists: that of the walk over the memory as it is now, or that of an entry which matches the address and the ASID in `satp`; else 0. All five numbers of the outcome count. With
   MODE 0, or an argument without meaning, only the outcome of xv6vm_translate. */
uint32_t xv6vm_permits(const struct xv6vm_entry *entries, size_t places, const uint64_t *words, size_t count, uint64_t base_ppn,
                       uint64_t satp, uint64_t address, uint32_t access, uint32_t mode, struct xv6vm_outcome outcome);

/* ---- A walk over memory of any kind

   The calls above take one array. For memory in several regions, or behind a call of yours, the walk asks for each word: xv6vm_walk_begin, then
   xv6vm_walk_next while `at.status` is XV6VM_READ or XV6VM_BYTE, five times at most. xv6vm_translate_by, at the end of this file, is that loop. If
   each answer is what the memory has, the end is the outcome of xv6vm_translate over that memory; it also says why an access faults. */

/* status of a walk that asks */
enum {
    XV6VM_READ = 8, /* for the 64-bit word at the physical address `place` */
    XV6VM_BYTE = 9  /* whether the byte at the physical address `place` is in the memory */
};

/* How far a walk has come. */
struct xv6vm_reached {
    uint32_t status; /* XV6VM_READ or XV6VM_BYTE; at the end XV6VM_LEAF, _PAGE_FAULT, _ACCESS_FAULT, _BARE or _UNKNOWN */
    uint32_t level;  /* of the page table entry (PTE) that is asked for, or was read last */
    uint64_t table;  /* the physical page number of its table */
    uint64_t index;  /* its index there */
    uint64_t place;  /* the physical address that is asked for; of XV6VM_LEAF and XV6VM_BARE that of the access; of a page fault that of the PTE */
    uint64_t word;   /* the PTE that was read last; 0 if there is none */
    uint64_t cause;  /* of a fault the exception code; of XV6VM_UNKNOWN 1 access, 2 mode, 3 the MODE of satp, 4 no xv6vm_walk_begin made it */
    uint64_t step;   /* of a fault the step of the standard's 4.3.2 at which it is one: 2, the PTE is outside the memory; 3, it is invalid or has a
                        reserved form; 4, a pointer at level 0; 5, it does not grant the access; 6, a misaligned superpage; 7, A is clear, or D at
                        a store; 8, the byte is outside the memory; 0, the address is not canonical */
};

/* A walk: what it is for, and how far it has come. */
struct xv6vm_walk {
    uint64_t satp;
    uint64_t address;
    uint32_t access;
    uint32_t mode;
    struct xv6vm_reached at;
};

/* Begins a walk. */
void xv6vm_walk_begin(struct xv6vm_walk *walk, uint64_t satp, uint64_t address, uint32_t access, uint32_t mode);

/* Goes on with what is asked for. `is_there` 0: it is outside the memory. `word` counts with XV6VM_READ alone. A walk that has ended stays as it is. */
void xv6vm_walk_next(struct xv6vm_walk *walk, uint32_t is_there, uint64_t word);

/* ---- What the standard permits, given the history of a hart

   A hart may cache page table entries of any level at any moment, and drop them at any other; so whether an outcome is right depends on
   what happened: on stores to page tables, writes of satp and PMP registers, and fences. Tell these events as they happen, and ask of
   each access whether its outcome is permitted (xv6vm_hart_judge), or what is (xv6vm_hart_outcomes). No call says when a hart caches.

   `words` must be memory as it is at that moment: pass the emulator's own RAM. A place for which there is an event has the word that the last
   event says, inside `words` or not. Each event takes a place of the array; a fence of everything empties it. If a call returns XV6VM_FULL
   nothing has changed: make the array larger (it may be moved), or begin anew after a fence of everything. A call's time grows with the
   number of events, and for judge and outcomes also with the number of words that the PTEs on the way had.

   Covered: Sv39, Sv48, Sv57 and Bare; user, supervisor and machine mode with MPRV; SUM, MXR; Svade, Svadu; Svnapot, Svpbmt; PMP. */

/* the kind of an event in its place; any other number is XV6VM_FENCE_ASID */
enum { XV6VM_STORE_EVENT = 0, XV6VM_SATP_EVENT = 1, XV6VM_PMP_EVENT = 2, XV6VM_FENCE_ADDRESS_EVENT = 3, XV6VM_FENCE_ASID_EVENT = 4 };

/* An event. The calls write it. */
struct xv6vm_event {
    uint64_t kind;
    uint64_t key;   /* a store's physical address; the number of a PMP entry; the address of a fence */
    uint64_t value; /* the word that is stored, or written to satp or pmpaddr; the ASID of a fence */
    uint64_t other; /* the word before a store; the byte of pmpcfg; of a fence with an address 0 if it has no ASID */
};

/* A PMP entry: its byte of pmpcfg, and pmpaddr. */
struct xv6vm_pmp {
    uint64_t config;
    uint64_t address;
};

/* profile: bits that are added. Both or none of Svade and Svadu: a leaf without A, or without D at a store, may be a page fault or updated, at each access */
enum {
    XV6VM_SVNAPOT = 1, XV6VM_SVPBMT = 2, XV6VM_SVADE = 4, XV6VM_SVADU = 8,
    XV6VM_SV39 = 256, XV6VM_SV48 = 512, XV6VM_SV57 = 1024
};

/* What is known of a hart beside its events. The calls write it. */
struct xv6vm_hart {
    uint32_t profile;
    uint32_t asid_bits; /* more than 16 is 16 */
    uint64_t mstatus;   /* as it is now */
    uint64_t satp;      /* as it was before the events */
    uint64_t pmp_count; /* more than 64 is 64 */
    uint64_t count;     /* how many places have events; more than there are is all of them */
    struct xv6vm_pmp pmp[64]; /* as they were before the events */
};

/* An access. */
struct xv6vm_access {
    uint64_t address;
    uint64_t width;  /* 1, 2, 4 or 8 bytes */
    uint32_t access; /* XV6VM_FETCH, _LOAD or _STORE */
    uint32_t mode;   /* the hart's own privilege mode: XV6VM_USER, _SUPERVISOR or _MACHINE */
};

enum { XV6VM_MACHINE = 3 };

/* status of a judged outcome */
enum { XV6VM_GRANTED = 0, XV6VM_REFUSED = 1 };

/* What comes of an access. What does not belong to its status does not count, and is 0 in what a call writes. */
struct xv6vm_judged {
    uint32_t status;      /* XV6VM_GRANTED, or XV6VM_REFUSED by an exception */
    uint32_t memory_type; /* granted: by Svpbmt 1 is non-cacheable, 2 I/O; 0 by the attributes of the physical address */
    uint64_t address;     /* granted: the physical address */
    uint64_t cause;       /* refused: the exception code, as in scause */
    uint64_t updates;     /* not 0 if the hart writes a PTE for this access, to set A or D: */
    uint64_t table;       /* the physical page number of its table, */
    uint64_t index;       /* its index there, and */
    uint64_t word;        /* the word that is written. If such an outcome is the hart's, tell xv6vm_hart_mem of the write after it */
};

/* Begins a history without events: satp 0, mstatus 0, all PMP entries OFF. `profile` is a sum of bits; `asid_bits` 0 to 16; `pmp_count`
   0, 16 or 64. */
void xv6vm_hart_begin(struct xv6vm_hart *hart, uint32_t profile, uint32_t asid_bits, uint32_t pmp_count);

/* mstatus from now on, as the register has it: SUM, MXR, MPRV and MPP count. This is no event: it counts as it is at an access. */
void xv6vm_hart_status(struct xv6vm_hart *hart, uint64_t mstatus);

/* A word of memory changes: by a store of this hart, another one or a device, or by an update of A and D. `address` is physical; its low 3
   bits do not count. `before` is the word until now, `word` the new one. Words of page tables matter, and those that were or will be;
   others need not be told. Returns 0 or XV6VM_FULL. */
uint32_t xv6vm_hart_mem(struct xv6vm_hart *hart, struct xv6vm_event *events, size_t capacity, uint64_t address, uint64_t before,
                        uint64_t word);

/* satp is written; of the ASID as many bits as the hart has. Returns 0; XV6VM_UNKNOWN if the hart does not write the word: it lacks the MODE, or
   MODE is 0 and another bit is set (4.1.11); or XV6VM_FULL. */
uint32_t xv6vm_hart_satp(struct xv6vm_hart *hart, struct xv6vm_event *events, size_t capacity, uint64_t satp);

/* The registers of PMP entry `number` become these. Locks are the caller's matter: tell what the registers have. A number that the hart does not
   have changes nothing but the array. Returns 0 or XV6VM_FULL. */
uint32_t xv6vm_hart_pmp(struct xv6vm_hart *hart, struct xv6vm_event *events, size_t capacity, size_t number, uint8_t config,
                        uint64_t address);

/* SFENCE.VMA (4.2.1). `has_address` 0: rs1 = x0; `has_asid` 0: rs2 = x0. With both 0 the array is emptied. An `address` that is not canonical
   under the present MODE orders nothing. Returns 0 or XV6VM_FULL, never XV6VM_FULL with both 0. */
uint32_t xv6vm_hart_fence(struct xv6vm_hart *hart, struct xv6vm_event *events, size_t capacity, uint32_t has_address,
                          uint64_t address, uint32_t has_asid, uint16_t asid);

/* Returns 1 exactly when the standard permits the outcome of the access, given the history; also of a fault of the first or last byte of a
   misaligned access, whose order beside the misaligned exception the standard leaves open (3.1.15, table 3.7). Returns 0 when it does not;
   XV6VM_UNKNOWN if a number of `access` or of `outcome` has no meaning. */
uint32_t xv6vm_hart_judge(const struct xv6vm_hart *hart, const struct xv6vm_event *events, size_t capacity, const uint64_t *words,
                          size_t count, uint64_t base_ppn, const struct xv6vm_access *access, const struct xv6vm_judged *outcome);

/* Writes the outcomes that the standard permits to the first places of `found`; the other places stay as they are. `*listed` becomes their
   number, or `places` + 1 if there are more than `places`. Returns 0; XV6VM_UNKNOWN if a number of `access` has no meaning: nothing is
   written then. That none is listed twice is tested, and not proved. */
uint32_t xv6vm_hart_outcomes(const struct xv6vm_hart *hart, const struct xv6vm_event *events, size_t capacity, const uint64_t *words,
                             size_t count, uint64_t base_ppn, const struct xv6vm_access *access, struct xv6vm_judged *found,
                             size_t places, size_t *listed);

/* status of a played script: the numbers by which xv6vm refuses one, and one for a text that does not fit */
enum {
    XV6VM_PLAYED = 0,     /* played: the text is in the buffer */
    XV6VM_NO_MEMORY = 21, /* malloc returned NULL */
    XV6VM_SCRIPT = 23,    /* the script is at fault: `line` and `cause` say where and why */
    XV6VM_NO_ROOM = 25    /* the text is longer than `capacity` */
};

/* cause of a script at fault (docs/SCRIPTS.md) */
enum {
    XV6VM_TOO_LONG = 1, /* a line, or the script, has too many bytes */
    XV6VM_NOT_ASCII = 2,
    XV6VM_WORD = 3,     /* no line begins with this word */
    XV6VM_ORDER = 4,    /* a declaration after `boot`, another line before it, or no `boot` */
    XV6VM_COUNT = 5,    /* the wrong number of fields */
    XV6VM_NUMBER = 6,   /* a field is no number of its range */
    XV6VM_FIELD = 7,    /* a field has a wrong form */
    XV6VM_LIMITS = 8,   /* a value is outside its limits */
    XV6VM_TOO_MANY = 9  /* too many files, images or lines */
};

/* How the play of a script ended. What does not belong to its status is 0. */
struct xv6vm_played {
    uint32_t status;
    uint32_t cause; /* of XV6VM_SCRIPT */
    uint64_t line;  /* of XV6VM_SCRIPT: the first line at fault, from 1; 0 is the script as a whole */
};

/* Plays a script of `length` bytes on a machine that lives as long as the call, and puts its text, a line for each answer, at the
   front of `text`, without a 0 at its end; it is the text that `xv6vm play` prints. `*written` becomes the number of bytes of the
   whole text, also with XV6VM_NO_ROOM; with other statuses 0. If the status is not XV6VM_PLAYED, `text` is as it was. Link
   libxv6vm_play_c.a, and liblibc_c.a of the kit, which is malloc to it. */
struct xv6vm_played xv6vm_play(const char *script, size_t length, char *text, size_t capacity, size_t *written);

/* ---- In C alone: what follows is not proved, and short enough to read */

/* Memory of yours. If a physical address, a multiple of 8, is in it, writes the 64-bit word there, and returns a number other than 0; else 0. Within
   one translation it must answer the same for the same address. */
typedef int xv6vm_reader(void *context, uint64_t address, uint64_t *word);

/* Translates the address of an access, over memory that is read by `read`. `walk` may be null; else it has the end of the walk, with the reason of a
   fault. */
static inline struct xv6vm_outcome xv6vm_translate_by(xv6vm_reader *read, void *context, uint64_t satp, uint64_t address,
                                                      uint32_t access, uint32_t mode, struct xv6vm_walk *walk) {
    struct xv6vm_walk own;
    struct xv6vm_outcome outcome = {0, 0, 0, 0, 0};
    if (walk == NULL)
        walk = &own;
    xv6vm_walk_begin(walk, satp, address, access, mode);
    while (walk->at.status == XV6VM_READ || walk->at.status == XV6VM_BYTE) {
        uint64_t word = 0;
        int is_there = read(context, walk->at.place & ~(uint64_t)7, &word);
        xv6vm_walk_next(walk, is_there != 0, word);
    }
    outcome.status = walk->at.status;
    if (outcome.status == XV6VM_LEAF) {
        outcome.level = walk->at.level;
        outcome.word = walk->at.word;
    }
    if (outcome.status == XV6VM_LEAF || outcome.status == XV6VM_BARE)
        outcome.address = walk->at.place;
    else
        outcome.cause = walk->at.cause;
    return outcome;
}

/* A region of memory: `count` words from physical page number `base_ppn` on. */
struct xv6vm_region {
    const uint64_t *words;
    size_t count;
    uint64_t base_ppn;
};

/* Regions of memory. Of two that have an address, the first counts. */
struct xv6vm_regions {
    const struct xv6vm_region *regions;
    size_t count;
};

/* The reader of regions: `context` is a struct xv6vm_regions. */
static inline int xv6vm_read_regions(void *context, uint64_t address, uint64_t *word) {
    const struct xv6vm_regions *all = (const struct xv6vm_regions *)context;
    for (size_t n = 0; n < all->count; n++) {
        uint64_t place = address / 8, first = all->regions[n].base_ppn * 512;
        if (all->regions[n].base_ppn <= UINT64_MAX / 512 && place >= first && place - first < all->regions[n].count) {
            *word = all->regions[n].words[place - first];
            return 1;
        }
    }
    return 0;
}

/* What xv6vm_permits is asked, by names: as that call takes it. */
struct xv6vm_question {
    const struct xv6vm_entry *entries;
    size_t places;
    struct xv6vm_region memory;
    uint64_t satp;
    uint64_t address;
    uint32_t access;
    uint32_t mode;
};

/* The pointer itself; in place of null one that may be passed with a count of 0. */
static inline void *xv6vm_lent(const void *pointer) {
    static uint64_t nothing[8];
    return pointer == NULL ? (void *)nothing : (void *)pointer;
}

#define xv6vm_translate(words, ...) xv6vm_translate((const uint64_t *)xv6vm_lent(words), __VA_ARGS__)
#define xv6vm_lookup(words, ...) xv6vm_lookup((const uint64_t *)xv6vm_lent(words), __VA_ARGS__)
#define xv6vm_tlb_fill(entries, places, words, ...) \
    xv6vm_tlb_fill((struct xv6vm_entry *)xv6vm_lent(entries), places, (const uint64_t *)xv6vm_lent(words), __VA_ARGS__)
#define xv6vm_tlb_match(entries, ...) xv6vm_tlb_match((const struct xv6vm_entry *)xv6vm_lent(entries), __VA_ARGS__)
#define xv6vm_tlb_use(entries, ...) xv6vm_tlb_use((const struct xv6vm_entry *)xv6vm_lent(entries), __VA_ARGS__)
#define xv6vm_tlb_evict(entries, ...) xv6vm_tlb_evict((struct xv6vm_entry *)xv6vm_lent(entries), __VA_ARGS__)
#define xv6vm_tlb_fence(entries, ...) xv6vm_tlb_fence((struct xv6vm_entry *)xv6vm_lent(entries), __VA_ARGS__)
#define xv6vm_permits(entries, places, words, ...) \
    xv6vm_permits((const struct xv6vm_entry *)xv6vm_lent(entries), places, (const uint64_t *)xv6vm_lent(words), __VA_ARGS__)
#define xv6vm_hart_mem(hart, events, ...) xv6vm_hart_mem(hart, (struct xv6vm_event *)xv6vm_lent(events), __VA_ARGS__)
#define xv6vm_hart_satp(hart, events, ...) xv6vm_hart_satp(hart, (struct xv6vm_event *)xv6vm_lent(events), __VA_ARGS__)
#define xv6vm_hart_pmp(hart, events, ...) xv6vm_hart_pmp(hart, (struct xv6vm_event *)xv6vm_lent(events), __VA_ARGS__)
#define xv6vm_hart_fence(hart, events, ...) xv6vm_hart_fence(hart, (struct xv6vm_event *)xv6vm_lent(events), __VA_ARGS__)
#define xv6vm_hart_judge(hart, events, capacity, words, ...) \
    xv6vm_hart_judge(hart, (const struct xv6vm_event *)xv6vm_lent(events), capacity, (const uint64_t *)xv6vm_lent(words), __VA_ARGS__)
#define xv6vm_hart_outcomes(hart, events, capacity, words, count, base_ppn, access, found, ...) \
    xv6vm_hart_outcomes(hart, (const struct xv6vm_event *)xv6vm_lent(events), capacity, (const uint64_t *)xv6vm_lent(words), count, base_ppn, access, \
                        (struct xv6vm_judged *)xv6vm_lent(found), __VA_ARGS__)

/* xv6vm_permits, of a question. */
static inline uint32_t xv6vm_permits_of(const struct xv6vm_question *q, struct xv6vm_outcome outcome) {
    uint32_t answer = xv6vm_permits(q->entries, q->places, q->memory.words, q->memory.count, q->memory.base_ppn, q->satp, q->address, q->access,
                                    q->mode, outcome);
    return answer;
}

#ifdef __cplusplus
}
#endif
#endif
