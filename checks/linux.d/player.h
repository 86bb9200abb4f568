/* What the parts of the player share. The player plays a script of `xv6vm play` with real processes of Linux on x86-64, one for each
   process of the script:

     driver.c      reads the script, asks the processes, and answers each line by what Linux did
     accesses.c    plays the lines that are accesses, and `fix`
     calls.c       plays the lines that are system calls and copies
     ledger.c      knows which pages, mappings and page tables each process has
     frames.c      counts the frames that Linux holds for the processes, and looks what this machine can do
     process.c     is such a process: it does one thing at a time, as the driver asks
     access.c      makes one access, and notes the signal that denies it */
#define _GNU_SOURCE
#include <stdint.h>
#include <sys/types.h>

typedef uint64_t u64;

enum { PAGE = 4096, SLOTS = 64, HARTS = 8, FILES = 16, IMAGES = 64, SEGMENTS = 16, MAPPINGS = 16, COPIED = 256 };

/* Descriptors that a process keeps when it executes itself again. */
enum { DRIVER_ENDS = 100, PROCESS_ENDS = 200, WRITABLE_FILES = 300, MAPPED_FILES = 330, SETUP = 400, PIPE_OUT = 401, PIPE_IN = 402 };

/* Errors that can be planted in the player. Each must be found: the check is then able to fail. */
enum altered {
    UNALTERED,
    FORK_SHARES_MEMORY,
    SHRINK_RELEASES_NOTHING,
    SHRINK_KEEPS_BYTES,
    PRIVATE_WRITES_BACK,
    GUARD_CAN_BE_READ,
    READ_ONLY_CAN_BE_WRITTEN,
    MUNMAP_LEAVES_LAST_PAGE,
    COPYOUT_IGNORES_RIGHTS,
    READ_ONLY_FILE_IS_OPEN,
    SHARED_IS_PRIVATE,
    MMAP_LEAVES_A_PAGE,
    ALIGNMENT_IS_IGNORED,
    BYTES_PAST_END_STAY,
    COPY_STOPS_EARLY,
    ALTERATIONS
};

struct segment {
    u64 address, size, bytes; /* bytes: where they begin in those of all images */
    uint32_t length;
    int prot;
};

struct image {
    int count;
    struct segment segments[SEGMENTS];
};

/* What driver and processes agree on, in memory that all of them map. */
struct setup {
    int altered;      /* of enum altered */
    int by_map;       /* the heap is made by mmap and munmap, not by brk */
    int linux_ends;   /* pages past the end of a file are left to Linux, which raises SIGBUS there */
    int frames;       /* answers of `audit` are compared: no process_vm_readv, which copies a page that a fork shares */
    int free_sharing; /* files may be mapped shared as the script likes, so their bytes may differ */
    int sv48;
    struct image images[IMAGES];
    u64 bytes_used;
    uint8_t bytes[24 << 20];
};

extern struct setup *setup;

static inline int is_altered(enum altered how) { return setup->altered == (int)how; }

/* The first address that no page table can map; the pages of trampoline and trapframe are below it. */
static inline u64 address_end(void) { return (u64)1 << (setup->sv48 ? 47 : 38); }
static inline u64 trapframe(void) { return address_end() - 2 * PAGE; }
static inline u64 rounded_up(u64 bytes) { return (bytes + PAGE - 1) / PAGE * PAGE; }

/* Where Linux has the addresses of a script: 2^44 and more above, away from the player's own memory. Under Sv48 only the lowest 2^44
   and the highest 2^43 fit. The others are put at addresses that are not canonical, where Linux has no memory either. */
enum { MOVED_BITS = 44, LOW_BITS = 44, HIGH_BITS = 43 };
#define MOVED ((u64)1 << MOVED_BITS)
#define HIGH_PART (MOVED + ((u64)1 << LOW_BITS))
#define HIGH_START (address_end() - ((u64)1 << HIGH_BITS))

static inline u64 place_of(u64 address) {
    if (!setup->sv48 || address < (u64)1 << LOW_BITS || address >= address_end())
        return address + MOVED;
    return address >= HIGH_START ? address - HIGH_START + HIGH_PART : address + address_end();
}

/* One past the last place of an address below the end. */
static inline u64 places_end(void) { return setup->sv48 ? HIGH_PART + ((u64)1 << HIGH_BITS) : MOVED + address_end(); }

enum kind { LOAD, STORE, FETCH };
enum what { ACCESS, DIE, FORK, EXEC, SBRK, MMAP, MUNMAP, COPYIN, COPYOUT, EXIT };

/* What a process is asked to do. */
struct request {
    int what;             /* of enum what */
    int kind;             /* of enum kind, of an access */
    u64 address, length;  /* of an access, a copy, a mapping; the heap's old end, by SBRK. MMAP: the address is the lowest possible */
    u64 value;            /* to store; the child's slot, by FORK; the image, by EXEC; the heap's new end, by SBRK; the status, by EXIT */
    int prot, flags;      /* MMAP */
    int file, file_pages; /* MMAP: the file, -1 if there is none, and how many pages it has */
    int is_full;          /* MMAP: the process has all mappings that it may have */
    uint8_t bytes[COPIED];
};

/* How the processor and Linux denied an access, and one load of the same byte. */
struct denial {
    int signal, code;           /* 0: it was not denied */
    u64 error;                  /* the processor's error code */
    int load_signal, load_code; /* 0: a load is granted */
    int is_before_right;        /* SIGBUS, though the mapping would not grant the fetch either */
};

enum { IS_FETCH = 16, IS_WRITE = 2 }; /* bits of the processor's error code */

struct reply {
    int64_t result; /* an error, 0 if there is none; FORK: the child's process ID */
    u64 value;      /* loaded or fetched; MMAP: the address; start and EXEC: where the heap begins */
    int is_granted, is_by_maps, soft_faults;
    struct denial denial;
    uint32_t done; /* how many bytes were copied */
    uint8_t bytes[COPIED];
};

enum result { OK, NO_ROOM, BAD_ARGUMENT, NOT_WRITABLE, MAPPINGS_FULL, BY_MAP_NOW };

/* access.c */
void catch_signals(void);
void let_signals_kill(void);
int attempt(enum kind kind, u64 place, u64 width, u64 value);
void make_access(const struct request *request, struct reply *reply);
void note_denial(enum kind kind, u64 place, struct denial *denial);

/* How a process ends if something goes wrong in it. SURVIVED: the access that should end it did not. */
enum { SURVIVED = 97, FAILED, UNEXPECTED_SIGNAL };

/* process.c */
_Noreturn void be_process(int slot, int image, int by_map);
int moved_heap(u64 place);
