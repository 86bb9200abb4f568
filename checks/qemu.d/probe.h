/* What both probes share: the memory, its filler, and how a trap is caught (probe.S). */
#include <stdint.h>

enum { WORDS_OF_FRAME = 512, FRAMES = 1024, WORDS = WORDS_OF_FRAME * FRAMES };
enum { FETCH, LOAD, STORE };
enum { ATTEMPT_FETCH = 0, ATTEMPT_LOAD = 1, ATTEMPT_STORE = 5, ATTEMPT_FETCH_HERE = 9 };

static const uint64_t GRANTED = -1;

struct outcome {
    uint64_t cause, value;
};

struct outcome attempt(uint64_t va, uint64_t value, uint64_t which, uint64_t mstatus);

static volatile uint64_t *const MEMORY = (volatile uint64_t *)0x80000000;
static uint64_t *const INPUT = (uint64_t *)0x81000000;

/* Two instructions that no hart of QEMU knows (opcode custom-0). Each of them tells where it is. */
static inline uint64_t filler(uint64_t index) {
    uint64_t low = 0x8000000b | index << 12;
    return low | (low | 0x800) << 32;
}

#define WRITE_CSR(name, value) asm volatile("csrw " name ", %0" ::"r"((uint64_t)(value)) : "memory")

/* Writes a word to pmpaddr of a number, and to the next one. */
#define WRITE_PMP_ADDRESSES(words, number, next) \
    WRITE_CSR("pmpaddr" #number, (words)[number]); \
    WRITE_CSR("pmpaddr" #next, (words)[next])

/* Writes the 16 words of pmpaddr0 to 15. */
static inline void write_pmp_addresses(const uint64_t *words) {
    WRITE_PMP_ADDRESSES(words, 0, 1);
    WRITE_PMP_ADDRESSES(words, 2, 3);
    WRITE_PMP_ADDRESSES(words, 4, 5);
    WRITE_PMP_ADDRESSES(words, 6, 7);
    WRITE_PMP_ADDRESSES(words, 8, 9);
    WRITE_PMP_ADDRESSES(words, 10, 11);
    WRITE_PMP_ADDRESSES(words, 12, 13);
    WRITE_PMP_ADDRESSES(words, 14, 15);
}

static inline void write_pmp_configs(uint64_t low, uint64_t high) {
    WRITE_CSR("pmpcfg0", low);
    WRITE_CSR("pmpcfg2", high);
}

/* Sets ADUE and PBMTE in menvcfg, if the hart has them. A trap skips the write. */
static inline void allow_extensions(void) {
    uint64_t bits = 3ul << 61, after;
    asm volatile("la %0, 1f; csrw mtvec, %0; csrs 0x30a, %1; .balign 4; 1:" : "=&r"(after) : "r"(bits) : "memory");
}
