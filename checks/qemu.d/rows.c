/* A bare-metal program for QEMU's machine virt. It carries out rows of events, and writes down what came of each access. Nothing
   is fenced but by an event, so that QEMU's TLB answers what it likes to.

   rows.py lays out the events from INPUT on, as 64-bit words, and reads the outcomes there when QEMU has ended:

     header     how many events, 0, whether the probe came to the end (written by the probe), 0
     event      its number (EVENTS), up to two arguments, 0, 0, 0
     access     ACCESS + 256 * the number as `attempt` takes it, the bits of mstatus, virtual address, 0, 0, 0
     outcome    written over the access: ACCESS .., mcause or GRANTED, what was loaded or mtval, after a granted store the address
                that it changed, and the address and the new word of a PTE that the hart changed (0 if there is none)

   PTEs are at the first places of the tables. What no event stores to holds its filler. What an access stored is put back. */
#include "probe.h"

enum { BEGIN, WRITE, WRITE_SATP, FENCE_ALL, FENCE_ADDRESS, FENCE_SPACE, FENCE_BOTH, ACCESS }; /* EVENTS */
enum { HEADER = 4, FIRST_TABLE = 32, TABLES = 15, PLACES = 4 };

struct event {
    uint64_t what, first, second, third, place, word;
};

static uint64_t known[TABLES][PLACES]; /* what the PTEs were before an access */

static volatile uint64_t *place_of(uint64_t table, uint64_t place) {
    return MEMORY + (FIRST_TABLE + table) * WORDS_OF_FRAME + place;
}

static void note_entries(void) {
    for (uint64_t table = 0; table < TABLES; table++)
        for (uint64_t place = 0; place < PLACES; place++)
            known[table][place] = *place_of(table, place);
}

/* Notes a PTE that changed since. */
static void find_changed(struct event *event) {
    for (uint64_t table = 0; table < TABLES; table++)
        for (uint64_t place = 0; place < PLACES; place++)
            if (*place_of(table, place) != known[table][place]) {
                event->place = (uint64_t)place_of(table, place);
                event->word = *place_of(table, place);
            }
}

/* Begins anew: a full fence, Bare, and a memory of filler. */
static void begin(void) {
    WRITE_CSR("satp", 0);
    asm volatile("sfence.vma" ::: "memory");
    for (uint64_t index = 0; index < WORDS; index++)
        MEMORY[index] = filler(index);
}

/* Looks for the frame in which a store changed the word at an offset, puts it back, and returns its address. */
static uint64_t put_back(uint64_t va) {
    uint64_t changed = 0;
    for (uint64_t index = va % 4096 / 8; index < WORDS; index += WORDS_OF_FRAME)
        if (MEMORY[index] == va) {
            MEMORY[index] = filler(index);
            changed = (uint64_t)&MEMORY[index];
        }
    return changed;
}

/* A store stores its address, which no word of the memory is. */
static void try_access(struct event *event) {
    uint64_t which = event->what / 256, va = event->second;
    note_entries();
    struct outcome outcome = attempt(va, va, which, event->first);
    event->first = outcome.cause;
    event->second = outcome.value;
    find_changed(event);
    event->third = which >= ATTEMPT_STORE && which < ATTEMPT_FETCH_HERE && outcome.cause == GRANTED ? put_back(va) : 0;
}

static void carry_out(struct event *event) {
    uint64_t first = event->first, second = event->second;
    switch (event->what % 256) {
    case BEGIN:
        begin();
        break;
    case WRITE:
        *(volatile uint64_t *)first = second;
        break;
    case WRITE_SATP:
        WRITE_CSR("satp", first);
        break;
    case FENCE_ALL:
        asm volatile("sfence.vma" ::: "memory");
        break;
    case FENCE_ADDRESS:
        asm volatile("sfence.vma %0, zero" ::"r"(first) : "memory");
        break;
    case FENCE_SPACE:
        asm volatile("sfence.vma zero, %0" ::"r"(second) : "memory");
        break;
    case FENCE_BOTH:
        asm volatile("sfence.vma %0, %1" ::"r"(first), "r"(second) : "memory");
        break;
    case ACCESS:
        try_access(event);
        break;
    }
}

void run(void) {
    struct event *events = (struct event *)(INPUT + HEADER);
    WRITE_CSR("pmpaddr0", -1ul >> 10);
    WRITE_CSR("pmpcfg0", 0x1f);
    allow_extensions();
    for (uint64_t number = 0; number < INPUT[0]; number++)
        carry_out(events + number);
    INPUT[2] = 1;
}
