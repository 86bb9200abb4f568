/* The frames that Linux holds for the processes, and what this machine can do. */
#include "driver.h"
#include <errno.h>
#include <fcntl.h>
#include <stdio.h>
#include <stdlib.h>
#include <string.h>
#include <sys/ioctl.h>
#include <sys/mman.h>
#include <unistd.h>

/* The ioctl PAGEMAP_SCAN of Linux 6.7, which older headers lack. */
struct scan {
    u64 size, flags, start, end, walk_end, ranges, range_count, max_pages, inverted, mask, any_of, returned;
};

struct range {
    u64 start, end, categories;
};

enum { IS_OF_FILE = 1 << 2, IS_PRESENT = 1 << 3, IS_ZERO_PAGE = 1 << 5, RANGES = 4096, PLACES = 1 << 16 };
#define SCAN _IOWR('f', 16, struct scan)
#define FRAME_PRESENT ((u64)1 << 63)
#define FRAME_NUMBER (((u64)1 << 55) - 1)

static struct range ranges[RANGES];

/* Finds the pages that have a frame of memory of their own: neither the zero page nor one of a file. Returns how many ranges. */
static int scanned(int pagemap, u64 start, u64 end) {
    struct scan scan = {.size = sizeof scan, .start = start, .end = end, .ranges = (u64)ranges, .range_count = RANGES};
    scan.mask = IS_OF_FILE | IS_PRESENT | IS_ZERO_PAGE;
    scan.inverted = IS_OF_FILE | IS_ZERO_PAGE;
    scan.returned = IS_PRESENT;
    return ioctl(pagemap, SCAN, &scan);
}

/* The number of the frame at a place; 0 if there is none, or if Linux does not tell. */
static u64 frame_at(int pagemap, u64 place) {
    u64 entry;
    if (pread(pagemap, &entry, sizeof entry, place / PAGE * sizeof entry) != sizeof entry || !(entry & FRAME_PRESENT))
        return 0;
    return entry & FRAME_NUMBER;
}

/* ---- audit */

/* The frames that the pages of all processes have, one for each page that is on one. */
static u64 numbers[PLACES];
static int number_count;

static void note_frames(int pagemap, const struct range *range) {
    for (u64 place = range->start; place < range->end; place += PAGE) {
        u64 number = frame_at(pagemap, place);
        if (number == 0 || number_count == PLACES)
            stop("the frame at %#lx is not known", place);
        numbers[number_count++] = number;
    }
}

static void note_frames_of(const struct played *process) {
    char name[64];
    snprintf(name, sizeof name, "/proc/%d/pagemap", process->pid);
    int pagemap = open(name, O_RDONLY), count = scanned(pagemap, MOVED, places_end());
    if (count < 0 || count == RANGES)
        stop("PAGEMAP_SCAN finds %d ranges: %s", count, strerror(errno));
    for (int number = 0; number < count; number++)
        note_frames(pagemap, &ranges[number]);
    close(pagemap);
}

static int by_number(const void *one, const void *other) {
    u64 left = *(const u64 *)one, right = *(const u64 *)other;
    return left < right ? -1 : left > right;
}

/* Counts different frames, and those that more than one page has. */
static void count_frames(int *different, int *shared) {
    qsort(numbers, number_count, sizeof *numbers, by_number);
    *different = *shared = 0;
    for (int first = 0, next; first < number_count; first = next) {
        for (next = first + 1; next < number_count && numbers[next] == numbers[first];)
            next++;
        ++*different;
        *shared += next - first > 1;
    }
}

/* Whether each page has a frame of its own in Linux as in the model. */
static int has_own_frames(struct played *process) {
    for (int number = 0; number < process->page_count; number++) {
        const struct page *page = &process->pages[number];
        if (page->state != STORED || is_shared(mapping_at(process, page->number * PAGE)))
            return 0;
    }
    return 1;
}

/* Frames of pages are counted by Linux. Those of the kernel, of page tables and of trapframes are not the same there, so they are
   what the model's layout needs: each process refers to the trampoline's frame, to its trapframe and to its tables. */
void play_audit(void) {
    int live = 0, tables = 0, different, shared, kernel = (setup->sv48 ? 8 : 6) + (frames > 512) + slots;
    number_count = 0;
    for (int slot = 0; slot < slots; slot++) {
        if (!processes[slot].is_live)
            continue;
        if (!setup->frames || !has_own_frames(&processes[slot])) {
            answer(ASKED, "audit");
            like(OTHER_FRAMES, "free \\d+ held \\d+ shared \\d+ references \\d+");
            return;
        }
        note_frames_of(&processes[slot]);
        live++;
        tables += table_count(&processes[slot]);
    }
    count_frames(&different, &shared);
    int held = kernel + different + live + tables, references = kernel + 2 * live + tables + number_count;
    answer(ASKED, "audit by Linux's frames");
    now("free %d held %d shared %d references %d", frames - held, held, shared + (live > 0), references);
}

/* ---- abilities */

static int has_keys(void) {
    void *memory = mmap(NULL, PAGE, PROT_EXEC, MAP_PRIVATE | MAP_ANONYMOUS, -1, 0);
    catch_signals();
    return memory != MAP_FAILED && !attempt(LOAD, (u64)memory, 1, 0);
}

static int has_scan(void) {
    int pagemap = open("/proc/self/pagemap", O_RDONLY);
    return scanned(pagemap, MOVED, places_end()) >= 0;
}

static int has_frame_numbers(void) {
    return frame_at(open("/proc/self/pagemap", O_RDONLY), (u64)&numbers) != 0;
}

/* Whether a process may have all addresses of Sv39 below the trapframe, but for their frames. */
static int has_room(void) {
    int flags = MAP_PRIVATE | MAP_ANONYMOUS | MAP_NORESERVE;
    return mmap(NULL, (u64)1 << 38, PROT_READ | PROT_WRITE, flags, -1, 0) != MAP_FAILED;
}

/* Prints what can be compared on this machine. */
void tell_abilities(void) {
    numbers[0] = 1;
    printf("room %d\nkeys %d\nscan %d\nnumbers %d\n", has_room(), has_keys(), has_scan(), has_frame_numbers());
    printf("heap %d\n", moved_heap(MOVED));
}
