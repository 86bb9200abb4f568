/* Which pages, mappings and page tables each process has. */
#include "driver.h"
#include <signal.h>
#include <stdlib.h>
#include <string.h>
#include <sys/mman.h>
#include <unistd.h>

struct played processes[SLOTS];
struct file files[FILES];
int slots, frames, file_count, image_count;

/* ---- mappings */

struct mapping *mapping_at(struct played *process, u64 address) {
    for (int number = 0; number < process->mapping_count; number++) {
        struct mapping *mapping = &process->mappings[number];
        if (mapping->address <= address && address < mapping->address + mapping->pages * PAGE)
            return mapping;
    }
    return NULL;
}

int is_shared(const struct mapping *mapping) { return mapping != NULL && mapping->flags == MAP_SHARED; }

int is_shared_to_write(const struct mapping *mapping) { return is_shared(mapping) && mapping->prot & PROT_WRITE; }

static int is_mapped_to_write(int file) {
    for (int slot = 0; slot < slots; slot++)
        for (int number = 0; processes[slot].is_live && number < processes[slot].mapping_count; number++) {
            const struct mapping *mapping = &processes[slot].mappings[number];
            if (mapping->file == file && is_shared_to_write(mapping))
                return 1;
        }
    return 0;
}

/* Linux keeps bytes that were stored past the end of a file, in its last page, as long as it keeps the page. In the model they are
   gone with the mapping, so they are cleared when nobody can store to the file any more. */
void clear_end(int file) {
    int length = files[file].length;
    if (is_altered(BYTES_PAST_END_STAY) || length % PAGE == 0 || is_mapped_to_write(file))
        return;
    if (ftruncate(WRITABLE_FILES + file, rounded_up(length)) || ftruncate(WRITABLE_FILES + file, length))
        stop("ftruncate");
}

void unmap_all(struct played *process) {
    int count = process->mapping_count;
    process->mapping_count = 0;
    for (int number = 0; number < count; number++)
        if (is_shared_to_write(&process->mappings[number]))
            clear_end(process->mappings[number].file);
}

/* Whether bytes may differ by design: they are of a file that a process mapped shared to write, in a script that does so freely. */
int may_differ(struct played *process, u64 address, u64 length) {
    for (int number = 0; setup->free_sharing && number < process->mapping_count; number++) {
        const struct mapping *mapping = &process->mappings[number];
        u64 end = mapping->address + mapping->pages * PAGE;
        if (files[mapping->file].is_shared && address < end && address + length > mapping->address)
            return 1;
    }
    return 0;
}

/* ---- pages */

static struct page *page_at(struct played *process, u64 address) {
    for (int number = 0; number < process->page_count; number++)
        if (process->pages[number].number == address / PAGE)
            return &process->pages[number];
    return NULL;
}

static struct page *new_page(struct played *process, u64 address) {
    if (process->page_count == process->page_room) {
        process->page_room += 256;
        process->pages = realloc(process->pages, process->page_room * sizeof *process->pages);
        if (process->pages == NULL)
            stop("no memory");
    }
    struct page *page = &process->pages[process->page_count++];
    *page = (struct page){.number = address / PAGE, .state = UNTOUCHED};
    return page;
}

/* Notes the page tables that a page needs. They stay if the page goes. */
static void note_tables(struct played *process, u64 address) {
    int levels = setup->sv48 ? TABLE_LEVELS : TABLE_LEVELS - 1;
    for (int level = 0; level < levels; level++) {
        u64 table = address / PAGE >> 9 * (level + 1);
        int count = process->table_counts[level], number = 0;
        while (number < count && process->tables[level][number] != table)
            number++;
        if (number == TABLES)
            stop("too many page tables");
        process->tables[level][number] = table;
        process->table_counts[level] += number == count;
    }
}

int table_count(const struct played *process) {
    return 1 + process->table_counts[0] + process->table_counts[1] + process->table_counts[2];
}

void touch(struct played *process, u64 address, int is_stored) {
    struct page *page = page_at(process, address);
    if (page == NULL)
        page = new_page(process, address);
    note_tables(process, address);
    if (is_stored)
        page->state = STORED;
    else if (page->state == UNTOUCHED)
        page->state = LOADED;
}

/* Forgets the pages from an address up to another. */
void forget(struct played *process, u64 from, u64 to) {
    int kept = 0;
    for (int number = 0; number < process->page_count; number++) {
        u64 address = process->pages[number].number * PAGE;
        if (address < from || address >= to)
            process->pages[kept++] = process->pages[number];
    }
    process->page_count = kept;
}

/* Whether a soft fault of Linux says that the model has a fault: the page is not there yet, or a fork shares it. Not so where Linux
   has its zero page, and for pages of files, of which it maps several at once. A fetch looks at the bytes first. */
int tells_faults(struct played *process, u64 address, enum kind kind) {
    const struct mapping *mapping = mapping_at(process, address);
    const struct page *page = page_at(process, address);
    enum state state = page ? page->state : UNTOUCHED;
    if (is_shared(mapping))
        return 0;
    if (kind == FETCH)
        return state == STORED;
    if (mapping != NULL)
        return state == STORED || (state == UNTOUCHED && kind == STORE);
    return state == STORED || state == UNTOUCHED || (state == LOADED && kind == LOAD);
}

/* ---- processes */

static void begin_tables(struct played *process) {
    memset(process->table_counts, 0, sizeof process->table_counts);
    note_tables(process, address_end() - PAGE);
    note_tables(process, process->base - 2 * PAGE); /* the guard page */
}

void begin_process(struct played *process, int image, u64 base) {
    process->is_live = 1;
    process->by_map = setup->by_map;
    process->base = process->size = base;
    process->mapping_count = process->page_count = 0;
    begin_tables(process);
    for (int number = 0; number < setup->images[image].count; number++) {
        const struct segment *segment = &setup->images[image].segments[number];
        for (u64 at = 0; at < segment->size; at += PAGE)
            touch(process, segment->address + at, 1);
    }
    touch(process, base - PAGE, 1);
}

/* The child of a fork. Its process ID is its own already. */
void copy_process(const struct played *parent, struct played *child) {
    struct played old = *child;
    *child = *parent;
    child->pid = old.pid;
    child->pages = old.pages;
    child->page_room = old.page_room;
    child->page_count = 0;
    begin_tables(child);
    for (int number = 0; number < parent->page_count; number++) {
        const struct page *page = &parent->pages[number];
        note_tables(child, page->number * PAGE);
        new_page(child, page->number * PAGE)->state = page->state == LOADED ? UNKNOWN : page->state;
    }
}

int lowest_slot(void) {
    for (int slot = 0; slot < slots; slot++)
        if (!processes[slot].is_live)
            return slot;
    return -1;
}

/* ---- rules */

const char *const RULES[] = {"",           "1 Misaligned", "2 BeyondMax", "3 KernelPage", "4 GuardPage",
                             "5 NoRegion", "6 NoRead",     "7 NoWrite",   "8 NoExec"};

/* The rule that Linux denies an access by; none if its signal says no such thing. A load of the same byte tells NoWrite and NoExec
   from a page that grants nothing; memory that may only be executed has a protection key. */
enum rule rule_of(const struct denial *denial, enum kind kind, u64 address) {
    static const enum rule NOT_GRANTED[] = {[LOAD] = NO_READ, [STORE] = NO_WRITE, [FETCH] = NO_EXEC};
    if (denial->signal == SIGBUS && denial->code == BUS_ADRALN)
        return MISALIGNED;
    if (denial->is_before_right)
        return NO_EXEC;
    if (denial->signal != SIGSEGV)
        return NO_RULE;
    if (denial->code == SEGV_MAPERR || denial->code == SI_KERNEL)
        return address >= address_end() ? BEYOND_MAX : NO_REGION;
    if (address >= trapframe() && address < address_end())
        return KERNEL_PAGE;
    if (denial->load_signal == 0 || denial->load_signal == SIGBUS)
        return kind == LOAD ? NO_RULE : NOT_GRANTED[kind];
    return denial->load_code == SEGV_PKUERR ? NOT_GRANTED[kind] : GUARD_PAGE;
}
