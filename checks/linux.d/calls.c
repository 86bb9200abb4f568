/* The lines that are system calls and copies. */
#include "driver.h"
#include <errno.h>
#include <stdio.h>
#include <string.h>
#include <sys/mman.h>
#include <sys/uio.h>
#include <sys/wait.h>

enum { LONGEST_MAPPING = 1 << 20 };

void play_fork(int slot) {
    int child = lowest_slot();
    if (child < 0) {
        answer(OWN, "fork refused 10 NoSlot");
        now("refused 10 NoSlot");
        return;
    }
    struct request request = {.what = FORK, .value = child};
    struct reply reply;
    ask(slot, &request, &reply);
    processes[child].pid = reply.result;
    receive(child, &reply);
    copy_process(&processes[slot], &processes[child]);
    answer(ASKED, "fork");
    now("slot %d", child);
}

void play_exec(int slot) {
    struct request request = {.what = EXEC, .value = next_below(image_count)};
    struct reply reply;
    ask(slot, &request, &reply);
    unmap_all(&processes[slot]);
    begin_process(&processes[slot], request.value, reply.value);
    answer(ASKED, "exec");
    now("ok");
}

/* ---- sbrk */

static void answer_resized(struct played *process, int64_t change, int is_by_map_now) {
    const char *how = is_by_map_now ? "mmap where brk wants a gap" : !process->by_map ? "brk" : change < 0 ? "munmap" : "mmap";
    answer(ASKED, "sbrk %s, %s", change < 0 ? "shrinks" : "grows", how);
    now("old 0x%lx", process->size);
    if (is_by_map_now)
        process->by_map = 1;
    if (change < 0)
        forget(process, rounded_up(process->size + change), rounded_up(process->size));
    process->size += change;
}

void play_sbrk(int slot) {
    struct played *process = &processes[slot];
    int64_t change = next_signed();
    if ((__int128)process->size + change < process->base) {
        answer(OWN, "sbrk refused 13 BadSize");
        now("refused 13 BadSize");
        return;
    }
    struct request request = {.what = SBRK, .address = process->size, .value = process->size + change};
    struct reply reply;
    ask(slot, &request, &reply);
    if (reply.result != NO_ROOM) {
        answer_resized(process, change, reply.result == BY_MAP_NOW);
        return;
    }
    answer(ASKED, "sbrk refused 14 NoRoom, %s", process->by_map ? "mmap" : "brk");
    now("refused 14 NoRoom");
}

/* ---- mmap and munmap */

static const char *const REFUSALS[] = {
    [NO_ROOM] = "14 NoRoom", [BAD_ARGUMENT] = "15 BadArgument", [NOT_WRITABLE] = "16 FileNotWritable", [MAPPINGS_FULL] = "17 MappingsFull"};

static void answer_mapped(struct played *process, const struct request *request, u64 address) {
    struct mapping *mapping = &process->mappings[process->mapping_count++];
    *mapping = (struct mapping){address, rounded_up(request->length) / PAGE, request->prot, request->flags, request->file};
    files[request->file].is_shared |= is_shared_to_write(mapping);
    answer(ASKED, "mmap %s", is_shared(mapping) ? "shared" : "private");
    now("at 0x%lx", address);
}

/* Linux maps what the model refuses: no right at all, more rights, MAP_SHARED_VALIDATE (3), more than 1 MiB. */
void play_mmap(int slot) {
    struct played *process = &processes[slot];
    u64 length = next_number(), prot = next_number(), flags = next_number(), file = next_number();
    int is_own = prot == 0 || prot > 7 || flags == 3 || length > LONGEST_MAPPING, is_file = file < (u64)file_count;
    struct request request = {.what = MMAP, .address = rounded_up(process->size), .length = length, .prot = prot, .flags = flags};
    request.file = is_file ? (int)file : -1;
    request.file_pages = is_file ? rounded_up(files[file].length) / PAGE : 0;
    request.is_full = process->mapping_count == MAPPINGS;
    struct reply reply = {.result = BAD_ARGUMENT};
    if (!is_own)
        ask(slot, &request, &reply);
    if (reply.result == OK) {
        answer_mapped(process, &request, reply.value);
        return;
    }
    answer(is_own || reply.result == MAPPINGS_FULL ? OWN : ASKED, "mmap refused %s", REFUSALS[reply.result]);
    now("refused %s", REFUSALS[reply.result]);
}

/* Linux unmaps what the model refuses: pages in no mapping, or in several, and pages in the middle of one. */
static const char *munmap_refusal(const struct mapping *mapping, u64 address, u64 pages) {
    if (mapping == NULL || pages > mapping->pages)
        return "15 BadArgument";
    u64 first = (address - mapping->address) / PAGE;
    if (first + pages > mapping->pages)
        return "15 BadArgument";
    return first > 0 && first + pages < mapping->pages ? "18 HoleInMapping" : NULL;
}

/* Notes that pages of a mapping are gone, at one of its ends. */
static void shorten(struct played *process, struct mapping *mapping, u64 address, u64 pages) {
    struct mapping old = *mapping;
    forget(process, address, address + pages * PAGE);
    if (address == mapping->address)
        mapping->address += pages * PAGE;
    mapping->pages -= pages;
    if (mapping->pages == 0)
        *mapping = process->mappings[--process->mapping_count];
    if (is_shared_to_write(&old))
        clear_end(old.file);
}

void play_munmap(int slot) {
    struct played *process = &processes[slot];
    u64 address = next_number(), length = next_number(), pages = rounded_up(length) / PAGE;
    struct request request = {.what = MUNMAP, .address = address, .length = length};
    struct mapping *mapping = mapping_at(process, address);
    int is_argument = address % PAGE == 0 && length > 0;
    const char *refusal = is_argument ? munmap_refusal(mapping, address, pages) : NULL;
    if (refusal) {
        answer(OWN, "munmap refused %s", refusal);
        now("refused %s", refusal);
        return;
    }
    struct reply reply;
    ask(slot, &request, &reply);
    answer(ASKED, is_argument ? "munmap" : "munmap refused 15 BadArgument");
    if (reply.result != (is_argument ? 0 : EINVAL))
        wrong("error %ld", reply.result);
    else if (is_argument)
        shorten(process, mapping, address, pages);
    now(is_argument ? "ok" : "refused 15 BadArgument");
}

/* ---- copies */

struct copy {
    struct played *process;
    int is_out;
    u64 address;
    uint32_t count;
    const uint8_t *bytes; /* to copy out */
    struct reply reply;
};

/* The pages of a copy, and how many there are: at most two. */
static int pages_of(const struct copy *copy, struct iovec pages[2]) {
    int number = 0;
    for (u64 done = 0; done < copy->count; number++) {
        u64 address = copy->address + done, in_page = PAGE - address % PAGE, left = copy->count - done;
        pages[number] = (struct iovec){(void *)place_of(address), in_page < left ? in_page : left};
        done += pages[number].iov_len;
    }
    return number;
}

/* Linux copies the same bytes again, from outside the process. Returns how many. */
static uint32_t copied_again(const struct copy *copy, uint8_t bytes[COPIED]) {
    struct iovec pages[2], own = {bytes, copy->count};
    int count = pages_of(copy, pages);
    if (copy->is_out)
        memcpy(bytes, copy->bytes, copy->count);
    pid_t pid = copy->process->pid;
    ssize_t done = copy->is_out ? process_vm_writev(pid, &own, 1, pages, count, 0) : process_vm_readv(pid, &own, 1, pages, count, 0);
    return count == 0 || done < 0 ? 0 : done;
}

static int is_write_only(const struct copy *copy) {
    for (u64 at = copy->address; at < copy->address + copy->count; at++) {
        const struct mapping *mapping = mapping_at(copy->process, at);
        if (mapping && (mapping->prot & (PROT_READ | PROT_WRITE)) == PROT_WRITE)
            return 1;
    }
    return 0;
}

/* Whether both copies agree. process_vm_readv refuses memory that may be written and not read; read(2) and write(2) use the
   processor, which grants both. A process_vm_readv also takes a frame of its own for a page that a fork shares. */
static int is_confirmed(const struct copy *copy, const char **note) {
    uint8_t bytes[COPIED] = {0};
    *note = "";
    if ((setup->frames && !copy->is_out) || is_altered(COPYOUT_IGNORES_RIGHTS) || is_altered(COPY_STOPS_EARLY))
        return 1;
    uint32_t done = copied_again(copy, bytes), expected = copy->reply.done;
    if (done == expected && (copy->is_out || memcmp(bytes, copy->reply.bytes, done) == 0))
        return 1;
    *note = " (process_vm_readv refuses write-only memory)";
    return !copy->is_out && done < expected && is_write_only(copy);
}

static void answer_whole(const struct copy *copy, const char *note) {
    int count = copy->count, is_other = !copy->is_out && may_differ(copy->process, copy->address, count);
    answer(ASKED, "%s%s%s", copy->is_out ? "copyout" : "copyin", is_other ? " of a shared file" : "", note);
    if (copy->is_out)
        now("copied %d", count);
    else
        now("copied %d %s", count, text_of(copy->reply.bytes, count));
    if (is_other)
        like(COHERENT, "copied %d [0-9a-f]{%d}", count, 2 * count);
}

static void answer_short(const struct copy *copy) {
    int done = copy->reply.done, is_other = !copy->is_out && may_differ(copy->process, copy->address, copy->count);
    const char *word = copy->is_out ? "copyout" : "copyin", *text = text_of(copy->reply.bytes, done);
    const struct denial *denial = &copy->reply.denial;
    enum rule rule = rule_of(denial, copy->is_out ? STORE : LOAD, copy->address + done);
    answer(ASKED, "%s short %s%s", word, RULES[rule], is_other ? " of a shared file" : "");
    if (rule == NO_RULE && denial->signal == SIGBUS && setup->linux_ends)
        like(PAST_END, copy->is_out ? "copied %d|short .* done \\d+" : "copied %d .*|short .* done \\d+ .*", (int)copy->count);
    else if (rule == NO_RULE || rule == MISALIGNED)
        wrong("stopped after %d, by signal %d, code %d", done, denial->signal, denial->code);
    else if (copy->is_out)
        now("short %s done %d", RULES[rule], done);
    else
        now("short %s done %d %s", RULES[rule], done, text);
    if (is_other)
        like(COHERENT, "short %s done %d [0-9a-f-]+", RULES[rule], done);
}

static void play_copy(struct copy *copy, int slot) {
    struct request request = {.what = copy->is_out ? COPYOUT : COPYIN, .address = copy->address, .length = copy->count};
    const char *note;
    if (copy->is_out)
        memcpy(request.bytes, copy->bytes, copy->count);
    copy->process = &processes[slot];
    ask(slot, &request, &copy->reply);
    int confirmed = is_confirmed(copy, &note);
    for (uint32_t done = 0; done < copy->reply.done; done++)
        touch(copy->process, copy->address + done, copy->is_out);
    if (!confirmed) {
        answer(ASKED, "copy");
        wrong("process_vm_readv or process_vm_writev does not confirm %u bytes", copy->reply.done);
    } else if (copy->reply.done == copy->count) {
        answer_whole(copy, note);
    } else {
        answer_short(copy);
    }
}

void play_copyin(int slot) {
    struct copy copy = {.address = next_number()};
    copy.count = next_below(COPIED + 1);
    play_copy(&copy, slot);
}

void play_copyout(int slot) {
    uint8_t bytes[COPIED];
    struct copy copy = {.is_out = 1, .address = next_number(), .bytes = bytes};
    copy.count = next_bytes(bytes, COPIED);
    play_copy(&copy, slot);
}

/* ---- exit */

/* Linux keeps the lowest 8 bits of a status. */
void play_exit(int slot) {
    int64_t status = next_signed();
    struct request request = {.what = EXIT, .value = status};
    tell(slot, &request);
    int ended = wait_for_end(slot);
    end_process(slot);
    answer(ASKED, "exit");
    if (!WIFEXITED(ended) || WEXITSTATUS(ended) != (status & 0xff))
        wrong("status %#x", ended);
    now("exited %ld", status);
}
