/* A process of the script: does one thing at a time, as the driver asks. */
#include "player.h"
#include <errno.h>
#include <fcntl.h>
#include <linux/prctl.h>
#include <sched.h>
#include <signal.h>
#include <stdio.h>
#include <stdlib.h>
#include <string.h>
#include <sys/mman.h>
#include <sys/prctl.h>
#include <sys/socket.h>
#include <sys/syscall.h>
#include <unistd.h>

enum { PRIVATE_MEMORY = MAP_PRIVATE | MAP_ANONYMOUS | MAP_NORESERVE, NEW = MAP_FIXED_NOREPLACE, READ_WRITE = PROT_READ | PROT_WRITE };
enum { MOST_PLACES = 100000 }; /* how many places are tried for a mapping */

struct setup *setup;
static int own_slot, by_map;

static _Noreturn void fail(const char *what) {
    dprintf(2, "player: process of slot %d: %s: %s\n", own_slot, what, strerror(errno));
    _exit(FAILED);
}

static void *map(u64 place, u64 length, int prot, int flags, int file) {
    void *memory = mmap((void *)place, length, prot, flags, file, 0);
    if (memory == MAP_FAILED)
        fail("mmap");
    return memory;
}

static void protect(u64 place, u64 length, int prot) {
    if (mprotect((void *)place, length, prot))
        fail("mprotect");
}

static void unmap(u64 place, u64 length) {
    if (munmap((void *)place, length))
        fail("munmap");
}

/* ---- the image */

enum { FIRST_FIELD = 3, FIELDS = 52 };

/* The fields of /proc/self/stat by their numbers in proc(5), from the third on: the second, a name, may have blanks. */
static void read_stat(u64 fields[FIELDS]) {
    char text[2048];
    int file = open("/proc/self/stat", O_RDONLY);
    ssize_t length = read(file, text, sizeof text - 1);
    close(file);
    text[length > 0 ? length : 0] = 0;
    char *rest = strrchr(text, ')'), *word = strtok(rest ? rest + 1 : text, " ");
    for (int field = FIRST_FIELD; field < FIELDS && word; field++, word = strtok(NULL, " "))
        fields[field] = strtoul(word, NULL, 10);
}

/* Moves the begin and the end of brk's heap to a place. Returns whether Linux permits it. */
int moved_heap(u64 place) {
    u64 fields[FIELDS] = {0};
    read_stat(fields);
    struct prctl_mm_map map = {
        .start_code = fields[26], .end_code = fields[27], .start_stack = fields[28], .start_data = fields[45],
        .end_data = fields[46],   .arg_start = fields[48], .arg_end = fields[49],    .env_start = fields[50],
        .env_end = fields[51],    .start_brk = place,      .brk = place,             .exe_fd = -1,
    };
    return prctl(PR_SET_MM, PR_SET_MM_MAP, &map, sizeof map, 0) == 0;
}

/* Maps new memory, and gives it frames at once, as the model does for an image. */
static uint8_t *map_filled(u64 address, u64 length) {
    int sharing = is_altered(FORK_SHARES_MEMORY) ? MAP_SHARED : MAP_PRIVATE;
    return map(place_of(address), length, READ_WRITE, sharing | MAP_ANONYMOUS | MAP_POPULATE | NEW, -1);
}

static void load_segment(const struct segment *segment) {
    u64 length = rounded_up(segment->size);
    memcpy(map_filled(segment->address, length), setup->bytes + segment->bytes, segment->length);
    int more = is_altered(READ_ONLY_CAN_BE_WRITTEN) ? PROT_WRITE : 0;
    protect(place_of(segment->address), length, segment->prot | more);
}

/* Loads an image, with guard page and stack after it. Returns where the heap begins. */
static u64 load_image(const struct image *image) {
    u64 guard = 0;
    for (int number = 0; number < image->count; number++) {
        const struct segment *segment = &image->segments[number];
        load_segment(segment);
        guard = rounded_up(segment->address + segment->size);
    }
    map_filled(guard, PAGE);
    protect(place_of(guard), PAGE, is_altered(GUARD_CAN_BE_READ) ? PROT_READ : PROT_NONE);
    map_filled(guard + PAGE, PAGE);
    map(place_of(trapframe()), 2 * PAGE, PROT_NONE, PRIVATE_MEMORY | NEW, -1);
    u64 heap = guard + 2 * PAGE;
    if (!by_map && !moved_heap(place_of(heap)))
        fail("PR_SET_MM_MAP");
    return heap;
}

/* ---- system calls */

/* Adds pages to the heap by mmap. Returns whether there was room. */
static int grow_by_map(u64 from, u64 to) {
    if (from == to)
        return 1;
    return mmap((void *)place_of(from), to - from, READ_WRITE, PRIVATE_MEMORY | NEW, -1, 0) != MAP_FAILED;
}

static void shrink_by_map(u64 from, u64 to) {
    if (from != to)
        unmap(place_of(from), to - from);
}

/* The heap of an altered player. Returns whether it was resized here. */
static int resized_wrongly(u64 old, u64 new) {
    if (is_altered(SHRINK_RELEASES_NOTHING)) {
        by_map = 1;
        return new < old || (new > old && mprotect((void *)place_of(old), new - old, READ_WRITE) == 0);
    }
    if (is_altered(SHRINK_KEEPS_BYTES) && new < old) {
        by_map = 1;
        protect(place_of(new), old - new, PROT_NONE);
        return 1;
    }
    return is_altered(SHRINK_KEEPS_BYTES) && new > old && mprotect((void *)place_of(old), new - old, READ_WRITE) == 0;
}

/* If brk refuses to grow, mmap is asked: brk wants a free page before the next mapping, and no more than the machine's memory. If mmap
   grows the heap, it does so from then on. */
static enum result resize_heap(const struct request *request) {
    u64 old = rounded_up(request->address), new = rounded_up(request->value);
    if (resized_wrongly(old, new))
        return OK;
    if (!by_map && (u64)syscall(SYS_brk, place_of(request->value)) == place_of(request->value))
        return OK;
    if (request->value < request->address) {
        if (!by_map)
            fail("brk to a lower address");
        shrink_by_map(new, old);
        return OK;
    }
    if (!grow_by_map(old, new))
        return NO_ROOM;
    enum result result = by_map ? OK : BY_MAP_NOW;
    by_map = 1;
    return result;
}

/* Finds the highest free place for a mapping, and reserves it. Returns its address, 0 if there is none. */
static u64 reserved(u64 lowest, u64 length) {
    u64 address = length > trapframe() ? 0 : trapframe() - length;
    int spared = is_altered(MMAP_LEAVES_A_PAGE);
    for (int step = 0; address >= lowest && step < MOST_PLACES; step++, address -= PAGE) {
        void *memory = mmap((void *)place_of(address), length, PROT_NONE, PRIVATE_MEMORY | NEW, -1, 0);
        if (memory != MAP_FAILED && spared-- <= 0)
            return address;
        if (memory != MAP_FAILED)
            munmap(memory, length);
        else if (errno != EEXIST)
            return 0;
    }
    return 0;
}

/* Maps the pages of a file at a place. In the model there are zeros past its end; Linux would raise SIGBUS. */
static void map_pages(const struct request *request, u64 place, int flags, int file) {
    u64 length = rounded_up(request->length), in_file = (u64)request->file_pages * PAGE;
    if (setup->linux_ends || in_file > length)
        in_file = length;
    if (in_file > 0)
        map(place, in_file, request->prot, flags | MAP_FIXED, file);
    if (in_file < length)
        map(place + in_file, length - in_file, request->prot, flags | MAP_FIXED | MAP_ANONYMOUS, -1);
}

/* Maps a file. First Linux is asked, at any place, what it says of the arguments. */
static void map_file(const struct request *request, struct reply *reply) {
    int flags = request->flags, file = is_altered(READ_ONLY_FILE_IS_OPEN) ? WRITABLE_FILES : MAPPED_FILES;
    file = request->file < 0 ? -1 : file + request->file;
    void *anywhere = mmap(NULL, request->length, request->prot, flags, file, 0);
    reply->result = anywhere != MAP_FAILED ? OK : errno == EACCES ? NOT_WRITABLE : BAD_ARGUMENT;
    if (reply->result != OK)
        return;
    munmap(anywhere, request->length);
    if (request->is_full) {
        reply->result = MAPPINGS_FULL;
        return;
    }
    reply->value = reserved(request->address, rounded_up(request->length));
    if (reply->value == 0) {
        reply->result = NO_ROOM;
        return;
    }
    if (is_altered(SHARED_IS_PRIVATE) && flags == MAP_SHARED) {
        flags = MAP_PRIVATE;
    } else if (is_altered(PRIVATE_WRITES_BACK) && flags == MAP_PRIVATE) {
        flags = MAP_SHARED;
        file = WRITABLE_FILES + request->file;
    }
    map_pages(request, place_of(reply->value), flags, file);
}

static int unmap_file(u64 address, u64 length) {
    if (is_altered(MUNMAP_LEAVES_LAST_PAGE) && length > 0 && address % PAGE == 0) {
        length = rounded_up(length) - PAGE;
        if (length == 0)
            return 0;
    }
    return munmap((void *)place_of(address), length) ? errno : 0;
}

/* ---- copies */

/* Linux copies the bytes of one page to the process: by read(2), from a pipe. Returns whether it could. */
static int is_copied_out(u64 place, const uint8_t *bytes, size_t count) {
    uint8_t left[COPIED];
    if (write(PIPE_IN, bytes, count) != (ssize_t)count)
        fail("write to the pipe");
    if (is_altered(COPYOUT_IGNORES_RIGHTS)) {
        int memory = open("/proc/self/mem", O_RDWR);
        ssize_t written = pwrite(memory, bytes, count, place);
        close(memory);
        return read(PIPE_OUT, left, count) == (ssize_t)count && written == (ssize_t)count;
    }
    if (read(PIPE_OUT, (void *)place, count) == (ssize_t)count)
        return 1;
    if (read(PIPE_OUT, left, count) != (ssize_t)count)
        fail("read from the pipe");
    return 0;
}

/* Linux copies the bytes of one page from the process: by write(2), to a pipe. */
static int is_copied_in(u64 place, uint8_t *bytes, size_t count) {
    if (write(PIPE_IN, (void *)place, count) != (ssize_t)count)
        return 0;
    if (read(PIPE_OUT, bytes, count) != (ssize_t)count)
        fail("read from the pipe");
    return 1;
}

/* Copies page by page, up to the first that Linux refuses. */
static void copy(const struct request *request, struct reply *reply) {
    uint32_t done = 0;
    while (done < request->length) {
        u64 place = place_of(request->address + done), in_page = PAGE - place % PAGE, left = request->length - done;
        size_t count = in_page < left ? in_page : left;
        int is_copied = request->what == COPYOUT ? is_copied_out(place, request->bytes + done, count)
                                                 : is_copied_in(place, reply->bytes + done, count);
        if (!is_copied)
            break;
        done += count;
    }
    int is_short = done < request->length;
    if (is_short)
        note_denial(request->what == COPYOUT ? STORE : LOAD, place_of(request->address + done), &reply->denial);
    reply->done = is_altered(COPY_STOPS_EARLY) && is_short && done > 0 ? done - 1 : done;
}

/* ---- requests */

/* Linux ends a process if its driver ends. */
static void begin(int slot) {
    own_slot = slot;
    prctl(PR_SET_PDEATHSIG, SIGKILL);
}

/* The child is one of the driver too, which waits for its end. */
static void fork_child(const struct request *request, struct reply *reply) {
    reply->result = syscall(SYS_clone, CLONE_PARENT | SIGCHLD, 0, 0, 0, 0);
    if (reply->result < 0)
        fail("clone");
    if (reply->result == 0)
        begin(request->value);
}

static _Noreturn void execute(int image) {
    char slot[16], number[16], mode[16];
    snprintf(slot, sizeof slot, "%d", own_slot);
    snprintf(number, sizeof number, "%d", image);
    snprintf(mode, sizeof mode, "%d", setup->by_map);
    char *words[] = {"player", "--process", slot, number, mode, NULL};
    execve("/proc/self/exe", words, environ);
    fail("execve");
}

/* Makes the access with the default action of its signal, which ends the process. */
static _Noreturn void die(const struct request *request) {
    let_signals_kill();
    attempt(request->kind, place_of(request->address), request->length, request->value);
    _exit(SURVIVED);
}

static void serve(const struct request *request, struct reply *reply) {
    memset(reply, 0, sizeof *reply);
    switch (request->what) {
    case ACCESS: make_access(request, reply); break;
    case DIE: die(request);
    case FORK: fork_child(request, reply); break;
    case EXEC: execute(request->value);
    case SBRK: reply->result = resize_heap(request); break;
    case MMAP: map_file(request, reply); break;
    case MUNMAP: reply->result = unmap_file(request->address, request->length); break;
    case COPYIN:
    case COPYOUT: copy(request, reply); break;
    case EXIT: _exit(request->value & 0xff);
    }
}

static void send_reply(const struct reply *reply) {
    if (send(PROCESS_ENDS + own_slot, reply, sizeof *reply, 0) != sizeof *reply)
        fail("send");
}

_Noreturn void be_process(int slot, int image, int starts_by_map) {
    static struct request request;
    static struct reply reply;
    by_map = starts_by_map;
    begin(slot);
    catch_signals();
    memset(&reply, 0, sizeof reply);
    reply.value = load_image(&setup->images[image]);
    send_reply(&reply);
    for (;;) {
        if (recv(PROCESS_ENDS + own_slot, &request, sizeof request, 0) != sizeof request)
            fail("recv");
        serve(&request, &reply);
        send_reply(&reply);
    }
}
