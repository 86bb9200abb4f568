/* Reads a script on standard input, and answers each line from `boot` on, as driver.h says.

     player [map-heap] [linux-ends] [frames] [free-sharing] [altered=N]     (setup in player.h says what the words mean)
     player --abilities       what can be compared on this machine
     player --alterations     the errors that can be planted */
#include "driver.h"
#include <fcntl.h>
#include <poll.h>
#include <signal.h>
#include <stdarg.h>
#include <stdio.h>
#include <stdlib.h>
#include <string.h>
#include <sys/mman.h>
#include <sys/prctl.h>
#include <sys/socket.h>
#include <sys/stat.h>
#include <sys/wait.h>
#include <unistd.h>

enum { LONGEST_LINE = 2097664, PATIENCE = 60000, GLANCE = 200 }; /* bytes; milliseconds */

static const char *const ALTERED[ALTERATIONS] = {
    [FORK_SHARES_MEMORY] = "fork shares the memory of images",
    [SHRINK_RELEASES_NOTHING] = "a heap that shrinks releases nothing",
    [SHRINK_KEEPS_BYTES] = "a heap that shrinks keeps its bytes for later",
    [PRIVATE_WRITES_BACK] = "private mappings write back",
    [GUARD_CAN_BE_READ] = "the guard page can be read",
    [READ_ONLY_CAN_BE_WRITTEN] = "read-only segments can be written",
    [MUNMAP_LEAVES_LAST_PAGE] = "munmap leaves the last page",
    [COPYOUT_IGNORES_RIGHTS] = "copyout ignores rights",
    [READ_ONLY_FILE_IS_OPEN] = "ro files are open to write",
    [SHARED_IS_PRIVATE] = "shared mappings are private",
    [MMAP_LEAVES_A_PAGE] = "mmap leaves a page free",
    [ALIGNMENT_IS_IGNORED] = "alignment is not checked",
    [BYTES_PAST_END_STAY] = "bytes past the end of a file stay",
    [COPY_STOPS_EARLY] = "a copy stops a byte early",
};

int placed[HARTS];
static long line_number;
static char *rest; /* of the line */

/* ---- answers */

_Noreturn void stop(const char *format, ...) {
    va_list values;
    va_start(values, format);
    fprintf(stderr, "player: line %ld: ", line_number);
    vfprintf(stderr, format, values);
    fprintf(stderr, "\n");
    exit(3);
}

#define PRINT_REST(format)                                                                                                               \
    do {                                                                                                                                 \
        va_list values;                                                                                                                  \
        va_start(values, format);                                                                                                        \
        vprintf(format, values);                                                                                                         \
        va_end(values);                                                                                                                  \
    } while (0)

void answer(enum class class, const char *format, ...) {
    static const char *const CLASSES[] = {"asked", "again", "own", "scheduling"};
    printf("%s\t", CLASSES[class]);
    PRINT_REST(format);
}

void now(const char *format, ...) {
    printf("\tnow=");
    PRINT_REST(format);
}

void later(const char *format, ...) {
    printf("\tlater=");
    PRINT_REST(format);
}

void wrong(const char *format, ...) {
    printf("\twrong=");
    PRINT_REST(format);
}

void like(const char *reason, const char *format, ...) {
    printf("\t%s~", reason);
    PRINT_REST(format);
}

/* ---- fields */

char *next_word(void) { return strtok_r(NULL, " \t", &rest); }

static char *needed_word(void) {
    char *word = next_word();
    if (word == NULL)
        stop("a field is missing");
    return word;
}

u64 next_number(void) { return strtoull(needed_word(), NULL, 0); }

/* Reads a number, which must be below a limit. */
int next_below(int limit) {
    u64 number = next_number();
    if (number >= (u64)limit)
        stop("%lu is not below %d", number, limit);
    return number;
}

int64_t next_signed(void) {
    const char *word = needed_word();
    return word[0] == '-' ? (int64_t)-strtoull(word + 1, NULL, 0) : (int64_t)strtoull(word, NULL, 0);
}

static int read_bytes(const char *digits, uint8_t *bytes, int most) {
    int count = digits && strcmp(digits, "-") ? strlen(digits) / 2 : 0;
    if (count > most)
        stop("more than %d bytes", most);
    for (int number = 0; number < count; number++)
        if (sscanf(digits + 2 * number, "%2hhx", &bytes[number]) != 1)
            stop("no bytes");
    return count;
}

int next_bytes(uint8_t *bytes, int most) { return read_bytes(needed_word(), bytes, most); }

const char *text_of(const uint8_t *bytes, int count) {
    static char text[2 * COPIED + 1];
    for (int number = 0; number < count; number++)
        sprintf(text + 2 * number, "%02x", bytes[number]);
    return count ? text : "-";
}

/* ---- processes */

void tell(int slot, const struct request *request) {
    if (send(DRIVER_ENDS + slot, request, sizeof *request, 0) != sizeof *request)
        stop("send: the process of slot %d is not there", slot);
}

/* Waits for what a process says, and looks now and then whether it is still there. */
void receive(int slot, struct reply *reply) {
    struct pollfd end = {.fd = DRIVER_ENDS + slot, .events = POLLIN};
    for (int waited = 0; waited < PATIENCE; waited += GLANCE) {
        int status;
        if (poll(&end, 1, GLANCE) > 0) {
            if (recv(end.fd, reply, sizeof *reply, 0) != sizeof *reply)
                stop("recv");
            return;
        }
        if (waitpid(processes[slot].pid, &status, WNOHANG) == processes[slot].pid)
            stop("the process of slot %d ended with status %#x", slot, status);
    }
    stop("the process of slot %d says nothing", slot);
}

void ask(int slot, const struct request *request, struct reply *reply) {
    tell(slot, request);
    receive(slot, reply);
}

int wait_for_end(int slot) {
    int status;
    if (waitpid(processes[slot].pid, &status, 0) != processes[slot].pid)
        stop("waitpid");
    return status;
}

void end_process(int slot) {
    processes[slot].is_live = 0;
    unmap_all(&processes[slot]);
    for (int hart = 0; hart < HARTS; hart++)
        if (placed[hart] == slot)
            placed[hart] = -1;
}

static void play_start(void) {
    int image = next_below(image_count), slot = lowest_slot();
    if (slot < 0) {
        answer(OWN, "start refused 10 NoSlot");
        now("refused 10 NoSlot");
        return;
    }
    pid_t pid = fork();
    if (pid < 0)
        stop("fork");
    if (pid == 0)
        be_process(slot, image, setup->by_map);
    struct reply reply;
    processes[slot].pid = pid;
    receive(slot, &reply);
    begin_process(&processes[slot], image, reply.value);
    answer(ASKED, "start");
    now("slot %d", slot);
}

/* ---- declarations */

/* Keeps a descriptor under a number of its own, over an exec too. */
static void keep(int descriptor, int number) {
    if (descriptor < 0 || dup2(descriptor, number) < 0)
        stop("no descriptor %d", number);
    close(descriptor);
}

/* Counts one thing more, up to `most`, and returns its number. */
static int next_of(int *count, int most) {
    if (*count == most)
        stop("more than %d", most);
    return (*count)++;
}

static void declare_file(void) {
    static uint8_t bytes[1 << 16];
    char name[64];
    int number = next_of(&file_count, FILES), length = next_below(sizeof bytes + 1), is_read_only = strcmp(needed_word(), "ro") == 0;
    files[number].length = length;
    memset(bytes, 0, sizeof bytes);
    next_bytes(bytes, length);
    keep(memfd_create("file", 0), WRITABLE_FILES + number);
    if (write(WRITABLE_FILES + number, bytes, length) != length)
        stop("no room for a file");
    snprintf(name, sizeof name, "/proc/self/fd/%d", WRITABLE_FILES + number);
    keep(open(name, is_read_only ? O_RDONLY : O_RDWR), MAPPED_FILES + number);
}

/* VADDR:MEMSZ:FLAGS:HEX. A segment can always be read. */
static void declare_segment(char *word, struct segment *segment) {
    char *fields;
    segment->address = strtoull(strtok_r(word, ":", &fields), NULL, 0);
    segment->size = strtoull(strtok_r(NULL, ":", &fields), NULL, 0);
    const char *flags = strtok_r(NULL, ":", &fields);
    segment->prot = PROT_READ | (strchr(flags, 'w') ? PROT_WRITE : 0) | (strchr(flags, 'x') ? PROT_EXEC : 0);
    segment->bytes = setup->bytes_used;
    segment->length = read_bytes(strtok_r(NULL, ":", &fields), setup->bytes + setup->bytes_used, sizeof setup->bytes - setup->bytes_used);
    setup->bytes_used += segment->length;
}

static void declare_image(void) {
    struct image *image = &setup->images[next_of(&image_count, IMAGES)];
    for (char *word; (word = next_word());)
        declare_segment(word, &image->segments[next_of(&image->count, SEGMENTS)]);
}

static void play_boot(void) {
    next_below(HARTS + 1);
    frames = next_number();
    slots = next_below(SLOTS + 1);
    next_word();
    const char *scheme = next_word();
    setup->sv48 = scheme && strcmp(scheme, "sv48") == 0;
    for (int hart = 0; hart < HARTS; hart++)
        placed[hart] = -1;
    for (int slot = 0; slot < slots; slot++) {
        int ends[2];
        if (socketpair(AF_UNIX, SOCK_SEQPACKET, 0, ends))
            stop("socketpair");
        keep(ends[0], DRIVER_ENDS + slot);
        keep(ends[1], PROCESS_ENDS + slot);
    }
    answer(SCHEDULING, "boot");
    now("ok");
}

/* ---- lines */

static void play_show(void) {
    int file = next_below(file_count), offset = next_number(), count = next_below(COPIED + 1);
    int has_other = setup->free_sharing && files[file].is_shared;
    uint8_t bytes[COPIED];
    struct stat status;
    fstat(WRITABLE_FILES + file, &status);
    ssize_t length = pread(WRITABLE_FILES + file, bytes, count, offset);
    const char *text = text_of(bytes, length < 0 ? 0 : length);
    answer(ASKED, has_other ? "show of a shared file" : "show");
    now("file %ld %s", status.st_size, text);
    if (has_other)
        like(COHERENT, "file %ld [0-9a-f-]{%zu}", status.st_size, strlen(text));
}

/* Linux schedules as it likes. Here the process on a hart is the one that is asked. */
static void play_placing(int hart, const char *word) {
    const char *slot = needed_word();
    placed[hart] = strcmp(slot, "-") == 0 ? -1 : atoi(slot);
    if (placed[hart] >= slots || (placed[hart] >= 0 && !processes[placed[hart]].is_live))
        stop("there is no process of slot %s", slot);
    forget_access(hart);
    answer(SCHEDULING, "%s", word);
    now("ok");
}

static void play_crossing(int hart, const char *word) {
    forget_access(hart);
    answer(SCHEDULING, "%s", word);
    now("ok");
}

static void play_call(int hart, const char *word) {
    static const struct {
        const char *word;
        void (*play)(int slot);
    } CALLS[] = {{"fork", play_fork},     {"exec", play_exec},     {"sbrk", play_sbrk},       {"mmap", play_mmap},
                 {"munmap", play_munmap}, {"copyin", play_copyin}, {"copyout", play_copyout}, {"exit", play_exit}};
    if (placed[hart] < 0)
        stop("no process is on hart %d", hart);
    for (size_t number = 0; number < sizeof CALLS / sizeof *CALLS; number++)
        if (strcmp(word, CALLS[number].word) == 0) {
            CALLS[number].play(placed[hart]);
            return;
        }
    stop("%s is not played", word);
}

static void play_hart(const char *word) {
    int hart = next_below(HARTS);
    if (strcmp(word, "on") == 0 || strcmp(word, "switch") == 0)
        play_placing(hart, word);
    else if (strcmp(word, "enter") == 0 || strcmp(word, "leave") == 0)
        play_crossing(hart, word);
    else if (strcmp(word, "load") == 0)
        play_access(hart, LOAD);
    else if (strcmp(word, "store") == 0)
        play_access(hart, STORE);
    else if (strcmp(word, "fetch") == 0)
        play_access(hart, FETCH);
    else if (strcmp(word, "fix") == 0)
        play_fix(hart);
    else
        play_call(hart, word);
}

static void play_line(const char *word) {
    if (strcmp(word, "boot") == 0)
        play_boot();
    else if (strcmp(word, "start") == 0)
        play_start();
    else if (strcmp(word, "show") == 0)
        play_show();
    else if (strcmp(word, "audit") == 0)
        play_audit();
    else
        play_hart(word);
    printf("\n");
    fflush(stdout);
}

static void play_script(void) {
    static char line[LONGEST_LINE + 2];
    while (fgets(line, sizeof line, stdin)) {
        line_number++;
        line[strcspn(line, "\r\n")] = 0;
        const char *word = strtok_r(line, " \t", &rest);
        if (word == NULL || word[0] == '#')
            continue;
        if (strcmp(word, "file") == 0)
            declare_file();
        else if (strcmp(word, "image") == 0)
            declare_image();
        else
            play_line(word);
    }
    for (int slot = 0; slot < slots; slot++)
        if (processes[slot].is_live) {
            kill(processes[slot].pid, SIGKILL);
            wait_for_end(slot);
        }
}

/* ---- the command line */

static void read_option(const char *word) {
    if (strcmp(word, "map-heap") == 0)
        setup->by_map = 1;
    else if (strcmp(word, "linux-ends") == 0)
        setup->linux_ends = 1;
    else if (strcmp(word, "frames") == 0)
        setup->frames = 1;
    else if (strcmp(word, "free-sharing") == 0)
        setup->free_sharing = 1;
    else if (sscanf(word, "altered=%d", &setup->altered) != 1)
        stop("there is no option %s", word);
}

static void make_setup(void) {
    int ends[2];
    keep(memfd_create("setup", 0), SETUP);
    if (ftruncate(SETUP, sizeof *setup) || pipe(ends))
        stop("no room for the setup");
    keep(ends[0], PIPE_OUT);
    keep(ends[1], PIPE_IN);
}

static void map_setup(void) {
    setup = mmap(NULL, sizeof *setup, PROT_READ | PROT_WRITE, MAP_SHARED, SETUP, 0);
    if (setup == MAP_FAILED)
        stop("the setup cannot be mapped");
}

int main(int count, char **words) {
    if (count == 5 && strcmp(words[1], "--process") == 0) {
        map_setup();
        be_process(atoi(words[2]), atoi(words[3]), atoi(words[4]));
    }
    make_setup();
    map_setup();
    /* A page of 2 MiB would take one soft fault for all its pages. */
    prctl(PR_SET_THP_DISABLE, 1, 0, 0, 0);
    if (count == 2 && strcmp(words[1], "--abilities") == 0) {
        tell_abilities();
        return 0;
    }
    if (count == 2 && strcmp(words[1], "--alterations") == 0) {
        for (int number = UNALTERED + 1; number < ALTERATIONS; number++)
            printf("%s\n", ALTERED[number]);
        return 0;
    }
    for (int number = 1; number < count; number++)
        read_option(words[number]);
    play_script();
    return 0;
}
