/* One access of a process: the instruction itself, with the processor's check of alignment on. */
#include "player.h"
#include <fcntl.h>
#include <setjmp.h>
#include <signal.h>
#include <stdio.h>
#include <stdlib.h>
#include <string.h>
#include <sys/resource.h>
#include <ucontext.h>
#include <unistd.h>

enum { RET = 0xc3, CHECK_ALIGNMENT = 0x40000 }; /* EFLAGS.AC */

static sigjmp_buf back;
static volatile int is_armed;
static volatile u64 seen; /* what was loaded */
static volatile struct {
    int signal, code;
    u64 error;
} caught;

static void note_signal(int signal, siginfo_t *info, void *context) {
    /* Linux leaves the check on, and code of a compiler need not be aligned. */
    asm volatile("pushfq; andq $~0x40000, (%%rsp); popfq" ::: "memory", "cc");
    if (!is_armed)
        _exit(UNEXPECTED_SIGNAL);
    caught.signal = signal;
    caught.code = info->si_code;
    caught.error = ((ucontext_t *)context)->uc_mcontext.gregs[REG_ERR];
    siglongjmp(back, 1);
}

void catch_signals(void) {
    static uint8_t stack[1 << 16];
    stack_t other = {.ss_sp = stack, .ss_size = sizeof stack};
    struct sigaction action = {.sa_sigaction = note_signal, .sa_flags = SA_SIGINFO | SA_ONSTACK | SA_NODEFER};
    sigaltstack(&other, NULL);
    sigaction(SIGSEGV, &action, NULL);
    sigaction(SIGBUS, &action, NULL);
}

void let_signals_kill(void) {
    signal(SIGSEGV, SIG_DFL);
    signal(SIGBUS, SIG_DFL);
}

/* An instruction with the check on. These push to the stack, so the compiler must leave the bytes below it alone (-mno-red-zone). */
#define CHECKED(instruction) "pushfq; orq %[check], (%%rsp); popfq; " instruction "; pushfq; andq $~0x40000, (%%rsp); popfq"
#define LOADS(instruction) asm volatile(CHECKED(instruction) : [to] "=&r"(value) : [at] "r"(place), [check] "r"(check) : "memory", "cc")
#define STORES(instruction) asm volatile(CHECKED(instruction)::[from] "r"(value), [at] "r"(place), [check] "r"(check) : "memory", "cc")

static u64 load(u64 place, u64 width, u64 check) {
    u64 value;
    switch (width) {
    case 1: LOADS("movzbl (%[at]), %k[to]"); break;
    case 2: LOADS("movzwl (%[at]), %k[to]"); break;
    case 4: LOADS("movl (%[at]), %k[to]"); break;
    default: LOADS("movq (%[at]), %[to]");
    }
    return value;
}

static void store(u64 place, u64 width, u64 value, u64 check) {
    switch (width) {
    case 1: STORES("movb %b[from], (%[at])"); break;
    case 2: STORES("movw %w[from], (%[at])"); break;
    case 4: STORES("movl %k[from], (%[at])"); break;
    default: STORES("movq %[from], (%[at])");
    }
}

/* Makes one access. Returns whether it was granted; if not, `caught` has its signal. A fetch is a call, so the bytes must be `ret`. */
int attempt(enum kind kind, u64 place, u64 width, u64 value) {
    u64 check = is_altered(ALIGNMENT_IS_IGNORED) ? 0 : CHECK_ALIGNMENT;
    is_armed = 1;
    if (sigsetjmp(back, 0)) {
        is_armed = 0;
        return 0;
    }
    if (kind == LOAD)
        seen = load(place, width, check);
    else if (kind == STORE)
        store(place, width, value, check);
    else
        asm volatile("call *%0" ::"r"(place) : "memory", "cc", "rax", "rcx", "rdx");
    is_armed = 0;
    return 1;
}

/* Notes the denial that `attempt` just met, and tries a load of one byte there. */
static void note_caught(u64 place, struct denial *denial) {
    denial->signal = caught.signal;
    denial->code = caught.code;
    denial->error = caught.error;
    if (!attempt(LOAD, place, 1, 0)) {
        denial->load_signal = caught.signal;
        denial->load_code = caught.code;
    }
}

/* Notes how an access to one byte is denied, where a copy stopped. */
void note_denial(enum kind kind, u64 place, struct denial *denial) {
    if (!attempt(kind, place, 1, 0))
        note_caught(place, denial);
}

static char text_of_maps[1 << 16];

static void read_maps(void) {
    size_t length = 0;
    ssize_t more;
    int file = open("/proc/self/maps", O_RDONLY);
    while ((more = read(file, text_of_maps + length, sizeof text_of_maps - 1 - length)) > 0)
        length += more;
    close(file);
    text_of_maps[length] = 0;
}

/* Whether /proc/self/maps grants execution at a place. */
static int is_executable(u64 place) {
    read_maps();
    for (char *line = strtok(text_of_maps, "\n"); line != NULL; line = strtok(NULL, "\n")) {
        u64 start, end;
        char rights[5];
        if (sscanf(line, "%lx-%lx %4s", &start, &end, rights) == 3 && start <= place && place < end)
            return rights[2] == 'x';
    }
    return 0;
}

/* The soft faults of this thread up to now: pages that Linux gave it, or copied for it. */
static long soft_faults(void) {
    static struct rusage usage;
    getrusage(RUSAGE_THREAD, &usage);
    return usage.ru_minflt;
}

static int attempt_measured(const struct request *request, u64 place, int *faults) {
    long before = soft_faults();
    int is_granted = attempt(request->kind, place, request->length, request->value);
    *faults = soft_faults() - before;
    return is_granted;
}

asm(".text\n.balign 64\nonly_ret: ret\n");
extern char only_ret[];

/* Makes the same access to memory of the player first, so that it is not the player's own pages that are copied after a fork. */
static void attempt_twice(const struct request *request, struct reply *reply) {
    static uint8_t own[2 * PAGE] __attribute__((aligned(PAGE)));
    u64 place = place_of(request->address);
    attempt_measured(request, request->kind == FETCH ? (u64)only_ret : (u64)own, &reply->soft_faults);
    reply->is_granted = attempt_measured(request, place, &reply->soft_faults);
    if (!reply->is_granted)
        note_caught(place, &reply->denial);
}

/* A fetch calls the bytes if they are `ret`. Nobody knows what other bytes would do, so /proc/self/maps says whether these may be
   fetched; a page without bytes is past the end of its file. /proc/self/mem has the bytes whatever the rights are. */
static void make_fetch(const struct request *request, struct reply *reply) {
    u64 place = place_of(request->address);
    uint8_t bytes[4];
    int memory = open("/proc/self/mem", O_RDONLY);
    int has_bytes = pread(memory, bytes, sizeof bytes, place) == sizeof bytes;
    close(memory);
    if ((!has_bytes || bytes[0] != RET) && is_executable(place)) {
        reply->is_by_maps = 1;
        reply->is_granted = has_bytes;
        reply->denial.signal = has_bytes ? 0 : SIGBUS;
    } else {
        attempt_twice(request, reply);
        reply->denial.is_before_right = reply->denial.signal == SIGBUS && !is_executable(place);
    }
    if (has_bytes)
        reply->value = bytes[0] | bytes[1] << 8 | bytes[2] << 16 | (u64)bytes[3] << 24;
}

void make_access(const struct request *request, struct reply *reply) {
    if (request->kind == FETCH) {
        make_fetch(request, reply);
        return;
    }
    attempt_twice(request, reply);
    reply->value = seen;
}
