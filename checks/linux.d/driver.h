/* What the driver knows of the processes, and how it answers a line of the script.

   An answer is a line CLASS TAB KIND TAB EXPECTED ..: what decides it, what is counted, and what the model may answer. EXPECTED is

     now=TEXT        this text; of an access, that it is granted at once
     later=TEXT      or this one: an access is granted when its page fault was served. `fix` must fit to what came before
     wrong=TEXT      nothing: Linux did what no answer of the model says
     REASON~REGEX    a text of this form, since Linux differs here by design */
#include "player.h"

enum class { ASKED, AGAIN, OWN, SCHEDULING };

#define COHERENT "shared mappings are coherent at once"
#define PAST_END "SIGBUS past the end of a file"
#define BEFORE_RIGHT "SIGBUS before the right to fetch"
#define NOT_CANONICAL "the canonical form comes before alignment"
#define OTHER_FRAMES "frames that Linux shares by itself: the zero page, or a file's own"

#define PRINTS(at) __attribute__((format(printf, at, at + 1)))
void answer(enum class class, const char *format, ...) PRINTS(2);
void now(const char *format, ...) PRINTS(1);
void later(const char *format, ...) PRINTS(1);
void wrong(const char *format, ...) PRINTS(1);
void like(const char *reason, const char *format, ...) PRINTS(2);
_Noreturn void stop(const char *format, ...) PRINTS(1);

/* The rules that deny an access, by their numbers. */
enum rule { NO_RULE, MISALIGNED, BEYOND_MAX, KERNEL_PAGE, GUARD_PAGE, NO_REGION, NO_READ, NO_WRITE, NO_EXEC };
extern const char *const RULES[];
enum rule rule_of(const struct denial *denial, enum kind kind, u64 address);

/* What happened to a page. Linux has its zero page where memory was only loaded from, so a store faults there, and not in the model. */
enum state { UNTOUCHED, LOADED, STORED, UNKNOWN };

struct mapping {
    u64 address, pages;
    int prot, flags, file;
};

struct page {
    u64 number;
    enum state state;
};

enum { TABLE_LEVELS = 3, TABLES = 600 };

/* A process. */
struct played {
    int is_live, by_map;
    pid_t pid;
    u64 base, size; /* where the heap begins and ends */
    struct mapping mappings[MAPPINGS];
    int mapping_count;
    struct page *pages;
    int page_count, page_room;
    u64 tables[TABLE_LEVELS][TABLES]; /* page tables below the root, by the numbers of the pages that they can map */
    int table_counts[TABLE_LEVELS];
};

struct file {
    int length, is_shared; /* is_shared: a process mapped it shared to write */
};

extern struct played processes[SLOTS];
extern struct file files[FILES];
extern int slots, frames, file_count, image_count;
extern int placed[HARTS]; /* the slot of a hart's process, -1 for none */

/* ledger.c */
struct mapping *mapping_at(struct played *process, u64 address);
int is_shared(const struct mapping *mapping);
int is_shared_to_write(const struct mapping *mapping);
void touch(struct played *process, u64 address, int is_stored);
void forget(struct played *process, u64 from, u64 to);
int tells_faults(struct played *process, u64 address, enum kind kind);
int may_differ(struct played *process, u64 address, u64 length);
void begin_process(struct played *process, int image, u64 base);
void copy_process(const struct played *parent, struct played *child);
void unmap_all(struct played *process);
void clear_end(int file);
int table_count(const struct played *process);
int lowest_slot(void);

/* frames.c */
void play_audit(void);
void tell_abilities(void);

/* driver.c */
char *next_word(void);
u64 next_number(void);
int next_below(int limit);
int64_t next_signed(void);
int next_bytes(uint8_t *bytes, int most);
const char *text_of(const uint8_t *bytes, int count);
void ask(int slot, const struct request *request, struct reply *reply);
void tell(int slot, const struct request *request);
void receive(int slot, struct reply *reply);
int wait_for_end(int slot);
void end_process(int slot);

/* accesses.c */
void play_access(int hart, enum kind kind);
void play_fix(int hart);
void forget_access(int hart);

/* calls.c */
void play_fork(int slot);
void play_exec(int slot);
void play_sbrk(int slot);
void play_mmap(int slot);
void play_munmap(int slot);
void play_copyin(int slot);
void play_copyout(int slot);
void play_exit(int slot);
