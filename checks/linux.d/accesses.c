/* The lines that are accesses, and `fix`. */
#include "driver.h"
#include <signal.h>
#include <stdio.h>
#include <string.h>
#include <sys/wait.h>

/* The last access on a hart, for its `fix` and its second try. */
struct pending {
    enum { NOTHING, GRANTED, DENIED, IS_PAST_END } outcome;
    enum { AT_ONCE = 1, WITH_FAULT = 2 } ways; /* how the model may have granted it */
    int is_served;
    int signal; /* that denied it */
    enum rule rule;
    const char *reason; /* why its denial differs from the model's, if it does */
    struct request access;
};

static struct pending pendings[HARTS];

static const char *const WORDS[] = {[LOAD] = "load", [STORE] = "store", [FETCH] = "fetch"};
static const int PAGE_FAULTS[] = {[LOAD] = 13, [STORE] = 15, [FETCH] = 12};

static const char *granted_text(const struct request *access, const struct reply *reply) {
    static char text[32];
    snprintf(text, sizeof text, access->kind == STORE ? "stored" : "value 0x%lx", reply->value);
    return text;
}

static void answer_granted(struct pending *pending, struct played *process, const struct reply *reply, int is_again) {
    const struct request *access = &pending->access;
    const char *word = WORDS[access->kind];
    int is_other = access->kind != STORE && may_differ(process, access->address, access->length);
    int tells = !reply->is_by_maps && !is_other && tells_faults(process, access->address, access->kind);
    const char *fault = !tells ? "soft fault not compared" : reply->soft_faults ? "a soft fault" : "no soft fault";
    const char *note = reply->is_by_maps ? ", by /proc/PID/maps" : is_other ? ", of a shared file" : "";
    touch(process, access->address, access->kind == STORE);
    if (is_again) {
        pending->outcome = NOTHING;
        pending->ways = AT_ONCE;
        answer(AGAIN, "%s granted, second try%s", word, note);
    } else {
        pending->outcome = GRANTED;
        pending->ways = !tells ? AT_ONCE | WITH_FAULT : reply->soft_faults ? WITH_FAULT : AT_ONCE;
        answer(ASKED, "%s granted, %s%s", word, fault, note);
        if (tells && reply->soft_faults > 1)
            wrong("%d soft faults", reply->soft_faults);
    }
    if (pending->ways & AT_ONCE)
        now("%s", granted_text(access, reply));
    if (pending->ways & WITH_FAULT)
        later("fault %d", PAGE_FAULTS[access->kind]);
    if (is_other)
        like(COHERENT, "value 0x[0-9a-f]+");
}

/* In the model there are zeros past the end of a file. */
static void answer_past_end(struct pending *pending, int is_again) {
    const char *granted = pending->access.kind == STORE ? "stored" : "value 0x[0-9a-f]+";
    pending->outcome = is_again ? NOTHING : IS_PAST_END;
    answer(is_again ? AGAIN : ASKED, "%s past the end of a file", WORDS[pending->access.kind]);
    if (is_again)
        like(PAST_END, "%s", granted);
    else
        like(PAST_END, "%s|fault %d", granted, PAGE_FAULTS[pending->access.kind]);
}

/* The exception code, by the processor's error code; an address that is not canonical has none. */
static int cause_of(const struct pending *pending, const struct denial *denial) {
    if (pending->rule == MISALIGNED)
        return pending->access.kind == STORE ? 6 : 4;
    if (denial->code == SI_KERNEL)
        return PAGE_FAULTS[pending->access.kind];
    return PAGE_FAULTS[denial->error & IS_FETCH ? FETCH : denial->error & IS_WRITE ? STORE : LOAD];
}

static void answer_denied(struct pending *pending, const struct denial *denial) {
    const struct request *access = &pending->access;
    pending->outcome = DENIED;
    pending->signal = denial->signal;
    pending->rule = rule_of(denial, access->kind, access->address);
    if (denial->is_before_right) {
        pending->reason = BEFORE_RIGHT;
    } else if (access->address % access->length != 0 && denial->code == SI_KERNEL) {
        pending->reason = NOT_CANONICAL;
        pending->rule = MISALIGNED;
    }
    answer(ASKED, "%s denied", WORDS[access->kind]);
    if (pending->rule == NO_RULE)
        wrong("signal %d, code %d, error code %#lx", denial->signal, denial->code, denial->error);
    else if (pending->reason)
        like(pending->reason, "fault %d", cause_of(pending, denial));
    else
        now("fault %d", cause_of(pending, denial));
}

static void answer_misaligned_fetch(struct pending *pending) {
    pending->outcome = DENIED;
    pending->rule = MISALIGNED;
    answer(OWN, "fetch denied, misaligned");
    now("fault 0");
}

static int is_own_denial(const struct request *access) { return access->kind == FETCH && access->address % access->length; }

static int is_same(const struct request *one, const struct request *other) {
    return one->kind == other->kind && one->address == other->address && one->length == other->length && one->value == other->value;
}

void play_access(int hart, enum kind kind) {
    struct pending *pending = &pendings[hart], old = *pending;
    struct reply reply;
    memset(pending, 0, sizeof *pending);
    pending->access = (struct request){.what = ACCESS, .kind = kind, .address = next_number()};
    pending->access.length = kind == FETCH ? 4 : next_number();
    pending->access.value = kind == STORE ? next_number() : 0;
    if (placed[hart] < 0) {
        answer(OWN, "access of no process");
        now("refused 19 Impossible idle");
        return;
    }
    if (is_own_denial(&pending->access)) {
        answer_misaligned_fetch(pending);
        return;
    }
    struct played *process = &processes[placed[hart]];
    int is_again = old.is_served && is_same(&old.access, &pending->access);
    ask(placed[hart], &pending->access, &reply);
    if (reply.is_granted)
        answer_granted(pending, process, &reply, is_again);
    else if (setup->linux_ends && reply.denial.signal == SIGBUS && rule_of(&reply.denial, kind, pending->access.address) == NO_RULE)
        answer_past_end(pending, is_again);
    else
        answer_denied(pending, &reply.denial);
}

/* The process makes the denied access again, and the same signal must end it. */
static void answer_ended(struct pending *pending, int slot) {
    struct request request = pending->access;
    int is_own = is_own_denial(&request);
    request.what = is_own ? EXIT : DIE;
    tell(slot, &request);
    int status = wait_for_end(slot);
    end_process(slot);
    answer(AGAIN, "ended %s", RULES[pending->rule]);
    if (!is_own && !(WIFSIGNALED(status) && WTERMSIG(status) == pending->signal))
        wrong("status %#x", status);
    if (pending->reason)
        like(pending->reason, "ended %s", RULES[pending->rule]);
    else
        now("ended %s", RULES[pending->rule]);
}

void play_fix(int hart) {
    struct pending *pending = &pendings[hart];
    if (pending->outcome == NOTHING || placed[hart] < 0)
        stop("`fix` without an access before it");
    if (pending->outcome == DENIED) {
        answer_ended(pending, placed[hart]);
        pending->outcome = NOTHING;
        return;
    }
    pending->is_served = 1;
    answer(AGAIN, "fix after a granted access");
    if (pending->outcome == IS_PAST_END)
        like(PAST_END, "ready|refused 19 Impossible user");
    else if (pending->ways & AT_ONCE)
        now("refused 19 Impossible user");
    if (pending->ways & WITH_FAULT)
        later("ready");
}

/* The process of a hart does something else. */
void forget_access(int hart) { pendings[hart].outcome = NOTHING; }
