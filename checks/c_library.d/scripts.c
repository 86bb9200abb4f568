/* xv6vm_play, on scripts whose texts are written here by hand. */
#include "xv6vm.h"
#include <assert.h>
#include <inttypes.h>
#include <malloc.h>
#include <stdio.h>
#include <string.h>

static_assert(sizeof(struct xv6vm_played) == 16 && offsetof(struct xv6vm_played, line) == 8, "struct xv6vm_played");

struct script {
    const char *text;
    struct xv6vm_played played;
    const char *answers;
};

#define BOOT "image 0x1000:0x1000:rw:61\nboot 1 64 1 full\n"

/* A machine that begins, the two answers of a load, a last line without an end; and a script for each cause but TooLong and
   TooMany. A script without `boot` is at fault in the line after its last. */
static const struct script SCRIPTS[] = {
    {BOOT "start 0\non 0 0\nload 0 0x1000 1\nload 0 0x4000 1\n", {XV6VM_PLAYED, 0, 0}, "ok\nslot 0\nok\nvalue 0x61\nfault 13\n"},
    {BOOT, {XV6VM_PLAYED, 0, 0}, "ok\n"},
    {BOOT "start 0", {XV6VM_PLAYED, 0, 0}, "ok\nslot 0\n"},
    {"", {XV6VM_SCRIPT, XV6VM_ORDER, 1}, ""},
    {"boot 1 64 1 full\n\200\n", {XV6VM_SCRIPT, XV6VM_NOT_ASCII, 2}, ""},
    {BOOT "laod 0 0x1000 1\n", {XV6VM_SCRIPT, XV6VM_WORD, 3}, ""},
    {BOOT BOOT, {XV6VM_SCRIPT, XV6VM_ORDER, 3}, ""},
    {BOOT "start\n", {XV6VM_SCRIPT, XV6VM_COUNT, 3}, ""},
    {BOOT "start x\n", {XV6VM_SCRIPT, XV6VM_NUMBER, 3}, ""},
    {"boot 1 64 1 fool\n", {XV6VM_SCRIPT, XV6VM_FIELD, 1}, ""},
    {"boot 9 64 1 full\n", {XV6VM_SCRIPT, XV6VM_LIMITS, 1}, ""},
};

static unsigned long played, differences;

static void differs(size_t n, const char *what, uint64_t got, uint64_t want) {
    differences++;
    printf("differs: script %zu: %s %" PRIu64 " in place of %" PRIu64 "\n", n, what, got, want);
}

static void same(size_t n, const char *what, uint64_t got, uint64_t want) {
    if (got != want)
        differs(n, what, got, want);
}

/* Plays a script into a buffer of `capacity` bytes, and compares all that comes back: also that the bytes after the text, or all of
   them if there is none, are as they were. */
static void play(size_t n, size_t capacity, struct xv6vm_played want) {
    const struct script *row = &SCRIPTS[n];
    char text[64];
    size_t written = 77, length = want.status == XV6VM_PLAYED ? strlen(row->answers) : 0;
    memset(text, '#', sizeof text);
    struct xv6vm_played got = xv6vm_play(row->text, strlen(row->text), text, capacity, &written);
    played++;
    same(n, "status", got.status, want.status);
    same(n, "cause", got.cause, want.cause);
    same(n, "line", got.line, want.line);
    same(n, "bytes written", written, strlen(row->answers));
    for (size_t i = 0; i < sizeof text; i++)
        if (text[i] != (i < length ? row->answers[i] : '#'))
            differs(n, "a byte of the text", i, length);
}

int main(void) {
    const struct xv6vm_played no_room = {XV6VM_NO_ROOM, 0, 0};
    for (size_t n = 0; n < sizeof SCRIPTS / sizeof SCRIPTS[0]; n++) {
        play(n, 64, SCRIPTS[n].played);
        if (SCRIPTS[n].played.status != XV6VM_PLAYED)
            continue;
        /* a text that fits to the byte, one that lacks room for a byte, and no room */
        play(n, strlen(SCRIPTS[n].answers), SCRIPTS[n].played);
        play(n, strlen(SCRIPTS[n].answers) - 1, no_room);
        play(n, 0, no_room);
    }
    /* each play gives back what it took */
    size_t taken = mallinfo2().uordblks;
    for (size_t i = 0; i < 100; i++)
        play(0, 64, SCRIPTS[0].played);
    same(0, "bytes that malloc gave out", mallinfo2().uordblks, taken);
    printf("calls of xv6vm_play %lu\n", played);
    printf("differences %lu\n", differences);
    return differences != 0;
}
