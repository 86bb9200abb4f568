/* A small kernel for QEMU's machine virt, whose log examples/python/from_qemu_trace.py turns into lines. It begins in M-mode, turns on
   Sv39, and runs a program in S-mode and then in U-mode. It maps the program's pages as they fault, remaps them with a fence, puts a
   superpage in their place, and takes some away again. It ends QEMU. */
#include <stdint.h>

enum { V = 1, R = 2, W = 4, X = 8, U = 16, A = 64, D = 128 };
enum { ECALL_U = 8, ECALL_S = 9, STORE_PAGE_FAULT = 15 };
enum { PAGE = 4096, PAGES = 24 };

static uint64_t *const ROOT = (uint64_t *)0x80100000, *const MIDDLE = (uint64_t *)0x80101000, *const LAST = (uint64_t *)0x80102000;
static uint64_t *const LAST_HIGH = (uint64_t *)0x80103000;
static uint64_t next_frame = 0x80200;

asm(".option norvc\n"
    ".globl _start\n"
    "_start: la sp, _start\n"
    "        li t0, 0x80000\n"
    "        add sp, sp, t0\n"
    "        csrw mscratch, sp\n"
    "        la t0, trap\n"
    "        csrw mtvec, t0\n"
    "        call run\n"
    "        .balign 4\n"
    "trap:   csrrw sp, mscratch, sp\n"
    "        addi sp, sp, -128\n"
    "        sd ra, 0(sp); sd t0, 8(sp); sd t1, 16(sp); sd t2, 24(sp); sd a0, 32(sp); sd a1, 40(sp); sd a2, 48(sp); sd a3, 56(sp)\n"
    "        sd a4, 64(sp); sd a5, 72(sp); sd a6, 80(sp); sd a7, 88(sp); sd t3, 96(sp); sd t4, 104(sp); sd t5, 112(sp); sd t6, 120(sp)\n"
    "        mv a0, sp; call serve\n"
    "        ld ra, 0(sp); ld t0, 8(sp); ld t1, 16(sp); ld t2, 24(sp); ld a0, 32(sp); ld a1, 40(sp); ld a2, 48(sp); ld a3, 56(sp)\n"
    "        ld a4, 64(sp); ld a5, 72(sp); ld a6, 80(sp); ld a7, 88(sp); ld t3, 96(sp); ld t4, 104(sp); ld t5, 112(sp); ld t6, 120(sp)\n"
    "        addi sp, sp, 128\n"
    "        csrrw sp, mscratch, sp\n"
    "        mret\n"
    /* The program of a mode: a0 is its first page, a1 their number, a2 the step. */
    "        .balign 4096\n"
    ".globl program\n"
    "program: mv t0, a0\n"
    "        mv t1, a1\n"
    "1:      ld t2, 8(t0)\n"
    "        sd t1, 8(t0)\n"
    "        lbu t2, 9(t0)\n"
    "        sh t1, 18(t0)\n"
    "        addi t3, t0, 24\n"
    "        amoadd.d t2, t1, (t3)\n"
    "        amoswap.w t2, t1, (t3)\n"
    "2:      lr.d t2, (t3)\n"
    "        sc.d t4, t1, (t3)\n"
    "        bnez t4, 2b\n"
    "        add t0, t0, a2\n"
    "        addi t1, t1, -1\n"
    "        bnez t1, 1b\n"
    "        ecall\n"
    "        j program\n");

extern void program(void);

/* With LAZY leaves are changed and not fenced, so that the hart may go by the old ones. */
static void fence(uint64_t va) {
#ifdef LAZY
    (void)va;
#else
    asm volatile("sfence.vma %0, zero" ::"r"(va) : "memory");
#endif
}

static void enter(uint64_t mode) {
    uint64_t status;
    asm volatile("csrr %0, mstatus" : "=r"(status));
    status = (status & ~(3ull << 11)) | mode << 11;
    asm volatile("csrw mstatus, %0" ::"r"(status));
}

/* Runs the program from the start, over so many pages from `va` on. */
static void again(uint64_t *saved, uint64_t va, uint64_t count, uint64_t step) {
    saved[4] = va;
    saved[5] = count;
    saved[6] = step;
    asm volatile("csrw mepc, %0" ::"r"(program));
}

/* Each round changes what is mapped, and how. */
static void next_round(uint64_t *saved, int round) {
    if (round == 0) /* all leaves move to new frames, and are fenced one by one */
        for (uint64_t index = 1; index <= PAGES; index++) {
            LAST[index] = next_frame++ << 10 | V | R | W | X | A | D;
            fence(index * PAGE);
        }
    if (round == 1) { /* a superpage in place of the last table */
        MIDDLE[0] = 0x80400ull << 10 | V | R | W | A;
        asm volatile("sfence.vma" ::: "memory");
    }
    if (round == 2) { /* and pages again, for U-mode, without A and D; the code too, at its own place */
        for (uint64_t index = 1; index <= PAGES; index++)
            LAST[index] = next_frame++ << 10 | V | R | W | U;
        MIDDLE[0] = (uint64_t)LAST / PAGE << 10 | V;
        MIDDLE[1] = (uint64_t)LAST_HIGH / PAGE << 10 | V;
        LAST_HIGH[0] = (uint64_t)program / PAGE << 10 | V | R | X | U;
        asm volatile("sfence.vma" ::: "memory");
        enter(0);
    }
    if (round == 4)
        *(volatile uint32_t *)0x100000 = 0x5555;
    again(saved, PAGE, PAGES - 4 * round, PAGE);
    if (round >= 2)
        asm volatile("csrw mepc, %0" ::"r"(0x200000ull));
    if (round == 3) /* some pages are taken away, and come back by faults */
        for (uint64_t index = 3; index <= PAGES; index += 3) {
            LAST[index] = 0;
            fence(index * PAGE);
        }
}

void serve(uint64_t *saved) {
    static int round = 0;
    uint64_t cause, va;
    asm volatile("csrr %0, mcause; csrr %1, mtval" : "=r"(cause), "=r"(va));
    if (cause == ECALL_S || cause == ECALL_U) {
        next_round(saved, round++);
        return;
    }
    LAST[va / PAGE] = next_frame++ << 10 | V | R | W | (cause == STORE_PAGE_FAULT ? D : 0) | (round > 2 ? U : 0);
    fence(va);
}

void run(void) {
    asm volatile("csrw pmpaddr0, %0; csrw pmpcfg0, %1" ::"r"(-1ull), "r"(0x1full));
    ROOT[2] = 0x80000ull << 10 | V | R | W | X | A | D;
    ROOT[0] = (uint64_t)MIDDLE / PAGE << 10 | V;
    MIDDLE[0] = (uint64_t)LAST / PAGE << 10 | V;
    asm volatile("csrw satp, %0; sfence.vma" ::"r"(8ull << 60 | (uint64_t)ROOT / PAGE) : "memory");
    enter(1);
    register uint64_t va asm("a0") = PAGE, count asm("a1") = PAGES, step asm("a2") = PAGE;
    asm volatile("csrw mepc, %0; mret" ::"r"(program), "r"(va), "r"(count), "r"(step));
}
