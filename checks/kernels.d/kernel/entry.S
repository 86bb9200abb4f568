# QEMU's virt machine starts each hart here, in machine mode. Leaves for main in supervisor mode, with paging on.
.section .text.entry
.globl _entry
_entry:
        csrr    tp, mhartid             # in the kernel tp is the hart's number, as in xv6
        la      sp, stack0
        slli    t0, tp, 13
        add     sp, sp, t0
        li      t0, -1                  # supervisor and user mode may use all memory
        csrw    pmpaddr0, t0
        li      t0, 0x1f
        csrw    pmpcfg0, t0
        li      t0, 0xffff              # all exceptions go to supervisor mode; there are no interrupts
        csrw    medeleg, t0
        csrw    mie, zero
        la      t0, kernel_pagetable
        srli    t0, t0, 12
        li      t1, 8 << 60
        or      t0, t0, t1
        csrw    satp, t0
        sfence.vma
        li      t0, 3 << 11             # mret goes to supervisor mode
        csrc    mstatus, t0
        li      t0, 1 << 11
        csrs    mstatus, t0
        la      t0, uservec
        csrw    stvec, t0
        csrw    sscratch, zero
        la      t0, main
        csrw    mepc, t0
        mret

# A trap. While a process runs, sscratch is the address of its trapframe; in the kernel it is 0.
.text
.align 4
.globl uservec
uservec:
        csrrw   tp, sscratch, tp
        beqz    tp, kernelvec
        .irp    r, 1,2,3,5,6,7,8,9,10,11,12,13,14,15,16,17,18,19,20,21,22,23,24,25,26,27,28,29,30,31
        sd      x\r, 8*\r(tp)
        .endr
        csrrw   t0, sscratch, zero
        sd      t0, 8*4(tp)
        csrr    t0, sepc
        sd      t0, 0(tp)
        ld      sp, 256(tp)
        ld      tp, 264(tp)
        call    usertrap
kernelvec:
        call    kerneltrap

# userret(trapframe): back to the process.
.globl userret
userret:
        mv      tp, a0
        csrw    sscratch, tp
        ld      t0, 0(tp)
        csrw    sepc, t0
        .irp    r, 1,2,3,5,6,7,8,9,10,11,12,13,14,15,16,17,18,19,20,21,22,23,24,25,26,27,28,29,30,31
        ld      x\r, 8*\r(tp)
        .endr
        ld      tp, 8*4(tp)
        sret

# 8192 bytes for each hart; it begins at the end.
.bss
.align 12
        .space  8192
        .globl  stack0
stack0:
        .space  8192
