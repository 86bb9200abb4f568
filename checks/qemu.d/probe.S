/* The entry of a probe, and the accesses that it tries. It runs in M-mode, without a C library. */

        .equ    MSTATUS_MPRV, 0x20000
        .equ    MSTATUS_ALL, 0xe1800    /* MXR, SUM, MPRV, MPP */
        .equ    STACK_END, 0x400000     /* from _start: the 4 MiB of the probe end there */
        .equ    TEST_DEVICE, 0x100000   /* of QEMU's machine virt; a store of POWER_OFF ends QEMU */
        .equ    POWER_OFF, 0x5555

        .text
        .globl  _start
_start:
        la      sp, _start
        li      t0, STACK_END
        add     sp, sp, t0
        call    run
        li      t0, TEST_DEVICE
        li      t1, POWER_OFF
        sw      t1, 0(t0)
1:      j       1b

/* struct outcome attempt(uint64_t va, uint64_t value, uint64_t which, uint64_t mstatus)

   Tries an access with these bits of MXR, SUM, MPRV and MPP in mstatus. `which` is 0 for a fetch in the mode of MPP, 1 to 4 for a
   load of 1, 2, 4 or 8 bytes in M-mode, 5 to 8 for a store, 9 for a fetch in M-mode. Returns in a0 mcause, or all ones if there
   was no trap; in a1 what was loaded, or mtval. A fetch always traps: at best with an illegal instruction. */
        .globl  attempt
        .balign 4
attempt:
        la      t0, trapped
        csrw    mtvec, t0
        li      t0, MSTATUS_ALL
        csrc    mstatus, t0
        li      t1, MSTATUS_MPRV
        beqz    a2, fetch
        la      t0, accesses - 8        /* two instructions of 4 bytes for each access */
        slli    a2, a2, 3
        add     t0, t0, a2
        csrs    mstatus, a3             /* with MPRV: from here on data accesses are made as in the mode of MPP */
        jr      t0
fetch:
        csrs    mstatus, a3
        csrw    mepc, a0
        mret
        .option push
        .option norvc
accesses:
        lbu     a1, 0(a0)
        j       granted
        lhu     a1, 0(a0)
        j       granted
        lwu     a1, 0(a0)
        j       granted
        ld      a1, 0(a0)
        j       granted
        sb      a1, 0(a0)
        j       granted
        sh      a1, 0(a0)
        j       granted
        sw      a1, 0(a0)
        j       granted
        sd      a1, 0(a0)
        j       granted
        jr      a0
        .option pop
granted:
        csrc    mstatus, t1
        li      a0, -1
        ret
        .balign 4
trapped:                                /* ra and sp are still those of the caller: no instruction was executed at va */
        li      t1, MSTATUS_MPRV
        csrc    mstatus, t1
        csrr    a0, mcause
        csrr    a1, mtval
        ret
