// Traps from user mode, and the way back.
#include "defs.h"

void usertrap(void)
{
  struct proc *p = myproc();
  uint64 scause = r_csr(scause), stval = r_csr(stval);
  acquire();
  if (p->killed) {
    exit(p, -1);
  } else if (scause == 8) {
    p->trapframe.epc += 4;
    long r = syscall(p);
    if (r == AGAIN) {
      p->trapframe.epc -= 4;
      p->state = SLEEPING;
    } else {
      p->trapframe.a[0] = r;
    }
  } else if ((scause != 13 && scause != 15) || vmfault(p, stval, scause == 15, USER) == 0) {
    exit(p, -1);
  }
  if (p->state == RUNNING)
    usertrapret(p);
  scheduler();
}

void usertrapret(struct proc *p)
{
  p->trapframe.kernel_hartid = cpuid();
  p->trapframe.kernel_sp = (uint64)stack0 + 8192 * cpuid();
  w_csr(sstatus, r_csr(sstatus) & ~SSTATUS_SPP);
  release();
  userret(&p->trapframe);
}

void kerneltrap(void)
{
  panic("a trap in the kernel");
}
