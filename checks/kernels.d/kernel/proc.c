// Processes.
#include "defs.h"

struct proc proc[NPROC], *current[2];

struct proc *myproc(void)
{
  return current[cpuid()];
}

struct proc *allocproc(void)
{
  static int nextpid = 1;
  for (struct proc *p = proc; p < proc + NPROC; p++)
    if (p->state == UNUSED) {
      memset(p, 0, sizeof *p);
      p->pid = nextpid++;
      return p;
    }
  return 0;
}

// For LAZY_FORK_LOSES: the end of the last page of the heap that is in memory.
static uint64 touched(struct proc *p)
{
  uint64 sz = p->sz;
  pte_t *pte;
  while (sz > p->heap && ((pte = walk(p->pagetable, sz - 1, 0)) == 0 || (*pte & PTE_V) == 0))
    sz = PGROUNDDOWN(sz - 1);
  return sz;
}

int fork(struct proc *p)
{
  struct proc *np = allocproc();
  if (np == 0 || (np->pagetable = uvmcreate()) == 0)
    return -1;
  if (uvmcopy(p, np->pagetable) < 0) {
    uvmfree(np->pagetable);
    return -1;
  }
  np->trapframe = p->trapframe;
  np->trapframe.a[0] = 0;
  np->parent = p;
  np->heap = p->heap;
  np->sz = BUG == LAZY_FORK_LOSES ? touched(p) : p->sz;
  for (int i = 0; i < NOFILE; i++)
    if (p->ofile[i])
      np->ofile[i] = filedup(p->ofile[i]);
  vmacopy(p, np);
  np->state = RUNNABLE;
  if (VARIANT & CHILD_FIRST)
    p->state = RUNNABLE;
  return np->pid;
}

static void reparent(struct proc *p)
{
  for (struct proc *pp = proc; pp < proc + NPROC; pp++)
    if (pp->parent == p)
      pp->parent = proc;
}

void exit(struct proc *p, int status)
{
  if (p == proc)
    panic("init exiting");
  for (int i = 0; i < NOFILE; i++)
    if (p->ofile[i])
      fileclose(p->ofile[i]);
  vmafree(p, BUG != MMAP_EXIT_NOT_SAVED && !(BUG == MMAP_KILL_NOT_SAVED && p->killed));
  uvmswitch(kernel_pagetable);
  if (!(BUG == MMAP_KILL_LEAK && p->killed))
    uvmfree(p->pagetable);
  reparent(p);
  p->xstate = status;
  p->state = ZOMBIE;
  wakeup();
}

long wait(struct proc *p, uint64 addr)
{
  int havekids = 0;
  for (struct proc *pp = proc; pp < proc + NPROC; pp++) {
    if (pp->state == UNUSED || pp->parent != p)
      continue;
    havekids = 1;
    if (pp->state == ZOMBIE) {
      if (addr && copyout(p, addr, &pp->xstate, sizeof pp->xstate) < 0)
        return -1;
      pp->state = UNUSED;
      return pp->pid;
    }
  }
  return havekids ? AGAIN : -1;
}

// The process ends when it next enters the kernel.
int kill(int pid)
{
  for (struct proc *p = proc; p < proc + NPROC; p++)
    if (p->state != UNUSED && p->pid == pid) {
      p->killed = 1;
      if (p->state == SLEEPING)
        p->state = RUNNABLE;
      return 0;
    }
  return -1;
}

static void shrink(struct proc *p, uint64 sz)
{
  uint64 from = BUG == LAZY_SHRINK_ROUNDS ? PGROUNDDOWN(sz) : PGROUNDUP(sz);
  uint64 npages = (PGROUNDUP(p->sz) - from) / PGSIZE;
  if (BUG == LAZY_16_BITS)
    npages = (ushort)npages;
  if (BUG != LAZY_SHRINK_KEEPS)
    uvmunmap(p->pagetable, from, from + npages * PGSIZE, BUG != LAZY_SHRINK_LEAK);
  if (BUG != TLB_SHRINK)
    sfence_vma();
}

// Returns the old size. A heap that grows takes no memory: its pages come by page faults.
uint64 growproc(struct proc *p, long n)
{
  uint64 old = p->sz, sz = old + n;
  if (n < 0) {
    if (sz < p->heap || sz > old)
      return -1;
    shrink(p, sz);
  } else {
    if (sz > KERNBASE)
      return -1;
    if (uvmalloc(p, old, sz) < 0) {
      uvmunmap(p->pagetable, PGROUNDUP(old), PGROUNDUP(sz), 1);
      return -1;
    }
  }
  p->sz = sz;
  return old;
}

void wakeup(void)
{
  for (struct proc *p = proc; p < proc + NPROC; p++)
    if (p->state == SLEEPING)
      p->state = RUNNABLE;
}

static int any(int state)
{
  asm volatile("" ::: "memory");
  for (struct proc *p = proc; p < proc + NPROC; p++)
    if ((int)p->state == state)
      return 1;
  return 0;
}

// Lets the other hart run until there is a process for this one.
static void idle(void)
{
  if (!any(RUNNING))
    panic("every process waits");
  uvmswitch(kernel_pagetable);
  release();
  while (!any(RUNNABLE))
    ;
  acquire();
}

void scheduler(void)
{
  struct proc *last = myproc(), *p = last ? last : proc;
  for (;;) {
    for (int i = 0; i < NPROC; i++) {
      p = p + 1 == proc + NPROC ? proc : p + 1;
      if (p->state != RUNNABLE)
        continue;
      p->state = RUNNING;
      if (p != last)
        uvmswitch(p->pagetable);
      current[cpuid()] = p;
      usertrapret(p);
    }
    idle();
    last = 0;
  }
}
