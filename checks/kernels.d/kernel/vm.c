// Page tables, page faults, and the copies that the kernel makes for a process.
#include "defs.h"
#include "fcntl.h"

// The kernel's part of every table: the memory where it is, and the devices.
pte_t kernel_pagetable[512] __attribute__((aligned(PGSIZE))) = {
  [PX(2, KERNBASE)] = PA2PTE(KERNBASE) | PTE_R | PTE_W | PTE_X | PTE_A | PTE_D | PTE_V,
  [PX(2, DEVICES)] = PA2PTE(0) | PTE_R | PTE_W | PTE_A | PTE_D | PTE_V,
};

pagetable_t uvmcreate(void)
{
  pagetable_t pagetable = kalloc();
  return pagetable ? memmove(pagetable, kernel_pagetable, PGSIZE) : 0;
}

// The leaf PTE of an address below MAXVA; 0 if a table is missing, which alloc makes.
pte_t *walk(pagetable_t pagetable, uint64 va, int alloc)
{
  if (va >= MAXVA)
    panic("walk");
  for (int level = 2; level > 0; level--) {
    pte_t *pte = &pagetable[PX(level, va)];
    if ((*pte & PTE_V) == 0) {
      void *pa = alloc ? kzalloc() : 0;
      if (pa == 0)
        return 0;
      *pte = PA2PTE(pa) | PTE_V;
    }
    pagetable = (pagetable_t)PTE2PA(*pte);
  }
  return &pagetable[PX(0, va)];
}

// The page after that of va; the page after its table if there is none.
static uint64 next(pte_t *pte, uint64 va)
{
  return pte ? PGROUNDDOWN(va) + PGSIZE : (va | 0x1FFFFF) + 1;
}

int mappages(pagetable_t pagetable, uint64 va, uint64 size, uint64 pa, int perm)
{
  for (uint64 a = va; a < va + size; a += PGSIZE, pa += PGSIZE) {
    pte_t *pte = walk(pagetable, a, 1);
    if (pte == 0)
      return -1;
    *pte = PA2PTE(pa) | perm | PTE_A | PTE_V;
  }
  return 0;
}

// Maps one page, whose reference goes to the table. It is dropped if there is no memory for a table.
int mapnew(pagetable_t pagetable, uint64 va, void *pa, int perm)
{
  if (pa == 0)
    return -1;
  if (mappages(pagetable, va, PGSIZE, (uint64)pa, perm) == 0)
    return 0;
  kfree(pa);
  return -1;
}

// Unmaps the pages of from .. to that are mapped. Tables stay.
void uvmunmap(pagetable_t pagetable, uint64 from, uint64 to, int do_free)
{
  pte_t *pte;
  for (uint64 va = from; va < to; va = next(pte, va)) {
    pte = walk(pagetable, va, 0);
    if (pte && (*pte & PTE_V)) {
      uint64 pa = PTE2PA(*pte);
      *pte = 0;
      if (do_free)
        kfree((void *)pa);
    } else if (BUG == LAZY_UNMAP_PANIC) {
      panic("uvmunmap: not mapped");
    }
  }
}

static void freewalk(pagetable_t pagetable, int level)
{
  for (int i = 0; i < 512; i++) {
    pte_t pte = pagetable[i];
    if ((pte & PTE_V) == 0 || (level == 2 && kernel_pagetable[i]))
      continue;
    if (level > 0)
      freewalk((pagetable_t)PTE2PA(pte), level - 1);
    else
      kfree((void *)PTE2PA(pte));
  }
  kfree(pagetable);
}

// Frees a table that no hart uses, with all its pages.
void uvmfree(pagetable_t pagetable)
{
  freewalk(pagetable, 2);
}

void uvmswitch(pagetable_t pagetable)
{
  w_csr(satp, MAKE_SATP(pagetable));
  sfence_vma();
}

// For a kernel that is less lazy: gives the new pages of a heap their memory, or their tables.
int uvmalloc(struct proc *p, uint64 oldsz, uint64 newsz)
{
  for (uint64 va = PGROUNDUP(oldsz); va < newsz; va += PGSIZE) {
    if (BUG == LAZY_AT_ONCE || (VARIANT & EAGER_SBRK)) {
      if (mapnew(p->pagetable, va, kzalloc(), PTE_U | PTE_R | PTE_W | PTE_D) < 0)
        return -1;
    } else if (VARIANT & EAGER_TABLES) {
      walk(p->pagetable, va, 1);
    }
  }
  return 0;
}

// A copy of a page for the child, in place of the page itself.
static int copypage(pagetable_t new, uint64 va, pte_t pte)
{
  void *pa = kalloc();
  if (pa)
    memmove(pa, (void *)PTE2PA(pte), PGSIZE);
  return mapnew(new, va, pa, PTE_FLAGS(pte));
}

// Parent and child get the same page. If a store is granted, it must copy the page first.
static int sharepage(pagetable_t new, uint64 va, pte_t *pte)
{
  pte_t shared = *pte;
  if (!(BUG == COW_NO_REFERENCE && (shared & PTE_COW)))
    kdup((void *)PTE2PA(shared));
  if (shared & PTE_W)
    shared = (shared & ~PTE_W) | PTE_COW;
  if (BUG != COW_PARENT_KEEPS_W)
    *pte = shared;
  return mapnew(new, va, (void *)PTE2PA(shared), PTE_FLAGS(shared));
}

static int copyrange(pagetable_t old, pagetable_t new, uint64 from, uint64 to, int same)
{
  pte_t *pte;
  int r = 0;
  for (uint64 va = from; va < to && r == 0; va = next(pte, va)) {
    pte = walk(old, va, 0);
    if (pte == 0 || (*pte & PTE_V) == 0) {
      if (BUG == LAZY_FORK_PANIC)
        panic("uvmcopy: page not present");
    } else if (same) {
      kdup((void *)PTE2PA(*pte));
      r = mapnew(new, va, (void *)PTE2PA(*pte), PTE_FLAGS(*pte));
    } else if (VARIANT & COPY_FORK || (BUG == COW_COPIES_AT_ONCE && (*pte & PTE_W))) {
      r = copypage(new, va, *pte);
    } else {
      r = sharepage(new, va, pte);
    }
  }
  return r;
}

// For fork: fills the child's table.
int uvmcopy(struct proc *p, pagetable_t new)
{
  int r = copyrange(p->pagetable, new, 0, p->sz, 0);
  for (struct vma *v = p->vma; v < p->vma + NVMA && r == 0; v++)
    if (v->end && (VARIANT & CHILD_READS) == 0)
      r = copyrange(p->pagetable, new, v->addr, v->end, (VARIANT & SHARED_PAGES) && v->flags == MAP_SHARED);
  if (BUG != TLB_FORK)
    sfence_vma();
  return r;
}

// A store to a page that a fork has shared. The last process that has it keeps it, any other gets a copy.
static int cowfault(pte_t *pte)
{
  void *old = (void *)PTE2PA(*pte), *pa = old;
  if (krefs(old) > 1) {
    if ((pa = kalloc()) == 0)
      return -1;
    memmove(pa, old, PGSIZE);
    if (BUG == COW_FREES_SHARED)
      kfree_now(old);
    else if (BUG != COW_LEAK)
      kfree(old);
  } else if (BUG == COW_LAST_NO_W) {
    return 0;
  }
  *pte = PA2PTE(pa) | (PTE_FLAGS(*pte) & ~PTE_COW) | PTE_W | PTE_D;
  return 0;
}

// The first access to a page of the heap.
static int lazyfault(struct proc *p, uint64 va, int store, enum access by)
{
  uint64 top = PGROUNDUP(p->sz) + (BUG == LAZY_ABOVE_HEAP ? PGSIZE : 0);
  int perm = PTE_U | PTE_R | PTE_W | PTE_D;
  if (va < p->heap || va >= top)
    return -1;
  if ((by != USER && BUG == (store ? COPY_OUT_LAZY : COPY_IN_LAZY)) || (by == COPY_NEXT && BUG == COPY_LAZY_SECOND))
    return -1;
  if ((VARIANT & ZERO_PAGE) && !store) {
    kdup(zeropage);
    return mapnew(p->pagetable, va, zeropage, PTE_U | PTE_R | PTE_COW);
  }
  if (BUG == LAZY_LOAD_FIRST && !store)
    perm &= ~PTE_W;
  return mapnew(p->pagetable, va, BUG == LAZY_NOT_ZEROED ? kalloc() : kzalloc(), perm);
}

// The first access to a page of a mapping. A shared page gets W and D only for a store, so that munmap knows what to write back.
static int vmafault(struct proc *p, struct vma *v, uint64 va, int store)
{
  int perm = PTE_U | PTE_R;
  if (store && (v->prot & PROT_WRITE) == 0 && BUG != MMAP_ALWAYS_W)
    return -1;
  if (BUG == MMAP_ALWAYS_W || ((v->prot & PROT_WRITE) && (store || v->flags == MAP_PRIVATE)))
    perm |= PTE_W | PTE_D;
  return mapnew(p->pagetable, va, vmaread(v, va), perm);
}

// A store to a page that is mapped without W.
static int storefault(pte_t *pte, struct vma *v, enum access by)
{
  if (*pte & PTE_COW)
    return cowfault(pte);
  int granted = v && v->flags == MAP_SHARED && (v->prot & PROT_WRITE);
  if (!granted && BUG != COW_ANY_READ_ONLY && !(BUG == COPY_OUT_NO_W && by != USER))
    return -1;
  *pte |= PTE_W | PTE_D;
  return 0;
}

static int copies_to_shared(pte_t pte, enum access by)
{
  return (pte & PTE_COW) && ((BUG == COW_COPYOUT_SHARED && by != USER) || (BUG == COPY_OUT_SECOND && by == COPY_NEXT));
}

// Makes the page of va ready for a load or a store. Returns where the byte is; 0 if the process may not do that.
void *vmfault(struct proc *p, uint64 va, int store, enum access by)
{
  pte_t *pte, before;
  int r = 0;
  if ((va >= MAXVA && BUG != COW_HIGH_PANIC) || PX(2, va) == PX(2, KERNBASE))
    return 0;
  pte = walk(p->pagetable, va, 0);
  before = pte ? *pte : 0;
  struct vma *v = vmalookup(p, va);
  if ((before & PTE_V) == 0) {
    uint64 page = PGROUNDDOWN(va);
    r = v ? vmafault(p, v, page, store) : lazyfault(p, page, store, by);
    pte = walk(p->pagetable, va, 0);
  } else if ((before & PTE_U) == 0 && !(BUG == COPY_NO_U && by != USER)) {
    if (BUG == LAZY_GUARD)
      *pte |= PTE_U | PTE_W | PTE_D;
    else
      r = -1;
  } else if (store && (before & PTE_W) == 0 && !copies_to_shared(before, by)) {
    r = storefault(pte, v, by);
  }
  if (r < 0)
    return 0;
  if (by == USER || (*pte != before && BUG != TLB_COPYOUT))
    sfence_vma();
  return (char *)PTE2PA(*pte) + va % PGSIZE;
}

int copyin(struct proc *p, void *dst, uint64 srcva, uint64 len)
{
  enum access by = COPY;
  char *src = 0;
  for (char *d = dst; len > 0; by = COPY_NEXT) {
    uint64 n = PGSIZE - srcva % PGSIZE;
    if (!(BUG == COPY_IN_FIRST_PAGE && src))
      src = vmfault(p, srcva, 0, by);
    if (src == 0)
      return -1;
    n = n < len ? n : len;
    memmove(d, src, n);
    d += n, srcva += n, len -= n;
  }
  return 0;
}

int copyout(struct proc *p, uint64 dstva, const void *src, uint64 len)
{
  enum access by = COPY;
  for (const char *s = src; len > 0; by = COPY_NEXT) {
    uint64 n = PGSIZE - dstva % PGSIZE;
    char *dst = vmfault(p, dstva, 1, by);
    if (dst == 0)
      return -1;
    n = n < len ? n : len;
    memmove(dst, s, n);
    s += n, dstva += n, len -= n;
  }
  return 0;
}

// The length of the string, as in xv6 without its null; -1 if it is longer than max or not readable.
int copyinstr(struct proc *p, char *dst, uint64 srcva, uint64 max)
{
  for (uint64 i = 0; i < max; i++) {
    if (copyin(p, dst + i, srcva + i, 1) < 0)
      return -1;
    if (dst[i] == 0)
      return i;
  }
  return -1;
}
