// Mappings of files.
#include "defs.h"
#include "fcntl.h"

struct vma *vmalookup(struct proc *p, uint64 va)
{
  for (struct vma *v = p->vma; v < p->vma + NVMA; v++)
    if (v->addr <= va && va < v->end)
      return v;
  return 0;
}

// A new page with the bytes of the file for the page at va, and zeros past its end; 0 if no page is free.
void *vmaread(struct vma *v, uint64 va)
{
  uint64 off = va - v->addr + (BUG == MMAP_READ_OFFSET ? 0 : v->off), size = v->ip->disk->size;
  void *pa = BUG == MMAP_TAIL ? kalloc() : kzalloc();
  if (pa && off < size)
    memmove(pa, v->ip->disk->data + off, size - off < PGSIZE ? size - off : PGSIZE);
  return pa;
}

// Writes the pages of from .. to that were stored to back to the file, which keeps its length.
static void writeback(struct proc *p, struct vma *v, uint64 from, uint64 to)
{
  uint64 size = v->ip->disk->size;
  for (uint64 va = from; va < to; va += PGSIZE) {
    pte_t *pte = walk(p->pagetable, va, 0);
    uint64 off = v->off + va - v->addr;
    if (pte == 0 || (*pte & PTE_V) == 0 || off >= size)
      continue;
    if ((*pte & PTE_D) == 0 && (VARIANT & SAVE_ALL) == 0)
      continue;
    if (BUG == MMAP_WHOLE_PAGES && size - off < PGSIZE)
      continue;
    if (BUG == MMAP_SAVE_OFFSET)
      off -= v->off;
    memmove(v->ip->disk->data + off, (void *)PTE2PA(*pte), size - off < PGSIZE ? size - off : PGSIZE);
  }
}

static void unmap(struct proc *p, struct vma *v, uint64 from, uint64 to)
{
  int part = from != v->addr || to != v->end;
  uvmunmap(p->pagetable, from, to, BUG != MMAP_LEAK);
  if (BUG != TLB_MUNMAP && !(BUG == TLB_MUNMAP_PART && part))
    sfence_vma();
  if (!part || BUG == MMAP_UNMAPS_ALL) {
    uvmunmap(p->pagetable, v->addr, v->end, 1);
    v->end = 0;
    iput(v->ip);
  } else if (from == v->addr) {
    if (BUG != MMAP_FRONT_OFFSET)
      v->off += to - from;
    v->addr = to;
  } else {
    v->end = from;
  }
}

// The end of a place for n bytes that no mapping has: the highest below TRAPFRAME, or the lowest from 0x2000000000 on.
static uint64 place(struct proc *p, struct vma *new, uint64 n)
{
  uint64 end = (VARIANT & MAPS_UPWARDS) ? 0x2000000000 + n : TRAPFRAME;
  if (BUG == MMAP_OVERLAP && new > p->vma)
    return new[-1].addr;
  for (int i = 0; i < NVMA; i++)
    for (struct vma *v = p->vma; v < p->vma + NVMA; v++)
      if (v->end && v->addr < end && end - n < v->end)
        end = (VARIANT & MAPS_UPWARDS) ? v->end + n : v->addr;
  return end;
}

uint64 mmap(struct proc *p, uint64 len, int prot, int flags, struct file *f, uint64 off)
{
  struct vma *v = p->vma;
  uint64 n = PGROUNDUP(len), end;
  if (f == 0 || f->type != FD_INODE || len == 0 || len > MAXVA || off % PGSIZE || prot == 0 || prot > 7)
    return -1;
  if ((flags != MAP_SHARED && flags != MAP_PRIVATE) || !f->readable)
    return -1;
  if ((prot & PROT_WRITE) && flags == MAP_SHARED && !f->writable && BUG != MMAP_READ_ONLY_FILE)
    return -1;
  while (v < p->vma + NVMA && v->end)
    v++;
  if (v == p->vma + NVMA)
    return -1;
  end = place(p, v, n);
  if (end < n + PGROUNDUP(p->sz) || end > TRAPFRAME)
    return -1;
  *v = (struct vma){ .addr = end - n, .end = end, .off = off, .prot = prot, .flags = flags, .ip = f->ip };
  if (BUG == MMAP_ROUNDS_DOWN)
    v->end = v->addr + PGROUNDDOWN(len);
  if (BUG != MMAP_NO_INODE)
    idup(v->ip);
  for (uint64 va = v->addr; va < v->end; va += PGSIZE) {
    if (VARIANT & EAGER_MMAP)
      vmfault(p, va, 0, USER);
    if (VARIANT & EAGER_TABLES)
      walk(p->pagetable, va, 1);
  }
  return v->addr;
}

// A front or a back of one mapping, or all of it.
int munmap(struct proc *p, uint64 addr, uint64 len)
{
  struct vma *v = vmalookup(p, addr);
  uint64 end = addr + PGROUNDUP(len);
  if (v == 0 || addr % PGSIZE || len == 0 || end > v->end || end < addr || (addr != v->addr && end != v->end))
    return -1;
  if (v->flags == MAP_SHARED ? BUG != MMAP_NOT_SAVED : BUG == MMAP_PRIVATE_SAVED)
    writeback(p, v, addr, end);
  unmap(p, v, addr, end);
  return 0;
}

void vmacopy(struct proc *p, struct proc *child)
{
  for (int i = 0; i < NVMA && BUG != MMAP_FORK_LOSES; i++) {
    struct vma *v = &child->vma[i];
    *v = p->vma[i];
    if (v->end && BUG != MMAP_FORK_NO_INODE)
      idup(v->ip);
    if (BUG == MMAP_FORK_SHARES)
      v->flags = MAP_SHARED;
  }
}

// For exit and exec.
void vmafree(struct proc *p, int save)
{
  for (struct vma *v = p->vma; v < p->vma + NVMA; v++) {
    if (v->end == 0)
      continue;
    if (save && (v->flags == MAP_SHARED || BUG == MMAP_PRIVATE_SAVED))
      writeback(p, v, v->addr, v->end);
    unmap(p, v, v->addr, v->end);
  }
}
