// Pages of physical memory, each with the number of its references.
#include "defs.h"

struct run {
  struct run *next;
};

static struct run *freelist, *last;
static int nfree;
static ushort refs[(PHYSTOP - KERNBASE) / PGSIZE];
void *zeropage;

static ushort *refof(void *pa)
{
  if ((uint64)pa % PGSIZE || (char *)pa < end || (uint64)pa >= PHYSTOP)
    panic("kalloc: no page");
  return &refs[((uint64)pa - KERNBASE) / PGSIZE];
}

// Frees a page, whoever has it. The junk shows who still reads it.
void kfree_now(void *pa)
{
  struct run *r = memset(pa, 5, PGSIZE);
  *refof(pa) = 0;
  nfree++;
  if ((VARIANT & PAGE_QUEUE) && freelist) {
    r->next = 0;
    last->next = r;
    last = r;
    return;
  }
  r->next = freelist;
  freelist = r;
  if (r->next == 0)
    last = r;
}

// Drops a reference. A kernel with a bug may drop one too many.
void kfree(void *pa)
{
  ushort *ref = refof(pa);
  if (*ref && --*ref == 0)
    kfree_now(pa);
}

void *kalloc(void)
{
  struct run *r = freelist;
  if (r == 0)
    return 0;
  freelist = r->next;
  nfree--;
  *refof(r) = 1;
  r->next = (struct run *)0x0505050505050505;
  return r;
}

void *kzalloc(void)
{
  void *pa = kalloc();
  return pa ? memset(pa, 0, PGSIZE) : 0;
}

void kdup(void *pa)
{
  ++*refof(pa);
}

int krefs(void *pa)
{
  return *refof(pa);
}

int kfreepages(void)
{
  return nfree;
}

void kinit(void)
{
  for (char *p = (char *)PGROUNDUP((uint64)end); p < (char *)PHYSTOP; p += PGSIZE)
    kfree_now(p);
  zeropage = kzalloc();
}
