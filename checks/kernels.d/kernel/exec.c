// Programs: an archive of ELF files that QEMU's loader put into memory.
#include "defs.h"

static struct archive {
  uint64 count;
  struct entry {
    char name[NAMESIZE];
    uint64 off, size;
  } entry[];
} *const archive = (struct archive *)PROGRAMS;

struct elfhdr {
  uchar ident[16];
  ushort type, machine;
  uint version;
  uint64 entry, phoff, shoff;
  uint flags;
  ushort ehsize, phentsize, phnum;
};

struct proghdr {
  uint type, flags;
  uint64 off, vaddr, paddr, filesz, memsz, align;
};

const char *program(uint64 i)
{
  return i < archive->count ? archive->entry[i].name : 0;
}

static uchar *findprogram(const char *path)
{
  for (uint64 i = 0; i < archive->count; i++)
    if (strncmp(archive->entry[i].name, path, NAMESIZE) == 0)
      return (uchar *)archive + archive->entry[i].off;
  return 0;
}

static void *newpage(pagetable_t pagetable, uint64 va, int perm)
{
  void *pa = kzalloc();
  return mapnew(pagetable, va, pa, perm) < 0 ? 0 : pa;
}

static int loadseg(pagetable_t pagetable, struct proghdr *ph, uchar *elf)
{
  int perm = PTE_U | PTE_R | (ph->flags & 1 ? PTE_X : 0) | (ph->flags & 2 ? PTE_W | PTE_D : 0);
  for (uint64 i = 0; i < ph->memsz; i += PGSIZE) {
    void *pa = newpage(pagetable, ph->vaddr + i, perm);
    if (pa == 0)
      return -1;
    if (i < ph->filesz)
      memmove(pa, elf + ph->off + i, ph->filesz - i < PGSIZE ? ph->filesz - i : PGSIZE);
  }
  return 0;
}

// Loads the segments. Returns the end of the last, 0 if there is no memory.
static uint64 loadall(pagetable_t pagetable, uchar *elf)
{
  struct elfhdr *eh = (struct elfhdr *)elf;
  uint64 sz = 0;
  for (int i = 0; i < eh->phnum; i++) {
    struct proghdr *ph = (struct proghdr *)(elf + eh->phoff + i * eh->phentsize);
    if (ph->type != 1)
      continue;
    if (loadseg(pagetable, ph, elf) < 0)
      return 0;
    sz = PGROUNDUP(ph->vaddr + ph->memsz);
  }
  return sz;
}

// Puts the arguments at the end of the stack's page, which ends at sz, and returns argv.
static uint64 pusharg(char *stack, uint64 sz, char argv[][ARGSIZE], int argc)
{
  uint64 sp = sz, ustack[MAXARG + 1] = { 0 };
  for (int i = 0; i < argc; i++) {
    sp -= ARGSIZE;
    memmove(stack + sp % PGSIZE, argv[i], ARGSIZE);
    ustack[i] = sp;
  }
  sp = (sp - sizeof ustack) & ~15;
  memmove(stack + sp % PGSIZE, ustack, sizeof ustack);
  return sp;
}

// Builds the new table beside the old one: segments, a guard page, a page of stack.
int exec(struct proc *p, const char *path, char argv[][ARGSIZE], int argc)
{
  uchar *elf = findprogram(path);
  pagetable_t pagetable = elf ? uvmcreate() : 0;
  uint64 sz;
  char *stack;
  if (pagetable == 0)
    return -1;
  sz = loadall(pagetable, elf);
  if (sz == 0 || newpage(pagetable, sz, PTE_R | PTE_W | PTE_D) == 0 ||
      (stack = newpage(pagetable, sz + PGSIZE, PTE_U | PTE_R | PTE_W | PTE_D)) == 0) {
    uvmfree(pagetable);
    return -1;
  }
  vmafree(p, 1);
  uvmswitch(pagetable);
  if (p->pagetable && BUG != LAZY_EXEC_LEAK)
    uvmfree(p->pagetable);
  p->pagetable = pagetable;
  p->heap = p->sz = sz + 2 * PGSIZE;
  p->trapframe.epc = ((struct elfhdr *)elf)->entry;
  p->trapframe.sp = p->trapframe.a[1] = pusharg(stack, p->sz, argv, argc);
  return argc;
}
