// Files in memory, pipes, and open files.
#include "defs.h"
#include "fcntl.h"

static struct dinode disk[NINODE];
static uchar blocks[NINODE][MAXFILE];
static struct inode itable[NINODE];
static struct pipe pipes[NPIPE];
static struct file ftable[NFILE];

static struct dinode *dirlookup(const char *name)
{
  for (struct dinode *d = disk; d < disk + NINODE; d++)
    if (d->used && strncmp(d->name, name, NAMESIZE) == 0)
      return d;
  return 0;
}

static struct dinode *ialloc(const char *name)
{
  for (struct dinode *d = disk; d < disk + NINODE; d++)
    if (!d->used) {
      *d = (struct dinode){ .used = 1, .data = memset(blocks[d - disk], 0, MAXFILE) };
      memmove(d->name, name, NAMESIZE);
      return d;
    }
  return 0;
}

// Takes the first slot that is free if the file has none.
static struct inode *iget(struct dinode *d)
{
  struct inode *empty = 0;
  for (struct inode *ip = itable; ip < itable + NINODE; ip++) {
    if (ip->ref > 0 && ip->disk == d) {
      ip->ref++;
      return ip;
    }
    if (empty == 0 && ip->ref == 0)
      empty = ip;
  }
  if (empty)
    *empty = (struct inode){ .ref = 1, .disk = d };
  return empty;
}

void idup(struct inode *ip)
{
  ip->ref++;
}

// A file without a name goes with its last reference. A kernel with a bug may drop one too many.
void iput(struct inode *ip)
{
  if (ip->ref > 0 && --ip->ref == 0 && ip->disk->name[0] == 0)
    ip->disk->used = 0;
}

struct inode *iopen(const char *name, int omode)
{
  struct dinode *d = dirlookup(name);
  if (name[0] == 0)
    return 0;
  if (d == 0 && (omode & O_CREATE))
    d = ialloc(name);
  return d ? iget(d) : 0;
}

int iunlink(const char *name)
{
  struct dinode *d = name[0] ? dirlookup(name) : 0;
  struct inode *ip = d ? iget(d) : 0;
  if (ip == 0)
    return -1;
  d->name[0] = 0;
  iput(ip);
  return 0;
}

struct file *filealloc(int type, int readable, int writable)
{
  for (struct file *f = ftable; f < ftable + NFILE; f++)
    if (f->ref == 0) {
      *f = (struct file){ .type = type, .ref = 1, .readable = readable, .writable = writable };
      return f;
    }
  return 0;
}

struct file *filedup(struct file *f)
{
  f->ref++;
  return f;
}

void fileclose(struct file *f)
{
  if (--f->ref > 0)
    return;
  if (f->type == FD_INODE)
    iput(f->ip);
  if (f->type == FD_PIPE) {
    if (f->writable)
      f->pipe->writeopen = 0;
    else
      f->pipe->readopen = 0;
    wakeup();
  }
}

int pipealloc(struct file **f0, struct file **f1)
{
  struct pipe *pi = pipes;
  while (pi < pipes + NPIPE && (pi->readopen || pi->writeopen))
    pi++;
  if (pi == pipes + NPIPE)
    return -1;
  *f0 = filealloc(FD_PIPE, 1, 0);
  *f1 = *f0 ? filealloc(FD_PIPE, 0, 1) : 0;
  if (*f1 == 0) {
    if (*f0)
      (*f0)->ref = 0;
    return -1;
  }
  *pi = (struct pipe){ .readopen = 1, .writeopen = 1 };
  (*f0)->pipe = (*f1)->pipe = pi;
  return 0;
}

// For COPY_ALL: whether all bytes can be copied.
static int ready(struct proc *p, uint64 addr, long n, int store)
{
  for (long i = 0; i < n; i++)
    if (vmfault(p, addr + i, store, COPY) == 0)
      return 0;
  return 1;
}

static long piperead(struct proc *p, struct pipe *pi, uint64 addr, long n)
{
  long i;
  if (pi->nread == pi->nwrite && pi->writeopen)
    return AGAIN;
  if (n > pi->nwrite - pi->nread)
    n = pi->nwrite - pi->nread;
  if ((VARIANT & COPY_ALL) && !ready(p, addr, n, 1))
    return -1;
  for (i = 0; i < n; i++, pi->nread++)
    if (copyout(p, addr + i, &pi->data[pi->nread % PIPESIZE], 1) < 0)
      break;
  wakeup();
  return i == 0 && n > 0 ? -1 : i;
}

static long pipewrite(struct proc *p, struct pipe *pi, uint64 addr, long n)
{
  long written = p->written;
  if ((VARIANT & COPY_ALL) && !ready(p, addr, n, 0))
    return -1;
  p->written = 0;
  while (written < n) {
    if (!pi->readopen)
      return -1;
    if (pi->nwrite == pi->nread + PIPESIZE) {
      p->written = written;
      wakeup();
      return AGAIN;
    }
    if (copyin(p, &pi->data[pi->nwrite % PIPESIZE], addr + written, 1) < 0)
      break;
    pi->nwrite++;
    written++;
  }
  wakeup();
  return written;
}

static long consolewrite(struct proc *p, uint64 addr, long n)
{
  char ch;
  for (long i = 0; i < n; i++) {
    if (copyin(p, &ch, addr + i, 1) < 0)
      return i;
    consputc(ch);
  }
  return n;
}

long fileread(struct proc *p, struct file *f, uint64 addr, long n)
{
  uint64 size;
  if (!f->readable || n < 0)
    return -1;
  if (f->type == FD_PIPE)
    return piperead(p, f->pipe, addr, n);
  if (f->type != FD_INODE)
    return 0;
  size = f->ip->disk->size;
  if (f->off >= size)
    return 0;
  if ((uint64)n > size - f->off)
    n = size - f->off;
  if (copyout(p, addr, f->ip->disk->data + f->off, n) < 0)
    return -1;
  f->off += n;
  return n;
}

long filewrite(struct proc *p, struct file *f, uint64 addr, long n)
{
  struct dinode *d;
  if (!f->writable || n < 0)
    return -1;
  if (f->type == FD_PIPE)
    return pipewrite(p, f->pipe, addr, n);
  if (f->type == FD_DEVICE)
    return consolewrite(p, addr, n);
  d = f->ip->disk;
  if (f->off + n > MAXFILE || copyin(p, d->data + f->off, addr, n) < 0)
    return -1;
  f->off += n;
  if (f->off > d->size)
    d->size = f->off;
  return n;
}
