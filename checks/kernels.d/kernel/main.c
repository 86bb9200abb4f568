// Boot, the console, and what C needs.
#include "defs.h"

#define UART ((volatile uchar *)(DEVICES + 0x10000000))
#define TEST ((volatile uint *)(DEVICES + 0x100000))

static int lock;
static volatile int started;

void acquire(void)
{
  while (NCPU > 1 && __sync_lock_test_and_set(&lock, 1))
    ;
}

void release(void)
{
  if (NCPU > 1)
    __sync_lock_release(&lock);
}

void consputc(char c)
{
  while ((UART[5] & 0x20) == 0)
    ;
  UART[0] = c;
}

void shutdown(int status)
{
  *TEST = status ? status << 16 | 0x3333 : 0x5555;
  for (;;)
    ;
}

void panic(const char *s)
{
  const char *parts[] = { "kernel: ", s, "\n" };
  for (int i = 0; i < 3; i++)
    for (const char *c = parts[i]; *c; c++)
      consputc(*c);
  shutdown(1);
}

void *memset(void *dst, int c, uint64 n)
{
  for (uchar *d = dst; n--; d++)
    *d = c;
  return dst;
}

// By words where both are aligned.
void *memmove(void *dst, const void *src, uint64 n)
{
  uchar *d = dst;
  const uchar *s = src;
  for (; ((uint64)d | (uint64)s | n) % 8 == 0 && n; n -= 8, d += 8, s += 8)
    *(uint64 *)d = *(const uint64 *)s;
  while (n-- > 0)
    *d++ = *s++;
  return dst;
}

void *memcpy(void *dst, const void *src, uint64 n)
{
  return memmove(dst, src, n);
}

int strncmp(const char *p, const char *q, uint n)
{
  for (; n > 0; n--, p++, q++)
    if (*p != *q || *p == 0)
      return (uchar)*p - (uchar)*q;
  return 0;
}

static void userinit(void)
{
  struct proc *p = allocproc();
  if (exec(p, "init", 0, 0) < 0)
    panic("no init among the programs");
  for (int fd = 0; fd < 3; fd++)
    p->ofile[fd] = filealloc(FD_DEVICE, 1, 1);
  p->state = RUNNABLE;
}

void main(void)
{
  while (cpuid() >= NCPU)
    ;
  if (cpuid() == 0) {
    kinit();
    userinit();
    __sync_synchronize();
    started = 1;
  }
  while (!started)
    ;
  __sync_synchronize();
  acquire();
  scheduler();
}
