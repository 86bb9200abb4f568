// The only program of a Linux: ten processes, each with memory of other kinds, that run for ever.
typedef unsigned long u64;

#define SPACES 10
#define PAGE 4096UL
#define READ 1
#define WRITE 2
#define EXECUTE 4
#define SHARED 1
#define PRIVATE 2
#define ANONYMOUS 32
// Numbers of system calls of Linux on riscv64, and SIGCHLD.
enum { SYS_write = 64, SYS_clone = 220, SYS_mmap = 222, SYS_mprotect = 226, SIGCHLD = 17 };

static long call(long number, long a, long b, long c, long d, long e, long f)
{
  register long a7 asm("a7") = number, a0 asm("a0") = a, a1 asm("a1") = b, a2 asm("a2") = c;
  register long a3 asm("a3") = d, a4 asm("a4") = e, a5 asm("a5") = f;
  asm volatile("ecall" : "+r"(a0) : "r"(a7), "r"(a1), "r"(a2), "r"(a3), "r"(a4), "r"(a5) : "memory");
  return a0;
}

static char *map(u64 size, int rights, int flags)
{
  return (char *)call(SYS_mmap, 0, size, rights, flags | ANONYMOUS, -1, 0);
}

static void touch(volatile char *from, u64 size, u64 step)
{
  for (u64 at = 0; at < size; at += step)
    from[at] = 1;
}

static void load(volatile char *from, u64 size)
{
  for (u64 at = 0; at < size; at += PAGE)
    (void)from[at];
}

static char before_fork[16 * PAGE], own[16 * PAGE];

static void run(int n)
{
  u64 size = (n + 1) * 16 * PAGE;
  touch(map(size, READ | WRITE, PRIVATE), size, PAGE * (n % 3 + 1));
  load(map(4 * PAGE, READ | WRITE, PRIVATE), 4 * PAGE);
  touch(own, n * PAGE, PAGE);
  if (n % 3 == 0)
    touch(map(8 << 20, READ | WRITE, PRIVATE), 8 << 20, PAGE);
  if (n == 4)
    touch(map(2 * PAGE, READ | WRITE | EXECUTE, PRIVATE), 2 * PAGE, PAGE);
  if (n == 5) {
    char *closed = map(4 * PAGE, READ | WRITE, PRIVATE);
    touch(closed, 4 * PAGE, PAGE);
    call(SYS_mprotect, (long)closed, 2 * PAGE, READ, 0, 0, 0);
  }
  call(SYS_write, 1, (long)"inspect: ready\n", 15, 0, 0, 0);
  for (volatile u64 turns = 0;; turns++)
    ;
}

void _start(void)
{
  char *both = map(4 * PAGE, READ | WRITE, SHARED);
  touch(before_fork, sizeof before_fork, PAGE);
  for (int n = 1; n < SPACES; n++)
    if (call(SYS_clone, SIGCHLD, 0, 0, 0, 0, 0) == 0) {
      if (n < 3)
        touch(both, 4 * PAGE, PAGE);
      run(n);
    }
  run(0);
}
