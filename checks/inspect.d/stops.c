// Processes of many kinds, for a dump: children that wait for a pipe to which nobody writes, and a parent that runs.
#include "kernel/types.h"
#include "kernel/fcntl.h"
#include "user/user.h"

#define CHILDREN 9
#define PAGE 4096

static char data[8 * PAGE];

static void touch(char *from, int pages, int step)
{
  for (int i = 0; i < pages; i += step)
    from[i * PAGE] = i + 1;
}

static void load(volatile char *from, int pages)
{
  for (int i = 0; i < pages; i++)
    (void)from[i * PAGE];
}

static void child(int n, int *done, int *never)
{
  char byte = n;
  int fd = open("notes", O_RDWR);
  char *heap = sbrk((n + 4) * PAGE);
  touch(heap, n + 4, n % 3 + 1);
  touch(data, n % 8, 2);
  if (n % 2)
    touch(mmap(0, 4 * PAGE, PROT_READ | PROT_WRITE, MAP_PRIVATE, fd, 0), 4, 1);
  else
    load(mmap(0, 3 * PAGE, PROT_READ, MAP_SHARED, fd, PAGE), 3);
  write(done[1], &byte, 1);
  read(never[0], &byte, 1);
}

int main(void)
{
  int done[2], never[2], fd = open("notes", O_CREATE | O_RDWR);
  for (int i = 0; i < 5; i++)
    write(fd, data, PAGE);
  touch(data, 8, 1);
  touch(mmap(0, 2 * PAGE, PROT_READ | PROT_WRITE, MAP_SHARED, fd, 0), 2, 1);
  pipe(done);
  pipe(never);
  for (int n = 1; n <= CHILDREN; n++)
    if (fork() == 0)
      child(n, done, never);
  for (int n = 1; n <= CHILDREN; n++)
    read(done[0], data, 1);
  touch(data, 4, 1);
  write(1, "stops: ready\n", 13);
  for (;;)
    ;
}
