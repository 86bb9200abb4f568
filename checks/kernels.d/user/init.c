// Runs all other programs, one after the other, and switches the machine off.
#include "kernel/types.h"
#include "user/user.h"

static void run(char *name)
{
  char *argv[] = { name, 0 };
  int pid = fork(), got;
  if (pid == 0) {
    exec(name, argv);
    exit(1);
  }
  while ((got = wait(0)) != pid && got > 0)
    ;
  while (wait(0) > 0)                           // what a program has left
    ;
}

int main(void)
{
  char name[24];
  for (int i = 0; program(i, name) == 0; i++)
    if (strcmp(name, "init"))
      run(name);
  write(1, "init: done\n", 11);
  shutdown(0);
}
