// System calls.
#include "defs.h"
#include "fcntl.h"
#include "syscall.h"

static struct file *argfd(struct proc *p, int n)
{
  uint64 fd = p->trapframe.a[n];
  return fd < NOFILE ? p->ofile[fd] : 0;
}

static int argstr(struct proc *p, int n, char *buf, int max)
{
  return copyinstr(p, buf, p->trapframe.a[n], max);
}

// Takes over the caller's reference, and closes the file if no descriptor is free.
static int fdalloc(struct proc *p, struct file *f)
{
  for (int fd = 0; fd < NOFILE; fd++)
    if (p->ofile[fd] == 0) {
      p->ofile[fd] = f;
      return fd;
    }
  fileclose(f);
  return -1;
}

static int sys_close(struct proc *p)
{
  struct file *f = argfd(p, 0);
  if (f == 0)
    return -1;
  p->ofile[p->trapframe.a[0]] = 0;
  fileclose(f);
  return 0;
}

static int sys_open(struct proc *p)
{
  char path[NAMESIZE];
  int omode = p->trapframe.a[1];
  struct inode *ip;
  struct file *f;
  if (argstr(p, 0, path, sizeof path) < 0 || (ip = iopen(path, omode)) == 0)
    return -1;
  if ((f = filealloc(FD_INODE, !(omode & O_WRONLY), (omode & O_WRONLY) || (omode & O_RDWR))) == 0) {
    iput(ip);
    return -1;
  }
  f->ip = ip;
  return fdalloc(p, f);
}

static int sys_unlink(struct proc *p)
{
  char path[NAMESIZE];
  return argstr(p, 0, path, sizeof path) < 0 ? -1 : iunlink(path);
}

static int sys_pipe(struct proc *p)
{
  struct file *f0, *f1;
  int fd[2];
  if (pipealloc(&f0, &f1) < 0)
    return -1;
  fd[0] = fdalloc(p, f0);
  fd[1] = fdalloc(p, f1);
  if (fd[0] >= 0 && fd[1] >= 0 && copyout(p, p->trapframe.a[0], fd, sizeof fd) == 0)
    return 0;
  for (int i = 0; i < 2; i++)
    if (fd[i] >= 0) {
      fileclose(p->ofile[fd[i]]);
      p->ofile[fd[i]] = 0;
    }
  return -1;
}

static int sys_exec(struct proc *p)
{
  char path[NAMESIZE], argv[MAXARG][ARGSIZE];
  uint64 uarg;
  if (argstr(p, 0, path, sizeof path) < 0)
    return -1;
  for (int i = 0; i < MAXARG; i++) {
    if (copyin(p, &uarg, p->trapframe.a[1] + 8 * i, sizeof uarg) < 0)
      return -1;
    if (uarg == 0)
      return exec(p, path, argv, i);
    if (copyinstr(p, argv[i], uarg, ARGSIZE) < 0)
      return -1;
  }
  return -1;
}

// The name of program a0, for init.
static int sys_program(struct proc *p)
{
  const char *name = program(p->trapframe.a[0]);
  return name ? copyout(p, p->trapframe.a[1], name, NAMESIZE) : -1;
}

static long fileio(struct proc *p, long (*call)(struct proc *, struct file *, uint64, long))
{
  struct file *f = argfd(p, 0);
  return f ? call(p, f, p->trapframe.a[1], (int)p->trapframe.a[2]) : -1;
}

long syscall(struct proc *p)
{
  uint64 *a = p->trapframe.a;
  switch (a[7]) {
  case SYS_fork: return fork(p);
  case SYS_exit: exit(p, a[0]); return 0;
  case SYS_wait: return wait(p, a[0]);
  case SYS_pipe: return sys_pipe(p);
  case SYS_read: return fileio(p, fileread);
  case SYS_kill: return kill(a[0]);
  case SYS_exec: return sys_exec(p);
  case SYS_getpid: return p->pid;
  case SYS_sbrk: return growproc(p, (int)a[0]);
  case SYS_open: return sys_open(p);
  case SYS_write: return fileio(p, filewrite);
  case SYS_unlink: return sys_unlink(p);
  case SYS_close: return sys_close(p);
  case SYS_mmap: return mmap(p, a[1], a[2], a[3], argfd(p, 4), a[5]);
  case SYS_munmap: return munmap(p, a[0], a[1]);
  case SYS_freepages: return kfreepages();
  case SYS_program: return sys_program(p);
  case SYS_shutdown: shutdown(a[0]);
  }
  return -1;
}
