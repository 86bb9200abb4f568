// A small kernel in the manner of xv6: Sv39 on QEMU's virt machine, copy-on-write fork, lazy sbrk, mmap of files in memory.
//
// The kernel is in the table of each process, and satp changes only with the process: an entry of the TLB outlives a system call,
// so a missing sfence.vma shows. A call that must wait returns AGAIN: its process sleeps, and makes the call again when anything
// has happened. So a hart has one stack, which is empty between traps. One lock is held from each trap to the return from it.
#include "types.h"
#include "riscv.h"
#include "bugs.h"

#define KERNBASE 0x80000000UL
#define PHYSTOP (KERNBASE + 40 * 1024 * 1024)
#define PROGRAMS (KERNBASE + 64 * 1024 * 1024)  // where QEMU's loader puts the programs
#define DEVICES 0xFFFFFFC000000000UL            // here the kernel sees physical address 0

#define NPROC 32
#define NOFILE 16                               // open files of a process
#define NFILE 128
#define NINODE 32
#define NPIPE 48
#define NVMA 16
#define MAXFILE 65536
#define PIPESIZE 512
#define NAMESIZE 24
#define MAXARG 8
#define ARGSIZE 128
#define AGAIN (-1000000L)

struct dinode {                                 // a file of the disk, which is memory
  char name[NAMESIZE];                          // empty if no name is left
  int used;
  uint64 size;
  uchar *data;
};

struct inode {                                  // a file in use; a slot without references may be taken for another file
  int ref;
  struct dinode *disk;
};

struct pipe {
  int readopen, writeopen;
  uint nread, nwrite;
  char data[PIPESIZE];
};

struct file {
  enum { FD_NONE, FD_PIPE, FD_INODE, FD_DEVICE } type;
  int ref, readable, writable;
  struct pipe *pipe;
  struct inode *ip;
  uint64 off;
};

struct vma {                                    // a mapping; end is 0 if there is none
  uint64 addr, end;
  uint64 off;                                   // in the file, at addr
  int prot, flags;
  struct inode *ip;
};

struct trapframe {                              // entry.S knows the places
  uint64 epc;
  uint64 ra, sp, gp, tp, t0, t1, t2, s0, s1;
  uint64 a[8];
  uint64 s[10], t[4];
  uint64 kernel_sp, kernel_hartid;
};

struct proc {
  struct trapframe trapframe;
  enum { UNUSED, SLEEPING, RUNNABLE, RUNNING, ZOMBIE } state;
  int pid, killed, xstate;
  struct proc *parent;
  pagetable_t pagetable;
  uint64 heap, sz;                              // the heap is heap .. sz
  uint64 written;                               // by a write to a pipe that isn't at its end
  struct file *ofile[NOFILE];
  struct vma vma[NVMA];
};

// main.c
void consputc(char);
void panic(const char *) __attribute__((noreturn));
void shutdown(int) __attribute__((noreturn));
void *memset(void *, int, uint64);
void *memmove(void *, const void *, uint64);
int strncmp(const char *, const char *, uint);
void acquire(void);
void release(void);

// kalloc.c
void kinit(void);
void *kalloc(void);
void *kzalloc(void);
void kfree(void *);
void kdup(void *);
int krefs(void *);
void kfree_now(void *);
int kfreepages(void);
extern void *zeropage;

// vm.c
extern pte_t kernel_pagetable[512];
pagetable_t uvmcreate(void);
void uvmfree(pagetable_t);
pte_t *walk(pagetable_t, uint64, int);
int mappages(pagetable_t, uint64, uint64, uint64, int);
int mapnew(pagetable_t, uint64, void *, int);
void uvmunmap(pagetable_t, uint64, uint64, int);
void uvmswitch(pagetable_t);
int uvmalloc(struct proc *, uint64, uint64);
int uvmcopy(struct proc *, pagetable_t);
enum access { USER, COPY, COPY_NEXT };          // by the process; by a copy of the kernel, in its first or a later page
void *vmfault(struct proc *, uint64, int, enum access);
int copyin(struct proc *, void *, uint64, uint64);
int copyout(struct proc *, uint64, const void *, uint64);
int copyinstr(struct proc *, char *, uint64, uint64);

// mmap.c
struct vma *vmalookup(struct proc *, uint64);
void *vmaread(struct vma *, uint64);
uint64 mmap(struct proc *, uint64, int, int, struct file *, uint64);
int munmap(struct proc *, uint64, uint64);
void vmacopy(struct proc *, struct proc *);
void vmafree(struct proc *, int);

// file.c
struct file *filealloc(int, int, int);
struct file *filedup(struct file *);
void fileclose(struct file *);
long fileread(struct proc *, struct file *, uint64, long);
long filewrite(struct proc *, struct file *, uint64, long);
struct inode *iopen(const char *, int);
void idup(struct inode *);
void iput(struct inode *);
int iunlink(const char *);
int pipealloc(struct file **, struct file **);

// proc.c
extern struct proc proc[NPROC];
extern struct proc *current[2];                 // the process of each hart
struct proc *myproc(void);
struct proc *allocproc(void);
int fork(struct proc *);
void exit(struct proc *, int);
long wait(struct proc *, uint64);
int kill(int);
uint64 growproc(struct proc *, long);
void wakeup(void);
void scheduler(void) __attribute__((noreturn));

// exec.c
int exec(struct proc *, const char *, char [][ARGSIZE], int);
const char *program(uint64);

// syscall.c
long syscall(struct proc *);

// trap.c
void usertrapret(struct proc *) __attribute__((noreturn));

// entry.S
void userret(struct trapframe *) __attribute__((noreturn));
extern char stack0[], end[];
