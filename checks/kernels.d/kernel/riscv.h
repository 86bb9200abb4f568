// Sv39 and the registers of a hart (RISC-V Privileged Architecture 20211203, 4.1 to 4.4).
typedef uint64 pte_t;
typedef uint64 *pagetable_t;

#define PGSIZE 4096UL
#define PGROUNDUP(sz) (((sz) + PGSIZE - 1) & ~(PGSIZE - 1))
#define PGROUNDDOWN(a) ((a) & ~(PGSIZE - 1))

#define PTE_V (1L << 0)
#define PTE_R (1L << 1)
#define PTE_W (1L << 2)
#define PTE_X (1L << 3)
#define PTE_U (1L << 4)
#define PTE_A (1L << 6)
#define PTE_D (1L << 7)
#define PTE_COW (1L << 8)                       // RSW: a fork took W away

#define PA2PTE(pa) (((uint64)(pa) >> 12) << 10)
#define PTE2PA(pte) (((pte) >> 10) << 12)
#define PTE_FLAGS(pte) ((pte) & 0x3FF)
#define PX(level, va) ((((uint64)(va)) >> (12 + 9 * (level))) & 0x1FF)

#define MAXVA (1L << 38)
#define TRAPFRAME (MAXVA - 2 * PGSIZE)          // xv6 has its own pages from here on: no process may use them
#define MAKE_SATP(pagetable) ((8L << 60) | ((uint64)(pagetable) >> 12))

#define r_csr(name) ({ uint64 x; asm volatile("csrr %0, " #name : "=r"(x)); x; })
#define w_csr(name, x) asm volatile("csrw " #name ", %0" ::"r"((uint64)(x)))
#define SSTATUS_SPP (1L << 8)

// The number of this hart.
static inline uint64 cpuid(void)
{
  uint64 x;
  asm volatile("mv %0, tp" : "=r"(x));
  return x;
}

static inline void sfence_vma(void)
{
  asm volatile("sfence.vma zero, zero" ::: "memory");
}
