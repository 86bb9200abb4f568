// Kernels that are wrong, and kernels that are right in other ways. checks/kernels reads both tables.
#ifndef BUG
#define BUG 0
#endif
#ifndef VARIANT
#define VARIANT 0
#endif

// -DBUG=n: one mistake. The word before the colon is the kind of programs that must find it.
enum bug {
  COW_NO_REFERENCE = 1,      // cow: a page that is shared already gets no further reference at the next fork
  COW_COPYOUT_SHARED = 2,    // cow: copyout writes to the shared page
  COW_FREES_SHARED = 3,      // cow: a store's fault frees the old page though others have it
  COW_PARENT_KEEPS_W = 4,    // cow: the parent keeps W after the fork
  TLB_FORK = 5,              // cow: fork does not flush the TLB
  COW_LEAK = 6,              // cow: the old page keeps its reference after the copy
  COW_ANY_READ_ONLY = 7,     // cow: every page without W is taken for a shared one, text too
  COW_COPIES_AT_ONCE = 8,    // cow: fork copies every page
  LAZY_NOT_ZEROED = 9,       // lazy: a page of the heap is not zeroed
  COPY_IN_LAZY = 10,         // lazy: copyin fails at a page that was not touched yet
  LAZY_ABOVE_HEAP = 11,      // lazy: one page above the heap is granted
  LAZY_SHRINK_KEEPS = 12,    // lazy: the pages above a heap that shrinks stay mapped
  LAZY_FORK_LOSES = 13,      // lazy: the child's heap ends at the last page that was touched
  COPY_OUT_LAZY = 14,        // lazy: copyout fails at a page that was not touched yet
  LAZY_GUARD = 15,           // lazy: the guard page is granted, as it is below the size
  LAZY_SHRINK_ROUNDS = 16,   // lazy: the page in which a shrinking heap ends is unmapped too
  MMAP_PRIVATE_SAVED = 17,   // mmap: private pages are written back
  MMAP_NOT_SAVED = 18,       // mmap: munmap does not write back
  MMAP_UNMAPS_ALL = 19,      // mmap: munmap of a part unmaps the whole mapping
  MMAP_FORK_LOSES = 20,      // mmap: the child has no mappings
  MMAP_READ_OFFSET = 21,     // mmap: the offset is ignored when a page is read
  MMAP_EXIT_NOT_SAVED = 22,  // mmap: exit does not write back
  MMAP_FRONT_OFFSET = 23,    // mmap: after munmap of the front the rest keeps the old offset
  MMAP_ALWAYS_W = 24,        // mmap: pages are mapped with W whatever the protection is
  MMAP_TAIL = 25,            // mmap: a page is not zeroed past the end of the file
  MMAP_LEAK = 26,            // mmap: munmap does not free the pages
  MMAP_READ_ONLY_FILE = 27,  // mmap: a shared mapping with PROT_WRITE of a file opened for reading is granted
  MMAP_NO_INODE = 28,        // mmap: the mapping holds no reference to its file, which is closed
  LAZY_AT_ONCE = 29,         // lazy: sbrk takes all pages at once
  LAZY_SHRINK_LEAK = 30,     // lazy: a heap that shrinks unmaps its pages and does not free them
  TLB_SHRINK = 31,           // lazy: a heap that shrinks does not flush the TLB
  TLB_MUNMAP = 32,           // mmap: munmap does not flush the TLB
  COPY_OUT_SECOND = 33,      // cow: copyout over two pages writes to the second one though it is shared
  COPY_LAZY_SECOND = 34,     // lazy: a copy over two pages fails at the second one if it was not touched yet
  LAZY_LOAD_FIRST = 35,      // lazy: a page that was first loaded from cannot be stored to
  MMAP_FORK_SHARES = 36,     // mmap: the private mappings of a child are shared ones
  MMAP_SAVE_OFFSET = 37,     // mmap: the offset is ignored when a page is written back
  MMAP_OVERLAP = 38,         // mmap: a mapping goes below that of the slot before, over any other
  TLB_COPYOUT = 39,          // cow: copyout copies a shared page and does not flush the TLB
  TLB_MUNMAP_PART = 40,      // mmap: munmap of a part does not flush the TLB
  COW_LAST_NO_W = 41,        // cow: the last process that has a page gets no W: its store faults for ever
  COPY_IN_FIRST_PAGE = 42,   // cow: copyin over two pages reads the first page twice
  COPY_OUT_NO_W = 43,        // cow: copyout does not look at W: it writes to text
  COPY_NO_U = 44,            // cow: copyin and copyout do not look at U: they reach the guard page
  COW_HIGH_PANIC = 45,       // cow: an access above MAXVA panics in walk
  LAZY_FORK_PANIC = 46,      // lazy: fork panics at a page that was not touched yet
  LAZY_UNMAP_PANIC = 47,     // lazy: uvmunmap panics at a page that was not touched yet
  LAZY_16_BITS = 48,         // lazy: shrinking counts pages in 16 bits
  LAZY_EXEC_LEAK = 49,       // lazy: exec does not free the old page table
  MMAP_ROUNDS_DOWN = 50,     // mmap: the last page is not mapped if the length ends in it
  MMAP_WHOLE_PAGES = 51,     // mmap: a page in which the file ends is not written back
  MMAP_FORK_NO_INODE = 52,   // mmap: the mapping of a child holds no reference to the file
  MMAP_KILL_NOT_SAVED = 53,  // mmap: a process that is killed does not write back
  MMAP_KILL_LEAK = 54,       // mmap: a process that is killed keeps its pages
};

// -DVARIANT=sum: ways that the labs leave open. The words before the colon are the kinds that must pass.
enum variant {
  EAGER_SBRK = 1,            // cow mmap: sbrk takes all pages at once
  COPY_FORK = 2,             // lazy mmap: fork copies every page
  CHILD_READS = 4,           // mmap mixed: a child reads the pages of its mappings from the file again
  SAVE_ALL = 8,              // mmap mixed: all pages of a shared mapping that are in memory are written back
  SHARED_PAGES = 16,         // mmap mixed: parent and child have the same pages of a shared mapping
  MAPS_UPWARDS = 32,         // mmap mixed: mappings go to the lowest place above 0x2000000000
  COPY_ALL = 64,             // cow lazy mmap mixed: a copy through a pipe moves all bytes or none
  EAGER_MMAP = 128,          // mmap mixed: mmap reads the file at once
  TWO_HARTS = 256,           // cow lazy mmap mixed: processes run on two harts
  PAGE_QUEUE = 512,          // cow lazy mmap mixed: kalloc takes the page that is free for the longest time
  EAGER_TABLES = 1024,       // cow lazy mmap mixed: sbrk and mmap make the page tables at once
  ZERO_PAGE = 2048,          // cow lazy mmap mixed: a load of a new page maps one page of zeros, which a store copies
  CHILD_FIRST = 4096,        // cow lazy mmap mixed: after a fork the child runs first
};
#define NCPU ((VARIANT & TWO_HARTS) ? 2 : 1)
