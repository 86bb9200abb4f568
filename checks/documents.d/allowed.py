"""Names and files in documents that no source here defines, in groups, each with the reason why it may be named."""

NAMES = {
    "words of contracts, of antt and of Rust": "unsafe requires ensures ghost impl unfoldable abbrev record data unreachable match use pub let Maybe mod old file new no_std",
    "names of files beside sources, of goals and of the toolchain's texts": "MODULE TYPE FUNCTION args stdin stdout trusted overflow_add bounds",
    "functions of Rust's library that the code does not call": "copy_within memset memmove malloc realloc free memcpy",
    "xv6's functions and programs": """usertests grind allocproc copyinstr fileread filewrite flags2perm freeproc freewalk growproc kalloc kfree kill kvmmake
        kvmmap loadseg mappages proc_freepagetable proc_mapstacks proc_pagetable sched scheduler swtch sys_sbrk uservec userret usertrap
        usertrapret uvmalloc uvmclear uvmcopy uvmcreate uvmdealloc uvmfree uvmunmap w_satp walkaddr""",
    "registers, and the letters of flags": "sstatus scause VRWXUGAD",
    "labs of MIT 6.1810": "util syscall pgtbl traps cow net lock fs",
    "what a user of generated programs defines for the C compiler": "KIT_COUNT KIT_SBRK KIT_SHRINK KIT_STACK",
    "tools": "callgrind dask dot readelf objcopy pmemsave debootstrap",
    "parts of a version's number, and files of a release": "MAJOR MINOR PATCH MANIFEST SHA256SUMS xv6vm_VERSION_amd64.deb",
    "beginnings of names that a reader chooses": "my_",
    "wrong bodies that only tests catch: no file holds them": """always_out_of_memory harts_on_one_thread threaded_fork_always_refused
        parent_ends_with_child_room""",
}
FILES = {
    "xv6's files": """kernel/vm.c kernel/proc.c kernel/memlayout.h kernel/riscv.h kernel/trampoline.S kernel/trap.c kernel/sysproc.c kernel/kalloc.c
        kernel/file.c user/usertests.c kalloc.c vm.c proc.c exec.c trap.c trampoline.S""",
    "files that a reader makes": "../gate.log report.txt my.script mine.script ../../my.script checked.script mine.html page_tables.html cow.html copy_on_write.html XV6/user/cow1.c",
    "a path as its form": "crate/x.rt crate/X.antt crates/crate/src/x.rt crates/crate/specs/X.antt",
    "a release's, and folders of it": "bin/ lib/ share/xv6vm/ lib/libxv6vm.a out/vigorothuja-*-x86_64-linux.tar.gz teaching/",
    "the kit's": "liblibc_c.a /c/liblibc_c.a",
}
ALLOWED = {name for names in NAMES.values() for name in names.split()}
ALLOWED_FILES = {name for names in FILES.values() for name in names.split()}
