//! Calls the judge by history from Rust, by the crate of bindings/rust/xv6vm-sys. What must come back is written here as numbers.

use std::process::ExitCode;

use xv6vm_sys as raw;
use xv6vm_sys::{xv6vm_access as Access, xv6vm_event as Event, xv6vm_hart as Hart, xv6vm_judged as Judged, xv6vm_pmp as Pmp};

fn main() -> ExitCode {
    let mut words = vec![0u64; 3 * 512];
    (words[0], words[512], words[1024]) = (0x20000401, 0x20000801, 0x200000d7);
    let mut events = [Event::default(); 8];
    let pmp = Pmp { config: 9, address: 9 };
    let mut hart = Hart { profile: 9, asid_bits: 9, mstatus: 9, satp: 9, pmp_count: 9, count: 9, pmp: [pmp; 64] };
    let access = Access { address: 0, width: 8, access: 1, mode: 0 };
    let stale = Judged { address: 0x80000000, ..Default::default() };
    let mut found = [Judged::default(); 2];
    let mut listed = 0;
    let mut is = vec![];
    // each pointer is of a value or of an array of so many elements
    unsafe {
        let (h, e) = (&mut hart as *mut Hart, events.as_mut_ptr());
        raw::xv6vm_hart_begin(h, 256 + 4, 16, 16);
        raw::xv6vm_hart_status(h, 0);
        is.push(raw::xv6vm_hart_pmp(h, e, 8, 0, 0x1f, u64::MAX));
        is.push(raw::xv6vm_hart_satp(h, e, 8, 0x8000000000080000));
        is.push(raw::xv6vm_hart_fence(h, e, 8, 0, 0, 0, 0));
        is.push(raw::xv6vm_hart_mem(h, e, 8, 0x80002000, words[1024], 0x200004d7));
        words[1024] = 0x200004d7;
        let judge = |h, e| raw::xv6vm_hart_judge(h, e, 8, words.as_ptr(), words.len(), 0x80000, &access, &stale);
        is.push(judge(h, e));
        is.push(raw::xv6vm_hart_fence(h, e, 8, 1, 0, 0, 0));
        is.push(judge(h, e));
        is.push(raw::xv6vm_hart_outcomes(h, e, 8, words.as_ptr(), words.len(), 0x80000, &access, found.as_mut_ptr(), 2, &mut listed));
    }
    let fresh = Judged { address: 0x80001000, ..Default::default() };
    let right = is == [0, 0, 0, 0, 1, 0, 0, 0] && listed == 1 && found[0] == fresh;
    if !right {
        println!("differs: {is:?}, {listed} outcomes, the first is {:?}", found[0]);
    }
    println!("calls by history from Rust {}", is.len());
    println!("differences {}", u8::from(!right));
    ExitCode::from(u8::from(!right))
}
