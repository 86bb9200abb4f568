//! Plays scripts from Rust by the crate of bindings/rust/xv6vm-sys, behind a safe function: the texts are written here by hand.

use std::process::ExitCode;

use xv6vm_sys::{xv6vm_play, xv6vm_played as Played};

/// Plays a script. Returns its text, or how it was refused.
fn play(script: &str) -> Result<String, Played> {
    let mut text = Vec::new();
    loop {
        let mut written = 0;
        let played = unsafe { xv6vm_play(script.as_ptr(), script.len(), text.as_mut_ptr(), text.len(), &mut written) };
        match played.status {
            0 => {
                text.truncate(written);
                return Ok(String::from_utf8(text).expect("a text is ASCII"));
            }
            25 => text.resize(written, 0),
            _ => return Err(played),
        }
    }
}

const SCRIPT: &str = "image 0x1000:0x1000:rw:61
boot 1 64 1 full
start 0
on 0 0
load 0 0x1000 1
load 0 0x4000 1
";

fn main() -> ExitCode {
    let refused = Played { status: 23, cause: 3, line: 5 };
    let rows = [
        (SCRIPT.to_string(), Ok("ok\nslot 0\nok\nvalue 0x61\nfault 13\n".to_string())),
        (SCRIPT.replace("load 0 0x1", "laod 0 0x1"), Err(refused)),
    ];
    let mut differences = 0;
    for (script, want) in &rows {
        let got = play(script);
        if got != *want {
            differences += 1;
            println!("differs: scripts.rs: {got:?} in place of {want:?}");
        }
    }
    println!("comparisons in Rust {}", rows.len());
    println!("differences {differences}");
    ExitCode::from(u8::from(differences != 0))
}
