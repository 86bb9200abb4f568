//! Answers lines of checks/bindings by the crate xv6vm: one line of answer for each line of standard input. `player.py` answers the same
//! by the package xv6vm.

use std::io::{BufRead, Write};

use xv6vm::{
    translate_by, Access, Entry, Error, Hart, Judged, Memory, MemoryType, Mode, Outcome, Pmps, Profile, Question, Reason,
    Regions, Request, Status, Tlb, Translation, Update, Width,
};

type Fields<'a> = std::str::SplitAsciiWhitespace<'a>;

fn number(fields: &mut Fields) -> u64 {
    optional(fields).expect("a number")
}

/// A number; `None` for `-`.
fn optional(fields: &mut Fields) -> Option<u64> {
    let text = fields.next().expect("a field is missing");
    if text == "-" {
        return None;
    }
    Some(u64::from_str_radix(text, 16).expect("a field is no hexadecimal number"))
}

fn access(fields: &mut Fields) -> Access {
    [Access::Fetch, Access::Load, Access::Store][number(fields) as usize]
}

fn mode(fields: &mut Fields) -> Mode {
    match number(fields) {
        0 => Mode::User,
        1 => Mode::Supervisor,
        _ => Mode::Machine,
    }
}

fn width(fields: &mut Fields) -> Width {
    match number(fields) {
        1 => Width::One,
        2 => Width::Two,
        4 => Width::Four,
        _ => Width::Eight,
    }
}

fn request(fields: &mut Fields) -> Request {
    Request { address: number(fields), width: width(fields), access: access(fields), mode: mode(fields) }
}

fn profile(fields: &mut Fields) -> Profile {
    let bits = number(fields);
    let has = |bit: u64| bits & bit != 0;
    Profile {
        sv39: has(256),
        sv48: has(512),
        sv57: has(1024),
        svnapot: has(1),
        svpbmt: has(2),
        svade: has(4),
        svadu: has(8),
        asid_bits: number(fields) as u8,
        pmps: match number(fields) {
            0 => Pmps::None,
            16 => Pmps::Sixteen,
            _ => Pmps::SixtyFour,
        },
    }
}

/// `pa ADDRESS TYPE` or `fault CAUSE`, then the place and the word of an update, or `-`.
fn judged(fields: &mut Fields) -> Judged {
    let granted = fields.next() == Some("pa");
    let (value, memory_type) = (number(fields), number(fields));
    let (place, word) = (optional(fields), optional(fields));
    let update = place.map(|address| Update { address, word: word.unwrap_or(0) });
    let memory_type = [MemoryType::Pma, MemoryType::Nc, MemoryType::Io][memory_type as usize];
    if granted {
        Judged::Granted { address: value, memory_type, update }
    } else {
        Judged::Refused { cause: value, update }
    }
}

fn judged_text(outcome: &Judged) -> String {
    let (told, update) = match *outcome {
        Judged::Granted { address, memory_type, update } => {
            let kind = match memory_type {
                MemoryType::Pma => "",
                MemoryType::Nc => " nc",
                MemoryType::Io => " io",
            };
            (format!("pa {address:x}{kind}"), update)
        }
        Judged::Refused { cause, update } => (format!("fault {cause}"), update),
    };
    update.map_or(told.clone(), |it| format!("{told} set {:x} {:x}", it.address, it.word))
}

fn error_text(error: Error) -> String {
    let name = match error {
        Error::UnknownScheme | Error::MachineMode => "unknown",
        Error::Bare => "bare",
        Error::TableOutside => "outside",
        Error::NoEntry => "no-entry",
        _ => "other",
    };
    format!("error {name}")
}

fn outcome_text(outcome: Result<Outcome, Error>) -> String {
    match outcome {
        Ok(Outcome::Leaf { level, word, address }) => format!("leaf {level} {word:x} {address:x}"),
        Ok(Outcome::Bare { address }) => format!("bare {address:x}"),
        Ok(Outcome::PageFault { cause }) => format!("page-fault {cause}"),
        Ok(Outcome::AccessFault { cause }) => format!("access-fault {cause}"),
        Err(error) => error_text(error),
    }
}

/// The outcome, and of a fault the step, the level, the address and the word of the entry, and the byte that is outside.
fn translation_text(translation: Result<Translation, Error>) -> String {
    let told = outcome_text(translation.map(|it| it.outcome));
    let reason = match translation.ok().and_then(|it| it.reason) {
        Some(reason) => reason,
        None => return told,
    };
    let (level, address, word, byte) = match reason {
        Reason::NotCanonical => (0, 0, 0, 0),
        Reason::TableOutside { level, address, pointer } => (level, address, pointer.unwrap_or(0), 0),
        Reason::ByteOutside { leaf, address } => (leaf.level, leaf.address, leaf.word, address),
        _ => reason.pte().map_or((0, 0, 0, 0), |it| (it.level, it.address, it.word, 0)),
    };
    format!("{told} step {} {level} {address:x} {word:x} {byte:x}", reason.step())
}

/// `leaf LEVEL WORD ADDRESS`, `bare ADDRESS`, `page-fault CAUSE` or `access-fault CAUSE`.
fn outcome(fields: &mut Fields) -> Outcome {
    match fields.next() {
        Some("leaf") => Outcome::Leaf { level: number(fields) as u32, word: number(fields), address: number(fields) },
        Some("bare") => Outcome::Bare { address: number(fields) },
        Some("page-fault") => Outcome::PageFault { cause: number(fields) },
        _ => Outcome::AccessFault { cause: number(fields) },
    }
}

fn done(result: Result<(), Error>) -> String {
    result.map_or_else(error_text, |()| "ok".to_string())
}

fn yes(is: bool) -> String {
    if is { "yes" } else { "no" }.to_string()
}

struct Player {
    base_ppn: u64,
    words: Vec<u64>,
    tlb: Tlb<Vec<Entry>>,
    hart: Hart,
}

impl Player {
    fn store(&mut self, address: u64, word: u64) -> u64 {
        let index = (address / 8 - 512 * self.base_ppn) as usize;
        std::mem::replace(&mut self.words[index], word)
    }

    fn answer(&mut self, word: &str, f: &mut Fields) -> String {
        let memory = Memory::new(self.base_ppn, &self.words);
        match word {
            "memory" => {
                self.base_ppn = number(f);
                self.words = vec![0; number(f) as usize];
            }
            "word" => {
                let (address, word) = (number(f), number(f));
                self.store(address, word);
            }
            "translate" => return outcome_text(memory.translate(number(f), number(f), access(f), mode(f))),
            "by" => {
                let (words, first) = (&self.words, 512 * self.base_ppn);
                let read = |place: u64| {
                    assert_eq!(place % 8, 0);
                    (place / 8).checked_sub(first).and_then(|it| words.get(it as usize)).copied()
                };
                return translation_text(translate_by(read, number(f), number(f), access(f), mode(f)));
            }
            "regions" => {
                let (satp, address, access, mode) = (number(f), number(f), access(f), mode(f));
                let pairs: Vec<_> = f.map(|it| u64::from_str_radix(it, 16).expect("a number")).collect();
                let region = |it: &[u64]| {
                    let (first, count) = (it[0] as usize, it[1] as usize);
                    Memory::new(self.base_ppn + it[0], &self.words[512 * first..512 * (first + count)])
                };
                let regions: Vec<_> = pairs.chunks(2).map(region).collect();
                return translation_text(Regions::new(&regions).translate(satp, address, access, mode));
            }
            "lookup" => {
                return match memory.lookup(number(f), number(f)) {
                    Ok(Some(it)) => format!("leaf {} {:x} {:x} {}", it.level, it.word, it.address, u8::from(it.global)),
                    Ok(None) => "none".to_string(),
                    Err(error) => error_text(error),
                }
            }
            "tlb" => self.tlb = Tlb::new(number(f) as usize),
            "fill" => return done(self.tlb.fill(&memory, number(f), number(f))),
            "match" => {
                let place = self.tlb.first_match(number(f) as usize, number(f), number(f) as u16);
                return place.map_or("none".to_string(), |it| format!("place {it}"));
            }
            "use" => {
                let outcome = self.tlb.translate(number(f) as usize, number(f), number(f) as u16, access(f), mode(f));
                return outcome_text(outcome);
            }
            "evict" => self.tlb.evict(number(f) as usize),
            "tlbfence" => self.tlb.fence(optional(f), optional(f).map(|it| it as u16)),
            "permits" => return yes(self.tlb.permits(&memory, number(f), number(f), access(f), mode(f), outcome(f))),
            "question" => {
                let (satp, address, access, mode) = (number(f), number(f), access(f), mode(f));
                return yes(self.tlb.permits_of(&Question { memory, satp, address, access, mode }, outcome(f)));
            }
            "entries" => return self.entries(),
            "begin" => self.hart = Hart::new(&profile(f)),
            "status" => {
                let status = Status { sum: number(f) != 0, mxr: number(f) != 0, mprv: number(f) != 0, mpp: mode(f) };
                self.hart.status(status.mstatus());
            }
            "mem" => {
                let (address, word) = (number(f), number(f));
                let before = self.store(address, word);
                self.hart.mem(address, before, word);
            }
            "satp" => return if self.hart.satp(number(f)).is_ok() { "written" } else { "kept" }.to_string(),
            "pmp" => self.hart.pmp(number(f) as usize, number(f) as u8, number(f)),
            "fence" => self.hart.fence(optional(f), optional(f).map(|it| it as u16)),
            "events" => return format!("events {}", self.hart.events()),
            "judge" => return yes(self.hart.judge(&memory, &request(f), &judged(f))),
            "outcomes" => {
                let mut texts: Vec<String> = self.hart.outcomes(&memory, &request(f)).iter().map(judged_text).collect();
                texts.sort();
                return texts.join("; ");
            }
            #[cfg(feature = "play")]
            "play" => return played(f.next().expect("a path")),
            "layout" => return layouts(),
            _ => return format!("no line begins with {word}"),
        }
        "ok".to_string()
    }

    fn entries(&self) -> String {
        let texts = self
            .tlb
            .entries()
            .iter()
            .map(|it| format!("{:x} {:x} {} {:x} {} {}", it.address, it.word, it.level, it.asid, it.global, it.kind));
        texts.collect::<Vec<_>>().join("; ")
    }
}

#[cfg(feature = "play")]
fn played(path: &str) -> String {
    use xv6vm::{Script, ScriptError};
    let script = std::fs::read(path).expect("a script");
    match Script::new(&script).play() {
        Ok(text) => format!("played {text:?}"),
        Err(ScriptError::Fault { line, cause }) => format!("fault {line} {cause:?}").to_lowercase(),
        Err(error) => format!("{error}"),
    }
}

fn size_of_field<T>(_: *const T) -> usize {
    std::mem::size_of::<T>()
}

/// The size of a struct, and the offset and the size of each field. No byte of it is read.
macro_rules! layout {
    ($name:ident: $($field:ident)*) => {{
        let it = std::mem::MaybeUninit::<xv6vm_sys::$name>::uninit();
        let base = it.as_ptr();
        let mut text = format!("{} {}", stringify!($name), std::mem::size_of::<xv6vm_sys::$name>());
        $(
            // SAFETY: the address of a field of memory of this size; nothing is read.
            let field = unsafe { std::ptr::addr_of!((*base).$field) };
            text += &format!(" {} {} {}", stringify!($field), field as usize - base as usize, size_of_field(field));
        )*
        text
    }};
}

fn layouts() -> String {
    let texts = [
        layout!(xv6vm_outcome: status level word address cause),
        layout!(xv6vm_leaf: status level word address global),
        layout!(xv6vm_entry: address word level asid global kind),
        layout!(xv6vm_reached: status level table index place word cause step),
        layout!(xv6vm_walk: satp address access mode at),
        layout!(xv6vm_event: kind key value other),
        layout!(xv6vm_pmp: config address),
        layout!(xv6vm_hart: profile asid_bits mstatus satp pmp_count count pmp),
        layout!(xv6vm_access: address width access mode),
        layout!(xv6vm_judged: status memory_type address cause updates table index word),
        layout!(xv6vm_played: status cause line),
    ];
    texts.join("; ")
}

fn main() {
    let mut player = Player { base_ppn: 0, words: Vec::new(), tlb: Tlb::new(0), hart: Hart::new(&Profile::default()) };
    let mut out = std::io::BufWriter::new(std::io::stdout().lock());
    for line in std::io::stdin().lock().lines() {
        let line = line.expect("standard input");
        let mut fields = line.split_ascii_whitespace();
        let word = fields.next().unwrap_or("");
        let answer = player.answer(word, &mut fields);
        writeln!(out, "{answer}").expect("standard output");
    }
}
