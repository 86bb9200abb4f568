//! Replies of steps, refusals, rules, and their texts.

/// The rules that deny an access, in the order in which they are tried.
#[derive(Clone, Copy, Debug, PartialEq, Eq)]
pub enum Rule {
    Misaligned,
    BeyondMax,
    KernelPage,
    GuardPage,
    NoRegion,
    NoRead,
    NoWrite,
    NoExec,
    NoFrame,
}

impl Rule {
    pub fn text(self) -> &'static str {
        match self {
            Rule::Misaligned => "1 Misaligned",
            Rule::BeyondMax => "2 BeyondMax",
            Rule::KernelPage => "3 KernelPage",
            Rule::GuardPage => "4 GuardPage",
            Rule::NoRegion => "5 NoRegion",
            Rule::NoRead => "6 NoRead",
            Rule::NoWrite => "7 NoWrite",
            Rule::NoExec => "8 NoExec",
            Rule::NoFrame => "9 NoFrame",
        }
    }
}

/// Where a hart is between user mode and kernel.
#[derive(Clone, Copy, Debug, PartialEq, Eq)]
pub enum Phase {
    Idle,
    User,
    Enter0,
    Enter1,
    Enter2,
    Kernel,
    Leave1,
    Leave2,
}

impl Phase {
    /// The text of a refused step that is not possible in this phase.
    fn impossible(self) -> &'static str {
        match self {
            Phase::Idle => "19 Impossible idle",
            Phase::User => "19 Impossible user",
            Phase::Enter0 => "19 Impossible enter0",
            Phase::Enter1 => "19 Impossible enter1",
            Phase::Enter2 => "19 Impossible enter2",
            Phase::Kernel => "19 Impossible kernel",
            Phase::Leave1 => "19 Impossible leave1",
            Phase::Leave2 => "19 Impossible leave2",
        }
    }
}

/// The checks of an image, in the order in which they are made.
#[derive(Clone, Copy, Debug, PartialEq, Eq)]
pub enum Part {
    TooLong,
    Header,
    Magic,
    ProgramHeader,
    Sizes,
    Wraps,
    Align,
    Contents,
    TooHigh,
    Order,
    TooMany,
    NoLoad,
}

impl Part {
    fn text(self) -> &'static str {
        match self {
            Part::TooLong => "12 BadImage TooLong",
            Part::Header => "12 BadImage Header",
            Part::Magic => "12 BadImage Magic",
            Part::ProgramHeader => "12 BadImage ProgramHeader",
            Part::Sizes => "12 BadImage Sizes",
            Part::Wraps => "12 BadImage Wraps",
            Part::Align => "12 BadImage Align",
            Part::Contents => "12 BadImage Contents",
            Part::TooHigh => "12 BadImage TooHigh",
            Part::Order => "12 BadImage Order",
            Part::TooMany => "12 BadImage TooMany",
            Part::NoLoad => "12 BadImage NoLoad",
        }
    }
}

/// Why a step is refused.
#[derive(Clone, Copy, Debug, PartialEq, Eq)]
pub enum Refusal {
    NoFrame,
    NoSlot,
    BadImage(Part),
    BadSize,
    NoRoom,
    BadArgument,
    FileNotWritable,
    MappingsFull,
    HoleInMapping,
    Impossible(Phase),
    NoEntry,
    JournalFull,
}

impl Refusal {
    pub fn text(self) -> &'static str {
        match self {
            Refusal::NoFrame => "9 NoFrame",
            Refusal::NoSlot => "10 NoSlot",
            Refusal::BadImage(part) => part.text(),
            Refusal::BadSize => "13 BadSize",
            Refusal::NoRoom => "14 NoRoom",
            Refusal::BadArgument => "15 BadArgument",
            Refusal::FileNotWritable => "16 FileNotWritable",
            Refusal::MappingsFull => "17 MappingsFull",
            Refusal::HoleInMapping => "18 HoleInMapping",
            Refusal::Impossible(phase) => phase.impossible(),
            Refusal::NoEntry => "20 NoEntry",
            Refusal::JournalFull => "22 JournalFull",
        }
    }
}

/// Why a page is not made ready for an access, or why a kernel copy stopped.
#[derive(Clone, Copy, Debug, PartialEq, Eq)]
pub enum Stop {
    Rule(Rule),
    JournalFull,
}

impl Stop {
    pub fn text(self) -> &'static str {
        match self {
            Stop::Rule(rule) => rule.text(),
            Stop::JournalFull => Refusal::JournalFull.text(),
        }
    }
}

/// The reply of a step. The bytes that `copyin` read are in the machine's scratch.
#[derive(Clone, Copy, Debug, PartialEq, Eq)]
pub enum Reply {
    Done,
    Slot(u8),
    Value(u64),
    Stored,
    Fault(u8),
    Entry(u8),
    InFrame(u32),
    Ready,
    Ended(Rule),
    Old(u64),
    At(u64),
    CopiedIn(usize),
    ShortIn(Stop, usize),
    CopiedOut(usize),
    ShortOut(Stop, usize),
    Exited(i32),
}
