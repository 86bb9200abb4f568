//! Images: an ELF file or a list of segments. They are checked whenever a process is started from them or executes them.

use crate::entry::{trapframe, PAGE, RIGHT_R, RIGHT_W, RIGHT_X};
use crate::list::List;
use crate::reply::Part;

/// The most segments that an image may have, those of no bytes not counted.
pub const SEGMENTS: usize = 16;
const ELF_LIMIT: usize = 1_048_576;
const ELF_HEADER: usize = 64;
const PROGRAM_HEADER: u64 = 56;
const LOAD: u32 = 1;

/// A segment of an `image` line.
pub struct Segment {
    pub vaddr: u64,
    pub memsz: u64,
    pub rights: u8,
    pub bytes: Vec<u8>,
}

/// An image of the script.
pub enum Image {
    Elf(Vec<u8>),
    Segments(Vec<Segment>),
}

/// A segment that passed all checks: its pages, and the bytes that it begins with.
#[derive(Clone, Copy, Default)]
pub struct Placed<'a> {
    pub first: u64,
    pub pages: u64,
    pub rights: u8,
    pub bytes: &'a [u8],
}

pub type PlacedList<'a> = List<Placed<'a>, SEGMENTS>;

fn field<const N: usize>(bytes: &[u8], at: usize) -> [u8; N] {
    let mut field = [0; N];
    field.copy_from_slice(&bytes[at..at + N]);
    field
}

fn u64_at(bytes: &[u8], at: usize) -> u64 {
    u64::from_le_bytes(field(bytes, at))
}

fn u32_at(bytes: &[u8], at: usize) -> u32 {
    u32::from_le_bytes(field(bytes, at))
}

/// `bytes[off .. off + len]`, if that is inside.
fn inside(bytes: &[u8], off: u64, len: u64) -> Option<&[u8]> {
    let end = off.checked_add(len)?;
    bytes.get(usize::try_from(off).ok()?..usize::try_from(end).ok()?)
}

/// The sizes of a segment.
struct Sizes {
    vaddr: u64,
    memsz: u64,
    filesz: u64,
}

/// Checks one segment, from `Sizes` on, and adds it to the list. `contents` is `None` if its bytes are not inside the file.
fn place<'a, const LEVELS: usize>(
    list: &mut PlacedList<'a>,
    sizes: Sizes,
    rights: u8,
    contents: Option<&'a [u8]>,
) -> Result<(), Part> {
    let Sizes {
        vaddr,
        memsz,
        filesz,
    } = sizes;
    if memsz < filesz {
        return Err(Part::Sizes);
    }
    let end = vaddr.checked_add(memsz).ok_or(Part::Wraps)?;
    if vaddr % PAGE != 0 {
        return Err(Part::Align);
    }
    if memsz == 0 {
        return Ok(());
    }
    let bytes = contents.ok_or(Part::Contents)?;
    if end > trapframe(LEVELS) - 2 * PAGE {
        return Err(Part::TooHigh);
    }
    let first = vaddr / PAGE;
    if list.last().is_some_and(|p| first < p.first + p.pages) {
        return Err(Part::Order);
    }
    let placed = Placed {
        first,
        pages: memsz.div_ceil(PAGE),
        rights,
        bytes,
    };
    list.push(placed).ok_or(Part::TooMany)
}

/// The rights that the flags of a program header grant.
fn rights_of(flags: u32) -> u8 {
    let mut rights = RIGHT_R;
    if flags & 2 != 0 {
        rights |= RIGHT_W;
    }
    if flags & 1 != 0 {
        rights |= RIGHT_X;
    }
    rights
}

fn check_elf<const LEVELS: usize>(bytes: &[u8]) -> Result<PlacedList<'_>, Part> {
    if bytes.len() > ELF_LIMIT {
        return Err(Part::TooLong);
    }
    if bytes.len() < ELF_HEADER {
        return Err(Part::Header);
    }
    if bytes[..4] != *b"\x7fELF" {
        return Err(Part::Magic);
    }
    let phoff = u64_at(bytes, 32);
    let phnum = u16::from_le_bytes(field(bytes, 56));
    let mut list = PlacedList::new();
    for k in 0..u64::from(phnum) {
        let at = phoff.checked_add(PROGRAM_HEADER * k);
        let header = at.and_then(|at| inside(bytes, at, PROGRAM_HEADER));
        let header = header.ok_or(Part::ProgramHeader)?;
        if u32_at(header, 0) != LOAD {
            continue;
        }
        let sizes = Sizes {
            vaddr: u64_at(header, 16),
            memsz: u64_at(header, 40),
            filesz: u64_at(header, 32),
        };
        let contents = inside(bytes, u64_at(header, 8), sizes.filesz);
        place::<LEVELS>(&mut list, sizes, rights_of(u32_at(header, 4)), contents)?;
    }
    Ok(list)
}

fn check_segments<const LEVELS: usize>(segments: &[Segment]) -> Result<PlacedList<'_>, Part> {
    let mut list = PlacedList::new();
    for s in segments {
        let sizes = Sizes {
            vaddr: s.vaddr,
            memsz: s.memsz,
            filesz: s.bytes.len() as u64,
        };
        place::<LEVELS>(&mut list, sizes, s.rights, Some(&s.bytes))?;
    }
    Ok(list)
}

/// The segments of an image that passes all checks, in ascending order.
pub fn check<const LEVELS: usize>(image: &Image) -> Result<PlacedList<'_>, Part> {
    let list = match image {
        Image::Elf(bytes) => check_elf::<LEVELS>(bytes)?,
        Image::Segments(segments) => check_segments::<LEVELS>(segments)?,
    };
    if list.is_empty() {
        return Err(Part::NoLoad);
    }
    Ok(list)
}
