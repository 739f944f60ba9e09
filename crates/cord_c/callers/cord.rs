//! The library for Rust: lifetimes keep what the header asks of its callers, so that all here is safe. A program links `libcord_c.a`.
#![allow(dead_code)]

use std::fmt;

mod sys {
    use super::{Origin, Run, Verdict};

    #[repr(C)]
    pub struct Source {
        pub bytes: *const u8,
        pub held: usize,
        pub size: u64,
    }

    #[repr(C)]
    #[derive(Clone, Copy)]
    pub struct Image {
        pub bytes: *const u8,
        pub len: usize,
    }

    #[link(name = "cord_c", kind = "static")]
    unsafe extern "C" {
        pub fn cord_check(image: *const u8, len: usize, sources: *const Source, count: usize, verdict: *mut Verdict) -> bool;
        pub fn cord_looks_bound(image: *const u8, len: usize, bound: *mut u64) -> bool;
        pub fn cord_open(image: *const u8, len: usize, sources: *const Source, count: usize, opened: *mut Image, verdict: *mut Verdict) -> bool;
        pub fn cord_counts(image: *const Image, counts: *mut Verdict);
        pub fn cord_text_len(image: *const Image, revision: u32, len: *mut u64) -> bool;
        pub fn cord_fetch(image: *const Image, sources: *const Source, count: usize, revision: u32, place: u64, byte: *mut u8) -> u32;
        pub fn cord_locate(image: *const Image, revision: u32, place: u64, run: *mut Run) -> bool;
        pub fn cord_origin(image: *const Image, revision: u32, place: u64, origin: *mut Origin) -> bool;
        pub fn cord_origins(image: *const Image, revision: u32, place: u64, runs: *mut Origin, room: usize, count: *mut usize) -> bool;
        pub fn cord_read(image: *const Image, sources: *const Source, count: usize, revision: u32, place: u64, out: *mut u8, len: usize, got: *mut usize) -> u32;
    }
}

/// A source: the bytes that are held of it, from its first on, and how many it has in all.
#[derive(Clone, Copy)]
pub struct Source<'a> {
    pub held: &'a [u8],
    pub size: u64,
}

impl<'a> From<&'a [u8]> for Source<'a> {
    /// A source all of whose bytes are held.
    fn from(held: &'a [u8]) -> Source<'a> {
        Source { held, size: held.len() as u64 }
    }
}

fn given(sources: &[Source]) -> Vec<sys::Source> {
    sources.iter().map(|s| sys::Source { bytes: s.held.as_ptr(), held: s.held.len(), size: s.size }).collect()
}

/// What a check answers, as numbers: see cord.h. Printed as `cordkit check` does.
#[repr(C)]
#[derive(Clone, Copy, Debug, Default, PartialEq, Eq)]
pub struct Verdict {
    pub code: u32,
    pub kind: u32,
    pub number: u32,
    pub revisions: u32,
    pub nodes: u32,
    pub rows: u32,
    pub row: u64,
}

impl fmt::Display for Verdict {
    fn fmt(&self, f: &mut fmt::Formatter) -> fmt::Result {
        match self.code {
            0 => write!(f, "accepted {} revisions {} nodes {} rows", self.revisions, self.nodes, self.rows),
            1 => write!(f, "refused C1(I{})", self.kind),
            2 => write!(f, "refused C2"),
            11 => write!(f, "refused C11({},{})", self.number, self.row),
            12 => write!(f, "refused C12(S{})", self.kind),
            13 => write!(f, "refused S{}", self.kind),
            _ => write!(f, "refused C{}({})", self.code, self.number),
        }
    }
}

/// A piece of a text that stands in one place: see cord.h.
#[repr(C)]
#[derive(Clone, Copy, Debug, Default, PartialEq, Eq)]
pub struct Run {
    pub kind: u32,
    pub source: u32,
    pub function: u32,
    pub pattern_len: u32,
    pub start: u64,
    pub len: u64,
    pub pattern: [u8; 16],
}

/// Where a byte comes from: see cord.h.
#[repr(C)]
#[derive(Clone, Copy, Debug, Default, PartialEq, Eq)]
pub struct Origin {
    pub revision: u32,
    pub kind: u32,
    pub source: u32,
    pub byte: u32,
    pub place: u64,
    pub start: u64,
    pub len: u64,
}

/// The bytes are of a source that does not hold them.
#[derive(Clone, Copy, Debug)]
pub struct NotHeld;

/// Whether an image is accepted with these sources, and the verdict on it.
pub fn check(image: &[u8], sources: &[Source]) -> Result<Verdict, Verdict> {
    let sources = given(sources);
    let mut verdict = Verdict::default();
    // A slice's pointer is never null, and nothing here overlaps the verdict.
    match unsafe { sys::cord_check(image.as_ptr(), image.len(), sources.as_ptr(), sources.len(), &mut verdict) } {
        true => Ok(verdict),
        false => Err(verdict),
    }
}

/// How many looks at nodes a check of the image takes at most; `None` where the bytes are no image.
pub fn looks_bound(image: &[u8]) -> Option<u64> {
    let mut bound = 0;
    unsafe { sys::cord_looks_bound(image.as_ptr(), image.len(), &mut bound) }.then_some(bound)
}

/// An image that was accepted, with the sources that it is asked with.
pub struct Image<'a> {
    image: sys::Image,
    sources: Vec<sys::Source>,
    borrowed: std::marker::PhantomData<&'a [u8]>,
}

impl<'a> Image<'a> {
    /// The image of bytes that are accepted with these sources; else the verdict on them.
    pub fn open(image: &'a [u8], sources: &[Source<'a>]) -> Result<Image<'a>, Verdict> {
        static NONE: [u8; 40] = *b"CORDSESS\0\0\0\x01\0\0\0\0\0\0\0\0\0\0\0\0\0\0\0\0\0\0\0\0\0\0\0\0\0\0\0\0";
        let sources = given(sources);
        let mut opened = sys::Image { bytes: NONE.as_ptr(), len: NONE.len() };
        let mut verdict = Verdict::default();
        match unsafe { sys::cord_open(image.as_ptr(), image.len(), sources.as_ptr(), sources.len(), &mut opened, &mut verdict) } {
            true => Ok(Image { image: opened, sources, borrowed: std::marker::PhantomData }),
            false => Err(verdict),
        }
    }

    /// How many revisions, nodes and rows it has.
    pub fn counts(&self) -> Verdict {
        let mut counts = Verdict::default();
        unsafe { sys::cord_counts(&self.image, &mut counts) };
        counts
    }

    /// The length of the text of a revision, where there is one.
    pub fn text_len(&self, revision: u32) -> Option<u64> {
        let mut len = 0;
        unsafe { sys::cord_text_len(&self.image, revision, &mut len) }.then_some(len)
    }

    /// The byte at a place of that text, where there is one.
    pub fn fetch(&self, revision: u32, place: u64) -> Result<Option<u8>, NotHeld> {
        let mut byte = 0;
        match unsafe { sys::cord_fetch(&self.image, self.sources.as_ptr(), self.sources.len(), revision, place, &mut byte) } {
            0 => Ok(Some(byte)),
            1 => Ok(None),
            _ => Err(NotHeld),
        }
    }

    /// Where the byte at a place of that text stands, and how many follow it there.
    pub fn locate(&self, revision: u32, place: u64) -> Option<Run> {
        let mut run = Run::default();
        unsafe { sys::cord_locate(&self.image, revision, place, &mut run) }.then_some(run)
    }

    /// Where the byte at a place of that text comes from, and how many bytes from it on came in together with it.
    pub fn origin(&self, revision: u32, place: u64) -> Option<Origin> {
        let mut origin = Origin::default();
        unsafe { sys::cord_origin(&self.image, revision, place, &mut origin) }.then_some(origin)
    }

    /// The same of the bytes from a place on, run by run: how many were told, to the text's end, or so many that they fill half of the room or
    /// more; `None` where there is no such place.
    pub fn origins(&self, revision: u32, place: u64, runs: &mut [Origin]) -> Option<usize> {
        let mut count = 0;
        unsafe { sys::cord_origins(&self.image, revision, place, runs.as_mut_ptr(), runs.len(), &mut count) }.then_some(count)
    }

    /// Writes bytes of that text from a place on, to the end of the run there, and answers how many.
    pub fn read(&self, revision: u32, place: u64, out: &mut [u8]) -> Result<usize, NotHeld> {
        let mut got = 0;
        let told = unsafe {
            sys::cord_read(&self.image, self.sources.as_ptr(), self.sources.len(), revision, place, out.as_mut_ptr(), out.len(), &mut got)
        };
        if told == 0 { Ok(got) } else { Err(NotHeld) }
    }
}
