//! Ropes and sessions for Rust: lifetimes keep what cord_session.h asks of its callers, so that all here is safe. It stands beside `cord.rs`, whose
//! sources, runs and verdicts it has; a program links `libcord_session.a` and `libcord_c.a`.
//!
//! A read takes the handle alone, and a handle stays on the thread that began it: so `Session` and `Store` are neither `Sync` nor `Send`.
#![allow(dead_code)]

use super::cord::{Run, Source, Verdict};
use std::cell::UnsafeCell;
use std::fmt;
use std::marker::PhantomData;
use std::ptr::null_mut;
use std::sync::atomic::{AtomicU64, Ordering};

mod sys {
    use super::{Change, Run, Sizes, Verdict};
    use std::ffi::c_void;

    #[repr(C)]
    pub struct Handle {
        pub at: *mut c_void,
        pub open: bool,
    }

    #[repr(C)]
    pub struct Source {
        pub bytes: *const u8,
        pub held: usize,
        pub size: u64,
    }

    #[repr(C)]
    pub struct Command {
        pub code: u8,
        pub byte: u8,
        pub r: u32,
        pub q: u32,
        pub p: u64,
        pub i: u64,
        pub n: u64,
        pub bytes: *const u8,
        pub bytes_len: usize,
        pub changes: *const Change,
        pub change_count: usize,
    }

    /// The calls that a session and a store have in common: their names, and the type of a text's number.
    macro_rules! texts {
        ($number:ty: $begin:ident $end:ident $add_source:ident $len:ident $read:ident $locate:ident $find:ident $chr:ident $rchr:ident $compare:ident) => {
            #[link(name = "cord_session", kind = "static")]
            unsafe extern "C" {
                pub fn $begin(handle: *mut Handle) -> u32;
                pub fn $end(handle: *mut Handle);
                pub fn $add_source(handle: *mut Handle, len: u64, source: *mut u32) -> u32;
                pub fn $len(handle: *mut Handle, x: $number, len: *mut u64) -> u32;
                pub fn $read(handle: *mut Handle, sources: *const Source, count: usize, x: $number, place: u64, out: *mut u8, len: usize, got: *mut usize)
                -> u32;
                pub fn $locate(handle: *mut Handle, x: $number, place: u64, run: *mut Run) -> u32;
                pub fn $find(handle: *mut Handle, sources: *const Source, count: usize, x: $number, from: u64, pattern: *const u8, len: usize, place: *mut u64)
                -> u32;
                pub fn $chr(handle: *mut Handle, sources: *const Source, count: usize, x: $number, from: u64, byte: u8, place: *mut u64) -> u32;
                pub fn $rchr(handle: *mut Handle, sources: *const Source, count: usize, x: $number, from: u64, byte: u8, place: *mut u64) -> u32;
                pub fn $compare(handle: *mut Handle, sources: *const Source, count: usize, x: $number, i: u64, y: $number, j: u64, n: u64, order: *mut u32)
                -> u32;
            }
        };
    }
    texts!(u32: cord_session_begin cord_session_end cord_session_add_source cord_session_len cord_session_read cord_session_locate
        cord_session_find cord_session_chr cord_session_rchr cord_session_compare);
    texts!(u64: cord_store_begin cord_store_end cord_store_add_source cord_store_len cord_store_read cord_store_locate
        cord_store_find cord_store_chr cord_store_rchr cord_store_compare);

    unsafe extern "C" {
        pub fn cord_session_resume(handle: *mut Handle, image: *const u8, len: usize, sources: *const Source, count: usize, verdict: *mut Verdict) -> u32;
        pub fn cord_session_apply(handle: *mut Handle, command: *const Command, revision: *mut u32) -> u32;
        pub fn cord_session_sizes(handle: *mut Handle, sizes: *mut Sizes) -> u32;
        pub fn cord_session_save(handle: *mut Handle, len: *mut u64) -> u32;
        pub fn cord_session_saved(handle: *mut Handle, from: u64, out: *mut u8, room: usize, count: *mut usize) -> u32;
        pub fn cord_session_forget(handle: *mut Handle) -> u32;
        pub fn cord_store_bytes(handle: *mut Handle, bytes: *const u8, len: usize, rope: *mut u64) -> u32;
        pub fn cord_store_source(handle: *mut Handle, source: u32, i: u64, n: u64, rope: *mut u64) -> u32;
        pub fn cord_store_function(handle: *mut Handle, function: u32, pattern: *const u8, len: usize, n: u64, rope: *mut u64) -> u32;
        pub fn cord_store_cat(handle: *mut Handle, x: u64, y: u64, rope: *mut u64) -> u32;
        pub fn cord_store_append(handle: *mut Handle, x: u64, bytes: *const u8, len: usize, rope: *mut u64) -> u32;
        pub fn cord_store_substr(handle: *mut Handle, x: u64, i: u64, n: u64, rope: *mut u64) -> u32;
        pub fn cord_store_balance(handle: *mut Handle, x: u64, rope: *mut u64) -> u32;
        pub fn cord_store_depth(handle: *mut Handle, x: u64, depth: *mut u32) -> u32;
        pub fn cord_store_fetch(handle: *mut Handle, sources: *const Source, count: usize, x: u64, place: u64, byte: *mut u8) -> u32;
    }
}

/// The codes of cord_session.h, by their names there without `CORD_`; a macro makes of each a constant of `code`, and its name.
macro_rules! codes {
    ($($name:ident = $number:literal),* $(,)?) => {
        pub mod code {
            $(pub const $name: u32 = $number;)*
        }

        fn code_name(code: u32) -> &'static str {
            match code {
                $($number => concat!("CORD_", stringify!($name)),)*
                _ => "no code of cord_session.h",
            }
        }
    };
}

codes! {
    MEMORY = 1, CLOSED = 2, NO_COMMAND = 3, NO_REVISION = 11, NO_SOURCE = 12, RANGE = 13, EMPTY_TEXT = 14, MANY_REVISIONS = 15, MANY_ROWS = 16,
    MANY_PIECES = 18, SPLICE_COUNT = 19, MANY_SPLICES = 20, TOO_LONG = 31, TABLE_FULL = 33, POOL_FULL = 34, BAD_SPAN = 35, MANY_SOURCES = 36,
    NO_ROPE = 39, LONG_PATTERN = 41, UNHELD = 52, BAD_SOURCES = 53, OVER_SOURCE = 61, REFUSED = 62,
}

/// Why a call is refused, which then has changed no text: a number of `code`, and of an image the verdict on it.
#[derive(Clone, Copy, Debug, PartialEq, Eq)]
pub struct Error {
    pub code: u32,
    pub verdict: Option<Verdict>,
}

impl fmt::Display for Error {
    fn fmt(&self, f: &mut fmt::Formatter) -> fmt::Result {
        write!(f, "{} ({})", code_name(self.code), self.code)?;
        self.verdict.map_or(Ok(()), |verdict| write!(f, ": {verdict}"))
    }
}

impl std::error::Error for Error {}

fn want(code: u32) -> Result<(), Error> {
    if code == 0 { Ok(()) } else { Err(Error { code, verdict: None }) }
}

/// How large a session is: see cord_session.h.
#[repr(C)]
#[derive(Clone, Copy, Debug, Default, PartialEq, Eq)]
pub struct Sizes {
    pub revisions: u32,
    pub nodes: u32,
    pub sources: u32,
    unused: u32,
    pub pool: u64,
}

/// A change of `Command::Many`: the next `n` bytes in place of the `m` bytes from place `p` on.
#[repr(C)]
#[derive(Clone, Copy, Debug, PartialEq, Eq)]
pub struct Change {
    pub p: u64,
    pub m: u64,
    pub n: u64,
}

/// A command: `r` and `q` are revisions, `p` is a place in `r`, `i` one in `q` or of what is cut, `n` a number of bytes.
#[derive(Clone, Copy, Debug)]
pub enum Command<'a> {
    New,
    Open { source: u32 },
    Insert { r: u32, p: u64, bytes: &'a [u8] },
    Delete { r: u32, p: u64, n: u64 },
    Replace { r: u32, p: u64, n: u64, bytes: &'a [u8] },
    Paste { r: u32, p: u64, q: u32, i: u64, n: u64 },
    Join { r: u32, q: u32 },
    Cut { r: u32, i: u64, n: u64 },
    Fill { r: u32, p: u64, byte: u8, n: u64 },
    Back { r: u32 },
    Balance { r: u32 },
    Many { r: u32, changes: &'a [Change], bytes: &'a [u8] },
}

impl Command<'_> {
    fn told(&self) -> sys::Command {
        let named = |code, r, q, p, i, n| {
            let (bytes, changes): (&[u8], &[Change]) = (&[], &[]);
            sys::Command { code, byte: 0, r, q, p, i, n, bytes: bytes.as_ptr(), bytes_len: 0, changes: changes.as_ptr(), change_count: 0 }
        };
        let with = |bytes: &[u8], command| sys::Command { bytes: bytes.as_ptr(), bytes_len: bytes.len(), ..command };
        match *self {
            Command::New => named(1, 0, 0, 0, 0, 0),
            Command::Open { source } => named(2, 0, source, 0, 0, 0),
            Command::Insert { r, p, bytes } => with(bytes, named(3, r, 0, p, 0, 0)),
            Command::Delete { r, p, n } => named(4, r, 0, p, 0, n),
            Command::Replace { r, p, n, bytes } => with(bytes, named(5, r, 0, p, 0, n)),
            Command::Paste { r, p, q, i, n } => named(6, r, q, p, i, n),
            Command::Join { r, q } => named(7, r, q, 0, 0, 0),
            Command::Cut { r, i, n } => named(8, r, 0, 0, i, n),
            Command::Fill { r, p, byte, n } => sys::Command { byte, ..named(9, r, 0, p, 0, n) },
            Command::Back { r } => named(10, r, 0, 0, 0, 0),
            Command::Balance { r } => named(11, r, 0, 0, 0, 0),
            Command::Many { r, changes, bytes } => {
                sys::Command { changes: changes.as_ptr(), change_count: changes.len(), ..with(bytes, named(12, r, 0, 0, 0, 0)) }
            }
        }
    }
}

/// A handle, which ends what it holds, and the sources that are read.
struct Held<'a> {
    handle: UnsafeCell<sys::Handle>,
    end: unsafe extern "C" fn(*mut sys::Handle),
    sources: Vec<sys::Source>,
    borrowed: PhantomData<&'a [u8]>,
}

impl<'a> Held<'a> {
    fn none(end: unsafe extern "C" fn(*mut sys::Handle)) -> Held<'a> {
        let handle = UnsafeCell::new(sys::Handle { at: null_mut(), open: false });
        Held { handle, end, sources: Vec::new(), borrowed: PhantomData }
    }
}

impl Drop for Held<'_> {
    fn drop(&mut self) {
        unsafe { (self.end)(self.handle.get()) }
    }
}

fn given(sources: &[Source]) -> Vec<sys::Source> {
    sources.iter().map(|s| sys::Source { bytes: s.held.as_ptr(), held: s.held.len(), size: s.size }).collect()
}

/// What is asked of the texts of a session and of a store alike. `known` gives the number of a text.
macro_rules! texts {
    ($number:ty: $add_source:ident $len:ident $read:ident $locate:ident $find:ident $chr:ident $rchr:ident $compare:ident) => {
        /// Adds a source, and answers its number.
        pub fn add_source(&mut self, source: Source<'a>) -> Result<u32, Error> {
            let mut number = 0;
            want(unsafe { sys::$add_source(self.held.handle.get(), source.size, &mut number) })?;
            self.held.sources.extend(given(&[source]));
            Ok(number)
        }

        /// How long a text is.
        pub fn len(&self, x: $number) -> Result<u64, Error> {
            let mut len = 0;
            want(unsafe { sys::$len(self.held.handle.get(), self.known(x)?, &mut len) })?;
            Ok(len)
        }

        /// Writes bytes of a text from a place on, to the end of the run there, and answers how many.
        pub fn read(&self, x: $number, place: u64, out: &mut [u8]) -> Result<usize, Error> {
            let (x, sources, mut got) = (self.known(x)?, &self.held.sources, 0);
            want(unsafe { sys::$read(self.held.handle.get(), sources.as_ptr(), sources.len(), x, place, out.as_mut_ptr(), out.len(), &mut got) })?;
            Ok(got)
        }

        /// All bytes of a text.
        pub fn text(&self, x: $number) -> Result<Vec<u8>, Error> {
            let mut all = vec![0; self.len(x)? as usize];
            let mut place = 0;
            while place < all.len() {
                match self.read(x, place as u64, &mut all[place..])? {
                    0 => break,
                    got => place += got,
                }
            }
            Ok(all)
        }

        /// Where the byte at a place stands, and how many follow it there.
        pub fn locate(&self, x: $number, place: u64) -> Result<Run, Error> {
            let mut run = Run::default();
            want(unsafe { sys::$locate(self.held.handle.get(), self.known(x)?, place, &mut run) })?;
            Ok(run)
        }

        /// The first place from `from` on at which the pattern stands.
        pub fn find(&self, x: $number, from: u64, pattern: &[u8]) -> Result<Option<u64>, Error> {
            let (x, sources, mut place) = (self.known(x)?, &self.held.sources, 0);
            want(unsafe {
                sys::$find(self.held.handle.get(), sources.as_ptr(), sources.len(), x, from, pattern.as_ptr(), pattern.len(), &mut place)
            })?;
            Ok(found(place))
        }

        /// The first place from `from` on at which the byte stands.
        pub fn find_byte(&self, x: $number, from: u64, byte: u8) -> Result<Option<u64>, Error> {
            let (x, sources, mut place) = (self.known(x)?, &self.held.sources, 0);
            want(unsafe { sys::$chr(self.held.handle.get(), sources.as_ptr(), sources.len(), x, from, byte, &mut place) })?;
            Ok(found(place))
        }

        /// The last place at `from` or earlier at which the byte stands.
        pub fn find_last_byte(&self, x: $number, from: u64, byte: u8) -> Result<Option<u64>, Error> {
            let (x, sources, mut place) = (self.known(x)?, &self.held.sources, 0);
            want(unsafe { sys::$rchr(self.held.handle.get(), sources.as_ptr(), sources.len(), x, from, byte, &mut place) })?;
            Ok(found(place))
        }

        /// The order of at most `n` bytes of `x` from `i` on and of `y` from `j` on.
        pub fn compare(&self, x: $number, i: u64, y: $number, j: u64, n: u64) -> Result<std::cmp::Ordering, Error> {
            let (x, y, sources, mut order) = (self.known(x)?, self.known(y)?, &self.held.sources, 0);
            want(unsafe { sys::$compare(self.held.handle.get(), sources.as_ptr(), sources.len(), x, i, y, j, n, &mut order) })?;
            Ok(order.cmp(&1))
        }
    };
}

fn found(place: u64) -> Option<u64> {
    (place != u64::MAX).then_some(place)
}

/// A session, which keeps every revision of its texts: these are counted from 0.
pub struct Session<'a> {
    held: Held<'a>,
}

impl<'a> Session<'a> {
    /// No session: each call is refused by `code::CLOSED`.
    pub fn none() -> Session<'a> {
        Session { held: Held::none(sys::cord_session_end) }
    }

    /// A session without sources and revisions.
    pub fn begin() -> Result<Session<'a>, Error> {
        let session = Session::none();
        want(unsafe { sys::cord_session_begin(session.held.handle.get()) })?;
        Ok(session)
    }

    /// A session that goes on from an image, and what counts it. The image is checked with these sources first.
    pub fn resume(image: &[u8], sources: &[Source<'a>]) -> Result<(Session<'a>, Verdict), Error> {
        let (mut session, mut verdict) = (Session::none(), Verdict::default());
        session.held.sources = given(sources);
        let (handle, sources) = (session.held.handle.get(), &session.held.sources);
        match unsafe { sys::cord_session_resume(handle, image.as_ptr(), image.len(), sources.as_ptr(), sources.len(), &mut verdict) } {
            0 => Ok((session, verdict)),
            code => Err(Error { code, verdict: Some(verdict) }),
        }
    }

    fn known(&self, revision: u32) -> Result<u32, Error> {
        Ok(revision)
    }

    /// Makes the revision that a command gives, and answers its number.
    pub fn apply(&mut self, command: Command) -> Result<u32, Error> {
        let mut revision = 0;
        want(unsafe { sys::cord_session_apply(self.held.handle.get(), &command.told(), &mut revision) })?;
        Ok(revision)
    }

    /// How large it is.
    pub fn sizes(&self) -> Result<Sizes, Error> {
        let mut sizes = Sizes::default();
        want(unsafe { sys::cord_session_sizes(self.held.handle.get(), &mut sizes) })?;
        Ok(sizes)
    }

    /// Its image, which `cordkit check` and `resume` take.
    pub fn image(&mut self) -> Result<Vec<u8>, Error> {
        let (handle, mut len, mut got) = (self.held.handle.get(), 0, 0);
        want(unsafe { sys::cord_session_save(handle, &mut len) })?;
        let mut image = vec![0; len as usize];
        want(unsafe { sys::cord_session_saved(handle, 0, image.as_mut_ptr(), image.len(), &mut got) })?;
        want(unsafe { sys::cord_session_forget(handle) })?;
        Ok(image)
    }

    texts!(u32: cord_session_add_source cord_session_len cord_session_read cord_session_locate cord_session_find cord_session_chr cord_session_rchr
        cord_session_compare);
}

/// A rope of a store; another store refuses it by `code::NO_ROPE`.
#[derive(Clone, Copy, Debug, PartialEq, Eq, Hash)]
pub struct Rope {
    store: u64,
    number: u64,
}

/// Ropes without a history. A store only grows, and a rope stays what it is: so ropes may be made while others are read.
pub struct Store<'a> {
    held: Held<'a>,
    number: u64,
}

impl<'a> Store<'a> {
    /// No store: each call is refused by `code::CLOSED`.
    pub fn none() -> Store<'a> {
        static STORES: AtomicU64 = AtomicU64::new(0);
        Store { held: Held::none(sys::cord_store_end), number: STORES.fetch_add(1, Ordering::Relaxed) }
    }

    /// A store without ropes and sources.
    pub fn begin() -> Result<Store<'a>, Error> {
        let store = Store::none();
        want(unsafe { sys::cord_store_begin(store.held.handle.get()) })?;
        Ok(store)
    }

    fn known(&self, rope: Rope) -> Result<u64, Error> {
        if rope.store == self.number { Ok(rope.number) } else { Err(Error { code: code::NO_ROPE, verdict: None }) }
    }

    fn made(&self, ask: impl FnOnce(*mut sys::Handle, &mut u64) -> u32) -> Result<Rope, Error> {
        let mut number = 0;
        want(ask(self.held.handle.get(), &mut number))?;
        Ok(Rope { store: self.number, number })
    }

    /// The empty rope.
    pub fn empty(&self) -> Rope {
        Rope { store: self.number, number: 0 }
    }

    /// These bytes, at most 65,536.
    pub fn bytes(&self, bytes: &[u8]) -> Result<Rope, Error> {
        self.made(|handle, rope| unsafe { sys::cord_store_bytes(handle, bytes.as_ptr(), bytes.len(), rope) })
    }

    /// `n` bytes of a source from `i` on.
    pub fn source(&self, source: u32, i: u64, n: u64) -> Result<Rope, Error> {
        self.made(|handle, rope| unsafe { sys::cord_store_source(handle, source, i, n, rope) })
    }

    /// The first `n` bytes of a fill (1), a ramp (2) or a cycle (3), over 1 to 16 bytes of pattern.
    pub fn function(&self, function: u32, pattern: &[u8], n: u64) -> Result<Rope, Error> {
        self.made(|handle, rope| unsafe { sys::cord_store_function(handle, function, pattern.as_ptr(), pattern.len(), n, rope) })
    }

    /// `x` and then `y`.
    pub fn cat(&self, x: Rope, y: Rope) -> Result<Rope, Error> {
        let (x, y) = (self.known(x)?, self.known(y)?);
        self.made(|handle, rope| unsafe { sys::cord_store_cat(handle, x, y, rope) })
    }

    /// `x` and then these bytes, at most 65,536.
    pub fn append(&self, x: Rope, bytes: &[u8]) -> Result<Rope, Error> {
        let x = self.known(x)?;
        self.made(|handle, rope| unsafe { sys::cord_store_append(handle, x, bytes.as_ptr(), bytes.len(), rope) })
    }

    /// Of `x` at most `n` bytes from `i` on.
    pub fn substr(&self, x: Rope, i: u64, n: u64) -> Result<Rope, Error> {
        let x = self.known(x)?;
        self.made(|handle, rope| unsafe { sys::cord_store_substr(handle, x, i, n, rope) })
    }

    /// The same text, by a rope whose depth is small for its length.
    pub fn balance(&self, x: Rope) -> Result<Rope, Error> {
        let x = self.known(x)?;
        self.made(|handle, rope| unsafe { sys::cord_store_balance(handle, x, rope) })
    }

    /// How deep a rope is.
    pub fn depth(&self, x: Rope) -> Result<u32, Error> {
        let mut depth = 0;
        want(unsafe { sys::cord_store_depth(self.held.handle.get(), self.known(x)?, &mut depth) })?;
        Ok(depth)
    }

    /// The byte at a place.
    pub fn fetch(&self, x: Rope, place: u64) -> Result<u8, Error> {
        let (x, sources, mut byte) = (self.known(x)?, &self.held.sources, 0);
        want(unsafe { sys::cord_store_fetch(self.held.handle.get(), sources.as_ptr(), sources.len(), x, place, &mut byte) })?;
        Ok(byte)
    }

    texts!(Rope: cord_store_add_source cord_store_len cord_store_read cord_store_locate cord_store_find cord_store_chr cord_store_rchr cord_store_compare);
}
