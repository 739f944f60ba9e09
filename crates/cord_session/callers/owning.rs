//! owning: that a rope of another store is refused, that a session without a handle is closed, and what an error says. What must not compile stands
//! behind `cfg`: run.sh tries each.

#[path = "../../cord_c/callers/cord.rs"]
mod cord;
mod cord_session;

use cord::Source;
use cord_session::{Command, Error, Session, Store, code};

fn code_of<T>(told: Result<T, Error>) -> u32 {
    told.map_or_else(|error| error.code, |_| 0)
}

#[cfg(sent)]
fn must_not_compile(session: Session<'static>) {
    std::thread::spawn(move || drop(session));
}

#[cfg(shared)]
fn must_not_compile(store: &Store) {
    std::thread::scope(|scope| drop(scope.spawn(|| store.bytes(b"x"))));
}

#[cfg(outlived)]
fn must_not_compile(session: &mut Session<'static>) -> Result<u32, Error> {
    let text = vec![1, 2, 3];
    session.add_source(text.as_slice().into())
}

#[cfg(copied)]
fn must_not_compile(session: Session) -> (Session, Session) {
    (session, session)
}

fn main() -> Result<(), Error> {
    let (one, other) = (Store::begin()?, Store::begin()?);
    let (fox, dog) = (one.bytes(b"fox")?, other.bytes(b"dog")?);
    assert_eq!(code_of(one.cat(fox, dog)), code::NO_ROPE);
    assert_eq!(code_of(other.len(fox)), code::NO_ROPE);
    assert_eq!(code_of(one.compare(fox, 0, other.empty(), 0, 1)), code::NO_ROPE);
    assert_eq!(one.text(one.cat(fox, one.empty())?)?, b"fox");

    let mut none = Session::none();
    assert_eq!(code_of(none.apply(Command::New)), code::CLOSED);
    assert_eq!(code_of(none.image()), code::CLOSED);
    assert_eq!(code_of(Store::none().bytes(b"x")), code::CLOSED);

    let mut session = Session::begin()?;
    session.add_source(Source { held: b"abc", size: 9 })?;
    let opened = session.apply(Command::Open { source: 0 })?;
    let mut out = [7; 9];
    assert_eq!(session.read(opened, 0, &mut out[..3])?, 3);
    assert_eq!(&out, b"abc\x07\x07\x07\x07\x07\x07");
    assert_eq!(code_of(session.text(opened)), code::UNHELD);
    assert_eq!(code_of(session.apply(Command::Delete { r: opened, p: 8, n: 2 })), code::RANGE);
    assert_eq!(session.sizes()?.revisions, 1);
    let image = session.image()?;
    let refused = Session::resume(&image, &[]).map(|_| ()).unwrap_err();
    assert_eq!(refused.to_string(), "CORD_REFUSED (62): refused C2");
    let (again, verdict) = Session::resume(&image, &[Source { held: &[], size: 9 }])?;
    assert_eq!((again.len(0)?, verdict.revisions), (9, 1));
    Ok(())
}
