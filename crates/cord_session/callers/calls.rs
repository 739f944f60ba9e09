//! calls: the calls of calls.cpp by the wrapper for Rust. A rope that there is none of is one of another store. A program has `cord` and
//! `cord_session` beside it; here they stand where they are.

#[path = "../../cord_c/callers/cord.rs"]
mod cord;
mod cord_session;

use cord::{Run, Source};
use cord_session::{Change, Command, Error, Rope, Session, Store, code};
use std::io::BufRead;
use std::str::SplitWhitespace;

type Words<'a, 'b> = &'a mut SplitWhitespace<'b>;

fn number(words: Words) -> u64 {
    words.next().map_or(0, |word| word.parse().unwrap_or(u64::MAX))
}

fn narrow(words: Words) -> u32 {
    number(words).try_into().unwrap_or(u32::MAX)
}

fn from_hex(word: &str) -> Vec<u8> {
    (0..word.len() / 2).map(|k| u8::from_str_radix(&word[2 * k..2 * k + 2], 16).unwrap()).collect()
}

fn bytes(words: Words) -> Vec<u8> {
    words.next().map_or(Vec::new(), from_hex)
}

fn hex(bytes: &[u8]) -> String {
    if bytes.is_empty() { "-".into() } else { bytes.iter().map(|byte| format!("{byte:02x}")).collect() }
}

fn place_told(place: Option<u64>) -> String {
    place.map_or("none".into(), |place| place.to_string())
}

fn run_told(run: Run) -> String {
    let pattern = hex(&run.pattern[..run.pattern_len as usize]);
    format!("{} {} {} {} {} {pattern}", run.kind, run.source, run.function, run.start, run.len)
}

/// What a read tells, and that a refused one leaves the buffer.
fn read_told(size: u64, read: impl FnOnce(&mut [u8]) -> Result<usize, Error>) -> Result<String, Error> {
    let mut out = vec![0xAA; size as usize];
    match read(&mut out) {
        Ok(got) => Ok(hex(&out[..got])),
        Err(error) if error.code != code::UNHELD && out.iter().any(|byte| *byte != 0xAA) => Ok("WRITTEN".into()),
        Err(error) => Err(error),
    }
}

/// Bytes of a source stay to the end.
fn source(words: Words) -> Source<'static> {
    Source::from(&*bytes(words).leak())
}

/// What a call that a session and a store have in common tells: `text` reads which text it is about.
macro_rules! ask {
    ($texts:expr, $call:expr, $words:expr, $text:expr) => {{
        let (texts, words) = ($texts, $words);
        Some(match $call {
            "source" => texts.add_source(source(words))?.to_string(),
            "length" => texts.add_source(Source { held: &[], size: number(words) })?.to_string(),
            "len" => texts.len($text(words))?.to_string(),
            "read" => {
                let (x, place, size) = ($text(words), number(words), number(words));
                read_told(size, |out| texts.read(x, place, out))?
            }
            "text" => hex(&texts.text($text(words))?),
            "locate" => run_told(texts.locate($text(words), number(words))?),
            "find" => place_told(texts.find($text(words), number(words), &bytes(words))?),
            "chr" => place_told(texts.find_byte($text(words), number(words), number(words) as u8)?),
            "rchr" => place_told(texts.find_last_byte($text(words), number(words), number(words) as u8)?),
            "compare" => {
                let order = texts.compare($text(words), number(words), $text(words), number(words), number(words))?;
                (order as i8).to_string()
            }
            _ => return Ok(None),
        })
    }};
}

fn ask_session(session: &mut Session<'static>, call: &str, words: Words) -> Result<Option<String>, Error> {
    Ok(ask!(session, call, words, narrow))
}

fn ask_store(store: &mut Store<'static>, made: &[Rope], other: Rope, call: &str, words: Words) -> Result<Option<String>, Error> {
    Ok(ask!(store, call, words, |words: Words| made.get(number(words) as usize).copied().unwrap_or(other)))
}

fn apply(session: &mut Session, call: &str, words: Words) -> Result<u32, Error> {
    let r = if matches!(call, "new" | "open") { 0 } else { narrow(words) };
    if call == "many" {
        let taken = bytes(words);
        let count = number(words);
        let changes: Vec<Change> = (0..count).map(|_| Change { p: number(words), m: number(words), n: number(words) }).collect();
        return session.apply(Command::Many { r, changes: &changes, bytes: &taken });
    }
    let (given, command);
    session.apply(match call {
        "new" => Command::New,
        "open" => Command::Open { source: narrow(words) },
        "insert" => {
            let p = number(words);
            given = bytes(words);
            Command::Insert { r, p, bytes: &given }
        }
        "replace" => {
            let (p, n) = (number(words), number(words));
            given = bytes(words);
            Command::Replace { r, p, n, bytes: &given }
        }
        "delete" => Command::Delete { r, p: number(words), n: number(words) },
        "paste" => {
            command = (number(words), narrow(words), number(words), number(words));
            Command::Paste { r, p: command.0, q: command.1, i: command.2, n: command.3 }
        }
        "join" => Command::Join { r, q: narrow(words) },
        "cut" => Command::Cut { r, i: number(words), n: number(words) },
        "fill" => Command::Fill { r, p: number(words), byte: number(words) as u8, n: number(words) },
        "back" => Command::Back { r },
        "balance" => Command::Balance { r },
        _ => panic!("no call {call}"),
    })
}

fn make_rope(store: &Store, made: &[Rope], other: Rope, call: &str, words: Words) -> Result<Rope, Error> {
    let rope = |words: Words| made.get(number(words) as usize).copied().unwrap_or(other);
    match call {
        "bytes" => store.bytes(&bytes(words)),
        "part" => store.source(narrow(words), number(words), number(words)),
        "function" => store.function(narrow(words), &bytes(words), number(words)),
        "cat" => store.cat(rope(words), rope(words)),
        "append" => store.append(rope(words), &bytes(words)),
        "substr" => store.substr(rope(words), number(words), number(words)),
        "balance" => store.balance(rope(words)),
        _ => panic!("no call {call}"),
    }
}

struct Callers {
    session: Session<'static>,
    store: Store<'static>,
    made: Vec<Rope>,
    other: Rope,
}

impl Callers {
    fn answer(&mut self, owner: &str, call: &str, words: Words) -> Result<String, Error> {
        let (made, other) = (&self.made, self.other);
        match (owner, call) {
            ("s", "begin") => self.session = Session::begin()?,
            ("s", "end") => self.session = Session::none(),
            ("t", "begin") => self.store = Store::begin()?,
            ("t", "end") => self.store = Store::none(),
            ("t", "depth" | "fetch") => {
                let x = made.get(number(words) as usize).copied().unwrap_or(other);
                let told = if call == "depth" { self.store.depth(x)? } else { self.store.fetch(x, number(words))?.into() };
                return Ok(told.to_string());
            }
            ("t", _) => {
                if let Some(told) = ask_store(&mut self.store, made, other, call, words)? {
                    return Ok(told);
                }
                self.made.push(make_rope(&self.store, made, other, call, words)?);
                return Ok((self.made.len() - 1).to_string());
            }
            _ => return self.session_answer(call, words),
        }
        Ok(String::new())
    }

    fn session_answer(&mut self, call: &str, words: Words) -> Result<String, Error> {
        if let Some(told) = ask_session(&mut self.session, call, words)? {
            return Ok(told);
        }
        match call {
            "save" => {
                let image = self.session.image()?;
                std::fs::write(words.next().unwrap(), &image).unwrap();
                Ok(image.len().to_string())
            }
            "sizes" => self.session.sizes().map(|sizes| format!("{} {} {}", sizes.revisions, sizes.sources, sizes.pool)),
            "resume" => {
                let image = std::fs::read(words.next().unwrap()).unwrap();
                let sources: Vec<Source> = words.map(|word| Source::from(&*from_hex(word).leak())).collect();
                let (session, verdict) = Session::resume(&image, &sources)?;
                self.session = session;
                Ok(format!("{} {} {}", verdict.code, verdict.revisions, verdict.rows))
            }
            _ => apply(&mut self.session, call, words).map(|revision| revision.to_string()),
        }
    }
}

fn main() -> Result<(), Error> {
    let mut callers = Callers { session: Session::none(), store: Store::none(), made: Vec::new(), other: Store::begin()?.empty() };
    for line in std::io::stdin().lock().lines() {
        let line = line.unwrap();
        let words = &mut line.split_whitespace();
        let (owner, call) = (words.next().unwrap_or(""), words.next().unwrap_or(""));
        match callers.answer(owner, call, words) {
            Ok(told) if told.is_empty() => println!("0"),
            Ok(told) if told == "WRITTEN" => println!("{told}"),
            Ok(told) => println!("0 {told}"),
            Err(Error { code, verdict: Some(v) }) => println!("{code} {} {} {}", v.code, v.revisions, v.rows),
            Err(error) => println!("{}", error.code),
        }
    }
    Ok(())
}
