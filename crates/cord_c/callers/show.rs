//! show IMAGE REV [SOURCE]...: the answer of `cordkit show`, by the library: the image is checked once, and the text read run by run.

mod cord;

use std::io::Write;
use std::process::exit;

fn stop(line: impl std::fmt::Display, status: i32) -> ! {
    eprintln!("{line}");
    exit(status)
}

fn main() {
    let words: Vec<String> = std::env::args().skip(1).collect();
    if words.len() < 2 {
        stop("show IMAGE REV [SOURCE]...", 2);
    }
    let read = |name: &String| std::fs::read(name).unwrap_or_else(|_| stop("read", 3));
    let image = read(&words[0]);
    let revision: u32 = words[1].parse().unwrap_or_else(|_| stop("REV is a number", 2));
    let files: Vec<Vec<u8>> = words[2..].iter().map(read).collect();
    let sources: Vec<cord::Source> = files.iter().map(|file| file.as_slice().into()).collect();
    let opened = cord::Image::open(&image, &sources).unwrap_or_else(|verdict| stop(verdict, 1));
    let Some(len) = opened.text_len(revision) else { stop("refused no revision", 1) };
    let (mut place, mut buffer) = (0, vec![0; 65536]);
    while place < len {
        let got = opened.read(revision, place, &mut buffer).unwrap_or_else(|_| stop("read", 3));
        std::io::stdout().write_all(&buffer[..got]).unwrap_or_else(|_| stop("write", 3));
        place += got as u64;
    }
}
