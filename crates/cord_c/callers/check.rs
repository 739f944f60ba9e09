//! check [LOOKS] IMAGE [SOURCE]...: the answer of `cordkit check`, by the library. Where the first word is a number, an image whose check
//! may take more looks is refused by that.

mod cord;

use std::process::exit;

fn read(name: &String) -> Vec<u8> {
    std::fs::read(name).unwrap_or_else(|_| {
        eprintln!("read");
        exit(3)
    })
}

fn main() {
    let mut words: Vec<String> = std::env::args().skip(1).collect();
    let most = words.first().and_then(|word| word.parse().ok());
    if most.is_some() {
        words.remove(0);
    }
    let files: Vec<Vec<u8>> = words.iter().map(read).collect();
    let Some((image, texts)) = files.split_first() else {
        eprintln!("check [LOOKS] IMAGE [SOURCE]...");
        exit(2)
    };
    let sources: Vec<cord::Source> = texts.iter().map(|text| text.as_slice().into()).collect();
    if let (Some(most), Some(looks)) = (most, cord::looks_bound(image)) {
        if looks > most {
            println!("refused looks {looks}");
            exit(1);
        }
    }
    match cord::check(image, &sources) {
        Ok(verdict) => println!("{verdict}"),
        Err(verdict) if verdict.code == 12 => {
            eprintln!("read");
            exit(3)
        }
        Err(verdict) => {
            println!("{verdict}");
            exit(1)
        }
    }
}
