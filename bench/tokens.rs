//! tokens FILE TIMES: writes a list as tokens, or reads such a text, by CellID of crate s2, TIMES times over, and writes the answer's text or words. The
//! words of FILE, 64 bits each as they stand in memory: what is asked (0 to_token, 1 from_token), how many ids or bytes there are, and these, a text
//! with bytes 0 up to a whole word. See bench/tokens.

mod consts;
mod r1;
mod r2;
mod r3;
mod s1;
mod s2;

use s2::cellid::CellID;
use std::hint::black_box;
use std::io::Write;

fn written(ids: &[CellID]) -> String {
    let mut text = String::new();
    for id in ids {
        text += &id.to_token();
        text.push('\n');
    }
    text
}

fn read(text: &str) -> Vec<CellID> {
    text.lines().map(CellID::from_token).collect()
}

fn main() {
    let arguments: Vec<String> = std::env::args().collect();
    let [_, file, times] = &arguments[..] else { panic!("usage: tokens FILE TIMES") };
    let times: u64 = times.parse().expect("TIMES");
    let bytes = std::fs::read(file).expect("FILE");
    let words: Vec<u64> = bytes.chunks_exact(8).map(|word| u64::from_ne_bytes(word.try_into().unwrap())).collect();
    let [asked, many, rest @ ..] = &words[..] else { panic!("a list or a text") };
    let found: Vec<u8> = if *asked == 0 {
        let ids: Vec<CellID> = rest[..*many as usize].iter().map(|id| CellID(*id)).collect();
        let mut text = String::new();
        for _ in 0..times {
            text = black_box(written(black_box(&ids)));
        }
        text.into_bytes()
    } else {
        let text = std::str::from_utf8(&bytes[16..16 + *many as usize]).expect("a text");
        let mut ids = Vec::new();
        for _ in 0..times {
            ids = black_box(read(black_box(text)));
        }
        ids.iter().flat_map(|id| id.0.to_ne_bytes()).collect()
    };
    std::io::stdout().write_all(&found).expect("standard output");
}
