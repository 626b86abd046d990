//! sets FILE TIMES: takes two lists together by CellUnion of crate s2, TIMES times over, and writes the answer's words. The words of FILE, 64 bits
//! each as they stand in memory: what is asked (0 union, 1 intersection, 2 difference), how many ids the first list has, the first list, the second.
//! The answer is normalised where the crate hasn't done so. See bench/sets.

mod consts;
mod r1;
mod r2;
mod r3;
mod s1;
mod s2;

use s2::cellid::CellID;
use s2::cellunion::CellUnion;
use std::hint::black_box;
use std::io::Write;

fn normalized(mut found: CellUnion) -> CellUnion {
    found.normalize();
    found
}

fn main() {
    let arguments: Vec<String> = std::env::args().collect();
    let [_, file, times] = &arguments[..] else { panic!("usage: sets FILE TIMES") };
    let bytes = std::fs::read(file).expect("FILE");
    let words: Vec<u64> = bytes.chunks_exact(8).map(|word| u64::from_ne_bytes(word.try_into().unwrap())).collect();
    let [asked, many, ids @ ..] = &words[..] else { panic!("two lists") };
    let (first, second) = ids.split_at(*many as usize);
    let [first, second] = [first, second].map(|ids| CellUnion(ids.iter().map(|id| CellID(*id)).collect()));
    let way: fn(&CellUnion, &CellUnion) -> CellUnion = match asked {
        0 => CellUnion::union,
        1 => |first, second| normalized(CellUnion::intersection(first, second)),
        2 => |first, second| normalized(CellUnion::difference(first, second)),
        _ => panic!("union, intersection or difference"),
    };
    let mut found = CellUnion(Vec::new());
    for _ in 0..times.parse::<u64>().expect("TIMES") {
        found = black_box(way(black_box(&first), black_box(&second)));
    }
    let bytes: Vec<u8> = found.0.iter().flat_map(|id| id.0.to_ne_bytes()).collect();
    std::io::stdout().write_all(&bytes).expect("standard output");
}
