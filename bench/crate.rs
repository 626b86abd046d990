//! crate FILE TIMES: answers the request lines of FILE, TIMES times over, by the region coverer of crate s2; the last time it writes the
//! answers as `cover` does, with - for steps and set-aside totals. Takes `covering` and `interior`, without options. See bench/run.

mod consts;
mod r1;
mod r2;
mod r3;
mod s1;
mod s2;

use r3::vector::Vector;
use s1::ChordAngle;
use s2::cap::Cap;
use s2::cell::Cell;
use s2::cellid::CellID;
use s2::cellunion::CellUnion;
use s2::point::Point;
use s2::region::{Region, RegionCoverer};
use std::hint::black_box;
use std::io::Write;

enum Asked {
    Cap(Cap),
    Cell(CellID),
}

struct Request {
    inner: bool,
    coverer: RegionCoverer,
    region: Asked,
}

fn read(line: &str) -> Option<Request> {
    let fields: Vec<&str> = line.split(' ').collect();
    let bits = |n: usize| fields.get(n).and_then(|word| u64::from_str_radix(word, 16).ok());
    let real = |n: usize| bits(n).map(f64::from_bits);
    let number = |n: usize| fields.get(n).and_then(|word| word.parse::<u64>().ok());
    let inner = match fields[0] {
        "covering" => false,
        "interior" => true,
        _ => return None,
    };
    let coverer = RegionCoverer {
        min_level: number(1)? as u8,
        max_level: number(2)? as u8,
        level_mod: number(3)? as u8,
        max_cells: number(4)? as usize,
    };
    let region = match *fields.get(5)? {
        "cap" => Asked::Cap(Cap {
            center: Point(Vector { x: real(6)?, y: real(7)?, z: real(8)? }),
            radius: ChordAngle(real(9)?),
        }),
        "cell" => Asked::Cell(CellID(bits(6)?)),
        _ => return None,
    };
    Some(Request { inner, coverer, region })
}

fn covered<R: Region + 'static>(request: &Request, region: &R) -> CellUnion {
    if request.inner { request.coverer.interior_covering(region) } else { request.coverer.covering(region) }
}

fn answer(request: &Request) -> CellUnion {
    match &request.region {
        Asked::Cap(cap) => covered(request, cap),
        Asked::Cell(id) => covered(request, &Cell::from(*id)),
    }
}

fn main() {
    let arguments: Vec<String> = std::env::args().collect();
    let [_, file, times] = &arguments[..] else { panic!("usage: crate FILE TIMES") };
    let text = std::fs::read_to_string(file).expect("FILE");
    let requests: Vec<Request> = text.lines().map(|line| read(line).expect(line)).collect();
    let mut output = std::io::BufWriter::new(std::io::stdout().lock());
    for left in (0..times.parse::<u64>().expect("TIMES")).rev() {
        for request in &requests {
            let found = black_box(answer(black_box(request)));
            if left == 0 {
                write!(output, "ok - - - - - - - {}", found.0.len()).expect("standard output");
                for id in &found.0 {
                    write!(output, " {:016x}", id.0).expect("standard output");
                }
                writeln!(output).expect("standard output");
            }
        }
    }
    output.flush().expect("standard output");
}
