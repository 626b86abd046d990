// Coverings from Rust: safe functions over the archive's, a covering of a cap, by both engines and in both editions too, its leaf ranges, two coverings as
// one list, this list as a region, a list as tokens and back, a night's orders in one call, and refusals. Exits with 1 where an answer is not what papers 01 and 02
// say. Doesn't compile where the record of an order is not laid out as in C.

use std::mem::{offset_of, size_of};

extern "C" {
    fn flaxbadger_covering_cap_by(
        engines: u64, x: f64, y: f64, z: f64, radius: f64,
        min_level: u64, max_level: u64, level_mod: u64, max_cells: u64, edition: u64, allowance: u32,
        mem: *mut u64, mem_len: usize, out: *mut u64, out_len: usize,
        count: &mut u64, steps: &mut u64, aside: &mut [u64; 6], agree: &mut u64,
    ) -> u64;
    fn flaxbadger_covering_list_by(
        engines: u64, list: *const u64, list_len: usize,
        min_level: u64, max_level: u64, level_mod: u64, max_cells: u64, edition: u64, allowance: u32,
        mem: *mut u64, mem_len: usize, out: *mut u64, out_len: usize,
        count: &mut u64, steps: &mut u64, aside: &mut [u64; 6], agree: &mut u64,
    ) -> u64;
    fn flaxbadger_ranges(ids: *const u64, ids_len: usize, out: *mut u64, out_len: usize, count: &mut u64) -> u64;
    fn flaxbadger_union(
        first: *const u64, first_len: usize, second: *const u64, second_len: usize,
        out: *mut u64, out_len: usize, count: &mut u64,
    ) -> u64;
    fn flaxbadger_write_tokens(ids: *const u64, ids_len: usize, text: *mut u8, text_len: usize, count: &mut u64, first: &mut u64) -> u64;
    fn flaxbadger_read_tokens(text: *const u8, text_len: usize, ids: *mut u64, ids_len: usize, count: &mut u64, first: &mut u64) -> u64;
    fn flaxbadger_night(orders: *mut Order, orders_len: usize, mem: *mut u64, mem_len: usize, out: *mut u64, out_len: usize) -> u64;
}

/// Asks for the quick engine alone; 1 asks for the plain one.
const QUICK: u64 = 0;
/// Asks for both engines, one after the other.
const BOTH: u64 = 2;

/// Levels, the number of cells that are aimed at, and the edition, 1 or 2, of the order in which a run takes its cells.
#[repr(C)]
#[derive(Clone, Copy, Debug, Default, PartialEq)]
struct Coverer {
    min_level: u64,
    max_level: u64,
    level_mod: u64,
    max_cells: u64,
    edition: u64,
}

#[repr(C)]
#[derive(Clone, Copy, Debug, Default, PartialEq)]
struct Cap {
    center: [f64; 3],
    radius: f64,
}

/// An order of a night: its answer, and what it asks.
#[repr(C)]
#[derive(Clone, Copy, Debug, Default, PartialEq)]
struct Order {
    number: u64,
    count: usize,
    steps: u32,
    aside: [u64; 6],
    fast: bool,
    inner: bool,
    cell: bool,
    id: u64,
    cap: Cap,
    coverer: Coverer,
    allowance: u32,
}

const _: () = assert!(size_of::<Order>() == 168);
const _: () = assert!(offset_of!(Order, steps) == 16 && offset_of!(Order, aside) == 24 && offset_of!(Order, fast) == 72 && offset_of!(Order, cell) == 74);
const _: () = assert!(offset_of!(Order, id) == 80 && offset_of!(Order, cap) == 88 && offset_of!(Order, coverer) == 120 && offset_of!(Order, allowance) == 160);

/// A success. The leaves that were set aside stand by start cell.
#[derive(Debug, PartialEq)]
struct Done {
    count: usize,
    steps: u64,
    aside: [u64; 6],
}

/// Covers the cap, or gives the number of the refusal (1 to 10, or 14: no such edition).
fn covering(c: Coverer, center: [f64; 3], radius: f64, allowance: u32, mem: &mut [u64], out: &mut [u64]) -> Result<Done, u64> {
    covering_by(QUICK, c, center, radius, allowance, mem, out).0
}

/// Covers the cap by these engines: the answer, as above, and whether they agree. By both it is a self-test of the machine: where they don't agree, the
/// machine is at fault, and the answer is not to be used. The slices are borrowed for the call alone, so that the archive's requirements on pointers hold.
fn covering_by(engines: u64, c: Coverer, center: [f64; 3], radius: f64, allowance: u32, mem: &mut [u64], out: &mut [u64]) -> (Result<Done, u64>, bool) {
    let (mut count, mut steps, mut aside, mut agree) = (0, 0, [0; 6], 0);
    let number = unsafe {
        flaxbadger_covering_cap_by(
            engines, center[0], center[1], center[2], radius,
            c.min_level, c.max_level, c.level_mod, c.max_cells, c.edition, allowance,
            mem.as_mut_ptr(), mem.len(), out.as_mut_ptr(), out.len(),
            &mut count, &mut steps, &mut aside, &mut agree,
        )
    };
    (if number == 0 { Ok(Done { count: count as usize, steps, aside }) } else { Err(number) }, agree == 1)
}

/// Covers the ground of a list of cells, or gives the number of the refusal, as for a cap.
fn covering_list(c: Coverer, list: &[u64], allowance: u32, mem: &mut [u64], out: &mut [u64]) -> Result<Done, u64> {
    let (mut count, mut steps, mut aside, mut agree) = (0, 0, [0; 6], 0);
    let number = unsafe {
        flaxbadger_covering_list_by(
            QUICK, list.as_ptr(), list.len(),
            c.min_level, c.max_level, c.level_mod, c.max_cells, c.edition, allowance,
            mem.as_mut_ptr(), mem.len(), out.as_mut_ptr(), out.len(),
            &mut count, &mut steps, &mut aside, &mut agree,
        )
    };
    if number == 0 { Ok(Done { count: count as usize, steps, aside }) } else { Err(number) }
}

/// The list as pairs of first and last leaf, word after word, or the number of the refusal (25 or 26).
fn ranges(ids: &[u64]) -> Result<Vec<u64>, u64> {
    let (mut out, mut count) = (vec![0u64; 2 * ids.len()], 0);
    let number = unsafe { flaxbadger_ranges(ids.as_ptr(), ids.len(), out.as_mut_ptr(), out.len(), &mut count) };
    out.truncate(count as usize);
    if number == 0 { Ok(out) } else { Err(number) }
}

/// The cells of either list, each piece of ground once, or the number of the refusal (15 or 16: which list). A union is never longer than both lists.
fn union(first: &[u64], second: &[u64]) -> Result<Vec<u64>, u64> {
    let (mut out, mut count) = (vec![0u64; first.len() + second.len()], 0);
    let number = unsafe {
        flaxbadger_union(first.as_ptr(), first.len(), second.as_ptr(), second.len(), out.as_mut_ptr(), out.len(), &mut count)
    };
    out.truncate(count as usize);
    if number == 0 { Ok(out) } else { Err(number) }
}

/// Writes the list as tokens, a line each, and gives how many bytes they are; or the number of the refusal (11 or 12), and of 11 that of the first id
/// that is no cell.
fn write_tokens(ids: &[u64], text: &mut [u8]) -> Result<usize, (u64, u64)> {
    let (mut count, mut first) = (0, 0);
    let number = unsafe { flaxbadger_write_tokens(ids.as_ptr(), ids.len(), text.as_mut_ptr(), text.len(), &mut count, &mut first) };
    if number == 0 { Ok(count as usize) } else { Err((number, first)) }
}

/// The ids of the tokens of a text, or the number of the refusal, and of 11 that of the first line that is malformed. A line has two bytes at least.
fn read_tokens(text: &[u8]) -> Result<Vec<u64>, (u64, u64)> {
    let (mut ids, mut count, mut first) = (vec![0u64; text.len() / 2], 0, 0);
    let number = unsafe { flaxbadger_read_tokens(text.as_ptr(), text.len(), ids.as_mut_ptr(), ids.len(), &mut count, &mut first) };
    ids.truncate(count as usize);
    if number == 0 { Ok(ids) } else { Err((number, first)) }
}

/// Answers the orders one after another, each in its record, with the lists one behind another in the output; or gives the number of the refusal (13:
/// over 256 orders).
fn night(orders: &mut [Order], mem: &mut [u64], out: &mut [u64]) -> Result<(), u64> {
    let number = unsafe { flaxbadger_night(orders.as_mut_ptr(), orders.len(), mem.as_mut_ptr(), mem.len(), out.as_mut_ptr(), out.len()) };
    if number == 0 { Ok(()) } else { Err(number) }
}

fn main() {
    let mut mem = vec![0u64; 5120];
    let mut out = vec![0u64; 64];
    let c = Coverer { min_level: 1, max_level: 30, level_mod: 1, max_cells: 8, edition: 1 };

    let sphere = covering(c, [1.0, 0.0, 0.0], 4.0, 1000, &mut mem, &mut out);
    println!("the whole sphere: {sphere:?}");
    let mut ok = matches!(sphere, Ok(Done { count: 24, steps: 6, aside: [0, 0, 0, 0, 0, 0] })) && out[0] == 0x0400000000000000 && out[23] == 0xbc00000000000000;

    let short = covering(c, [1.0, 0.0, 0.0], 4.0, 1000, &mut mem, &mut out[..23]);
    println!("with an output of 23: {short:?}");
    ok &= matches!(short, Err(10));

    let few = covering(c, [1.0, 0.0, 0.0], 4.0, 1000, &mut mem[..5119], &mut out);
    println!("with a memory of 5,119 words: {few:?}");
    ok &= matches!(few, Err(6));

    let pole = covering(Coverer { min_level: 0, ..c }, [0.0, 0.0, 1.0], 1e-6, 1000, &mut mem, &mut out);
    if let Ok(done) = &pole {
        for id in &out[..done.count] {
            println!("  {id:016x}");
        }
    }
    println!("a cap at the pole: {pole:?}");
    let pole_aside = pole.as_ref().ok().map(|done| done.aside);
    ok &= pole_aside.is_some_and(|aside| aside.iter().sum::<u64>() > 0);

    let mut again = vec![0u64; 64];
    for edition in [1, 2] {
        let (tested, agree) = covering_by(BOTH, Coverer { min_level: 0, edition, ..c }, [0.0, 0.0, 1.0], 1e-6, 1000, &mut mem, &mut again);
        println!("in edition {edition}, by both engines: {tested:?}, the engines {}", if agree { "agree" } else { "DO NOT agree" });
        ok &= agree && tested == pole && tested.is_ok_and(|done| again[..done.count] == out[..done.count]);
    }

    let none = covering(Coverer { edition: 3, ..c }, [0.0, 0.0, 1.0], 1e-6, 1000, &mut mem, &mut again);
    println!("in edition 3: {none:?}");
    ok &= matches!(none, Err(14));

    let list = &mut out[..pole.map_or(0, |done| done.count)];
    let pairs = ranges(list);
    if let Ok(words) = &pairs {
        for pair in words.chunks(2) {
            println!("  {:016x} to {:016x}", pair[0], pair[1]);
        }
        println!("as leaf ranges: {} pairs", words.len() / 2);
    }
    ok &= pairs.is_ok_and(|words| !words.is_empty() && words.windows(2).all(|w| w[0] <= w[1]));

    let mut other = vec![0u64; 64];
    let beside = covering(Coverer { min_level: 0, ..c }, [0.0006, 0.0, (1.0f64 - 0.0006 * 0.0006).sqrt()], 1e-6, 1000, &mut mem, &mut other);
    other.truncate(beside.map_or(0, |done| done.count));
    let both = union(list, &other);
    println!("with a cap beside it: {} and {} cells, as one list {:?}", list.len(), other.len(), both.as_ref().map(Vec::len));
    let ids = both.unwrap_or_default();
    ok &= !ids.is_empty() && ids.len() < list.len() + other.len() && ids.windows(2).all(|w| w[0] < w[1]);

    let mut few = vec![0u64; 64];
    let covered = covering_list(Coverer { min_level: 0, max_cells: 4, ..c }, &ids, 1000, &mut mem, &mut few);
    println!("this list as a region, in 4 cells: {covered:?}");
    few.truncate(covered.map_or(0, |done| done.count));
    let under = |cell: &u64, id: u64| cell.abs_diff(id) < cell & cell.wrapping_neg();
    ok &= few.len() <= 4 && ids.iter().all(|id| few.iter().any(|cell| under(cell, *id)));

    list.reverse();
    ok &= ranges(list) == Err(25) && union(list, &other) == Err(15) && union(&other, list) == Err(16);
    ok &= matches!(covering_list(c, list, 1000, &mut mem, &mut other), Err(5));

    let quarters = [0x0400000000000000, 0x0c00000000000000, 0x1400000000000000];
    let mut text = [0u8; 9];
    let written = write_tokens(&quarters, &mut text);
    println!("three quarters as tokens: {written:?}, {:?}", String::from_utf8_lossy(&text));
    ok &= written == Ok(9) && text == *b"04\n0c\n14\n" && read_tokens(&text) == Ok(quarters.to_vec());
    ok &= write_tokens(&quarters, &mut text[..8]) == Err((12, 0)) && write_tokens(&[quarters[0], 0], &mut text) == Err((11, 2));

    let capital = read_tokens(b"04\n0C\n");
    println!("with a capital: {capital:?}");
    ok &= capital == Err((11, 2));

    let around = Order { cap: Cap { center: [0.0, 0.0, 1.0], radius: 1e-6 }, coverer: Coverer { min_level: 0, ..c }, allowance: 1000, ..Order::default() };
    let inside = Order { inner: true, coverer: Coverer { edition: 2, ..around.coverer }, ..around };
    let sphere = Order { cap: Cap { center: [1.0, 0.0, 0.0], radius: 4.0 }, coverer: c, allowance: 5, ..around };
    let face = Order { fast: true, cell: true, id: 0x1000000000000000, ..around };
    let unset = Order { coverer: Coverer { edition: 0, ..c }, ..around };
    let asked = [around, inside, sphere, face, unset];
    let (mut orders, mut lists) = (asked, vec![u64::MAX; 64]);
    let whole = night(&mut orders, &mut mem, &mut lists);
    println!("a night of five orders: {whole:?}");
    ok &= whole.is_ok() && orders.map(|o| o.number) == [0, 0, 9, 0, 14];
    ok &= pole_aside.is_some_and(|aside| orders.map(|o| o.aside) == [aside, [0; 6], [0; 6], [0; 6], [0; 6]]);
    let mut begin = 0;
    for (o, name) in orders.iter().zip(["around the cap", "inside it", "the whole sphere", "face 0, quickly", "of no edition"]) {
        println!("  {name}: number {}, {} cells from place {begin} on, {} steps, leaves set aside {:?}", o.number, o.count, o.steps, o.aside);
        let mut alone = vec![u64::MAX; 64];
        let mut single = [Order { number: 0, count: 0, steps: 0, aside: [0; 6], ..*o }];
        ok &= night(&mut single, &mut mem, &mut alone).is_ok() && single[0] == *o && alone[..o.count] == lists[begin..begin + o.count];
        begin += o.count;
    }
    ok &= begin > 0 && lists[begin..].iter().all(|id| *id == u64::MAX);

    let (mut many, before) = (vec![around; 257], lists.clone());
    let refused = night(&mut many, &mut mem, &mut lists);
    println!("a night of 257 orders: {refused:?}");
    ok &= refused == Err(13) && many == vec![around; 257] && lists == before;

    println!("{}", if ok { "as expected" } else { "NOT as expected" });
    std::process::exit(if ok { 0 } else { 1 });
}
