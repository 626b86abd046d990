//! The oracle's line program: one question a line from standard input, one answer a line to standard output.
//!
//! It answers the lines of `cover` and of `probe`, with one or more blanks (spaces, tabs, carriage returns) between fields.
//! Floats and ids are 16 hex digits, other numbers decimal; a truth is 1 or 0, a list `COUNT ID...`. Lines of blanks alone
//! and lines that begin with # are passed over; `error LINE-NUMBER WORD` answers a line that is no question, a question
//! outside its function's domain, a line with a byte that is 0 or not ASCII, and one of more than 262,144 bytes. At the
//! end of the input `end N` is written, N the number of answers: where it is missing, the output was cut.
//!
//!     KIND MIN MAX MOD MAX_CELLS REGION [OPTION...]
//!                            KIND covering, cellunion, raw, interior, icellunion, iraw or fast; REGION cap X Y Z R, cell ID or
//!                            list LIST, LIST COUNT NUMBER..., any numbers, at most 16,384, here and wherever a region stands;
//!                            OPTION allow=N, out=N, mem=N, tokens=N, edition=N or engine=WORD, in any order, each at most once;
//!                            with tokens=1 ids are written as tokens, WORD, which is quick, plain or both, says nothing; answer
//!                            ok STEPS ASIDE0 .. ASIDE5 COUNT ID... or refused NUMBER; in the build `total` ok STEPS ASIDE COUNT ID...
//!     ranges LIST [OPTION...], cells LIST [OPTION...]
//!                            lists as in a region; answer ok COUNT NUMBER... or refused NUMBER
//!     union LIST LIST [OPTION...], common LIST LIST [OPTION...], difference LIST LIST [OPTION...]
//!                            likewise
//!     check MIN MAX MOD REGION LIST [OPTION...]
//!                            whether the list covers the region, paper 02's request k; answer yes, no or refused NUMBER
//!     explain MIN MAX MOD REGION LIST [OPTION...]
//!                            the same, and why; answer yes TESTS, no id NUMBER WORD, no cell ID TESTS or refused NUMBER; hooked builds only
//!     write_tokens ROOM LIST answer ok BYTES TEXT, a text as two hex digits a byte, refused 11 FIRST or refused 12
//!     read_tokens ROOM [TEXT]
//!                            no TEXT for an empty one; answer ok COUNT ID..., refused 11 FIRST or refused 12
//!     trace KIND ...         the candidates that the run takes, COUNT COST:ID:PLACE..., in the build `total` COUNT COST:ID..., with the published
//!                            cost in either edition; hooked builds only
//!     steps KIND ...         what the program `steps` writes, its lines with a semicolon between them; builds with places only
//!     twofold KIND ...       whether start cells overlap, and how often a cell was queued while the same cell was, from another start cell;
//!                            builds with places only
//!     levels R COUNT         the level for each of COUNT floats from R upwards in their bits, as runs LEVEL:HOW-MANY...
//!     normalize LIST, denormalize MIN MOD LIST, normalize_covering MIN MAX MOD MAX_CELLS LIST
//!                            LIST COUNT ID..., at most 4,096 ids
//!     valid, is_unit, cell_contains_point, cap_contains_cell, cap_intersects_cell, common_ancestor_level, level,
//!     face_ij_orientation, cellid_from_point, vertices, edges, cell_cap_bound, sqrt, st_to_uv, uv_to_st, vertex_neighbors,
//!     bound REGION, starts MIN MAX MOD MAX_CELLS REGION, region_contains_cell REGION ID, region_intersects_cell REGION ID
//!     region_look REGION ID  what the cell is to the region, 0 outside, 1 crossing, 2 inside, and whether it is not outside; the same of
//!                            its children, as sets by place: those not outside, those inside, those not outside; 0 0 0 for a leaf
//!
//! The values are the Rust's. The papers' refusals 1 to 6, 10 to 12, 14 to 19, 25 and 26 are decided here, around it; 7, 8 and 9 by the hooks.
//! The Rust has no function for ranges: first and last leaf are its range_min and range_max, joined here; a pair's cells are
//! those of its max_tile, in the loop that stands in its comment. Of two lists it has union, intersection and difference; only the
//! first gives a normalised list whatever comes in, so its normalize goes over each answer here. Of a text of tokens only the lines
//! are told apart here: a line is well-formed if its from_token is valid and its to_token writes that as the same bytes.
//! Of a list to be checked the Rust's is_valid, level, range_min and range_max tell the rules, its contains what is under a listed id, and its
//! intersects_cell what the walk is to enter; the start cells are those that its coverer has for max_cells 8.
//! The Rust has no region that is a list: what such a region contains, what it intersects and what its bound is, paper 02 says,
//! and it is given to the Rust's coverer as a region of these tests and this bound. The tests ask every listed cell, by the
//! Rust's contains and intersects; in the build `quick` they are those of oracle/quick.rs.
//! Domains: ids are valid; floats are finite (but for cover's regions and sqrt); a point is_unit (but for is_unit itself);
//! a cap is in paper 01's domain, a radius at most 4; a list as a region is in paper 02's: valid, ascending, no cell inside
//! another, at most 4,096 ids; vertex_neighbors asks for a level above the id's own.
//! The builds `unmodified`, `quick` and `published` have the published order of the queue, whichever edition a request names.
//! Those with the unmodified region.rs have no steps, set-aside totals, raw lists and start cells: they write `-` for each of
//! these and never refuse with 7 to 10. They find the normalised outer list by normalising the covering, which has the
//! same leaves. Where a run asks too many tests, or fast covering might have too many cells, they answer `cut`.
//! `panic` answers a question at which the Rust panics.
//!
//! Bounds: a gigabyte of memory for the process, two minutes for a question; both end the program.

mod consts;
#[allow(dead_code)]
mod hooks;
mod quick;
mod r1;
mod r2;
mod r3;
mod s1;
mod s2;

use r3::vector::Vector;
use s1::ChordAngle;
use s2::cap::Cap;
use s2::cell::Cell;
use s2::cellid::CellID;
use s2::cellunion::CellUnion;
use s2::metric::MIN_WIDTHMETRIC;
use s2::point::Point;
use s2::region::{Region, RegionCoverer};
use std::cell::Cell as Counter;
use std::io::{BufRead, Write};
use std::panic::{AssertUnwindSafe, catch_unwind, panic_any};

const MEMORY: u64 = 1 << 30;
const SECONDS: u32 = 120;
/// The most intersection tests of one run: beyond the longest run that the refusals allow, and small for the build without.
const TESTS: u64 = if cfg!(hooked) { 100_000_000 } else { 300_000 };
// The programs' limits: bytes of a line, ids on it, digits of a decimal number, words of memory.
const LINE: usize = 262_144;
const IDS: u64 = 4_096;
const DIGITS: usize = 20;
const WORDS: u64 = 8_192;
/// Words of memory below which a request is refused.
const ENOUGH: u64 = 5_120;
const NUMBERS: u64 = 16_384;
const NAN: &str = "7ff8000000000000";

unsafe extern "C" {
    fn setrlimit(resource: i32, limit: *const [u64; 2]) -> i32;
    fn alarm(seconds: u32) -> u32;
}

/// A run that asks more than TESTS tests ends with this.
struct Cut;

thread_local! {
    static ASKED: Counter<u64> = const { Counter::new(0) };
}

/// A region: a cap or a cell, as in paper 01, or a list of cells, as in paper 02. The tests are counted, so that every run ends.
enum Asked {
    Cap(Cap),
    Cell(Cell),
    List(Vec<CellID>),
}

impl Region for Asked {
    fn cap_bound(&self) -> Cap {
        match self {
            Asked::Cap(cap) => cap.cap_bound(),
            Asked::Cell(cell) => cell.cap_bound(),
            Asked::List(_) => unreachable!(), // the coverer asks for cell_union_bound alone
        }
    }

    fn contains_cell(&self, cell: &Cell) -> bool {
        match self {
            Asked::Cap(cap) => cap.contains_cell(cell),
            Asked::Cell(own) => own.contains_cell(cell),
            Asked::List(ids) if cfg!(quick) => quick::contains(ids, &cell.id),
            Asked::List(ids) => ids.iter().any(|own| own.contains(&cell.id)),
        }
    }

    fn intersects_cell(&self, cell: &Cell) -> bool {
        let asked = ASKED.get() + 1;
        ASKED.set(asked);
        if asked > TESTS {
            panic_any(Cut);
        }
        match self {
            Asked::Cap(cap) => cap.intersects_cell(cell),
            Asked::Cell(own) => own.intersects_cell(cell),
            Asked::List(ids) if cfg!(quick) => quick::intersects(ids, &cell.id),
            Asked::List(ids) => ids.iter().any(|own| own.intersects(&cell.id)),
        }
    }

    fn cell_union_bound(&self) -> Vec<CellID> {
        match self {
            Asked::Cap(cap) => cap.cell_union_bound(),
            Asked::Cell(cell) => cell.cell_union_bound(),
            Asked::List(ids) => ids.clone(),
        }
    }
}

/// A region that is only a bound: fast covering of it is the crate's normalize_covering of the list.
struct Bound(Vec<CellID>);

impl Region for Bound {
    fn cap_bound(&self) -> Cap {
        unreachable!()
    }

    fn cell_union_bound(&self) -> Vec<CellID> {
        self.0.clone()
    }
}

type Word = &'static str;

/// Steps that may be taken, places of output, words of memory, whether ids are written as tokens, and the edition.
struct Options {
    allowance: u64,
    out: u64,
    memory: u64,
    tokens: bool,
    edition: u64,
}

/// The fields of a line, one after another.
struct Fields<'a>(std::iter::Peekable<std::vec::IntoIter<&'a str>>);

impl<'a> Fields<'a> {
    fn word(&mut self) -> Result<&'a str, Word> {
        self.0.next().ok_or("missing")
    }

    fn number(&mut self) -> Result<u64, Word> {
        decimal(self.word()?)
    }

    fn bits(&mut self) -> Result<u64, Word> {
        let word = self.word()?;
        if word.len() != 16 || !word.bytes().all(|b| b.is_ascii_digit() || (b'a'..=b'f').contains(&b)) {
            return Err("hex");
        }
        u64::from_str_radix(word, 16).map_err(|_| "hex")
    }

    fn any_float(&mut self) -> Result<f64, Word> {
        self.bits().map(f64::from_bits)
    }

    fn float(&mut self) -> Result<f64, Word> {
        self.any_float().and_then(|x| if x.is_finite() { Ok(x) } else { Err("finite") })
    }

    fn vector(&mut self) -> Result<Vector, Word> {
        Ok(Vector { x: self.float()?, y: self.float()?, z: self.float()? })
    }

    fn point(&mut self) -> Result<Point, Word> {
        self.vector().and_then(|v| if v.is_unit() { Ok(Point(v)) } else { Err("unit") })
    }

    fn radius(&mut self) -> Result<f64, Word> {
        self.float().and_then(|r| if r <= 4. { Ok(r) } else { Err("radius") })
    }

    fn cap(&mut self) -> Result<Cap, Word> {
        Ok(Cap { center: self.point()?, radius: ChordAngle(self.radius()?) })
    }

    fn id(&mut self) -> Result<CellID, Word> {
        self.bits().map(CellID).and_then(|id| if id.is_valid() { Ok(id) } else { Err("id") })
    }

    fn ids(&mut self) -> Result<Vec<CellID>, Word> {
        let count = self.number()?;
        if count > IDS {
            return Err("large");
        }
        (0..count).map(|_| self.id()).collect()
    }

    /// A list of any numbers.
    fn numbers(&mut self) -> Result<Vec<CellID>, Word> {
        let count = self.number()?;
        if count > NUMBERS {
            return Err("large");
        }
        (0..count).map(|_| self.bits().map(CellID)).collect()
    }

    /// A text to the end of the line, two hex digits a byte.
    fn text(&mut self) -> Result<Vec<u8>, Word> {
        let word = self.word().unwrap_or_default();
        let byte = |at| word.get(at..at + 2).and_then(|digits| u8::from_str_radix(digits, 16).ok()).ok_or("hex");
        (0..word.len()).step_by(2).map(byte).collect()
    }

    /// The options to the end of the line.
    fn options(&mut self) -> Result<Options, Word> {
        let (mut allowance, mut out, mut memory, mut tokens, mut edition, mut engine) = (None, None, None, None, None, None);
        while let Ok(word) = self.word() {
            let (name, value) = word.split_once('=').ok_or("option")?;
            let place = match name {
                "allow" => &mut allowance,
                "out" => &mut out,
                "mem" => &mut memory,
                "tokens" => &mut tokens,
                "edition" => &mut edition,
                "engine" => &mut engine,
                _ => return Err("option"),
            };
            let number = match name {
                "engine" if ["quick", "plain", "both"].contains(&value) => 0,
                "engine" => return Err("unknown-engine"),
                _ => decimal(value)?,
            };
            if place.replace(number).is_some() {
                return Err("twice");
            }
        }
        let (allowance, out, memory) = (allowance.unwrap_or(0xffffffff), out.unwrap_or(65_536), memory.unwrap_or(ENOUGH));
        let (tokens, edition) = (tokens.unwrap_or(0), edition.unwrap_or(1));
        if allowance > 0xffffffff || u128::from(out) > hooks::ROOM || memory > WORDS || tokens > 1 || edition > 0xffffffff {
            return Err("large");
        }
        Ok(Options { allowance, out, memory, tokens: tokens == 1, edition })
    }

    /// A region inside the domain, or None for one outside it.
    fn region(&mut self) -> Result<Option<Asked>, Word> {
        match self.word()? {
            "cap" => {
                let (x, y, z, r) = (self.any_float()?, self.any_float()?, self.any_float()?, self.any_float()?);
                let center = Vector { x, y, z };
                let finite = x.is_finite() && y.is_finite() && z.is_finite() && r.is_finite();
                let inside = finite && center.is_unit() && r <= 4.;
                Ok(inside.then_some(Asked::Cap(Cap { center: Point(center), radius: ChordAngle(r) })))
            }
            "cell" => {
                let id = CellID(self.bits()?);
                Ok(if id.is_valid() { Some(Asked::Cell(Cell::from(id))) } else { None })
            }
            "list" => {
                let ids = CellUnion(self.numbers()?);
                Ok(if taken(&ids) { Some(Asked::List(ids.0)) } else { None })
            }
            _ => Err("region"),
        }
    }

    fn end(&mut self) -> Result<(), Word> {
        if self.0.peek().is_some() { Err("more") } else { Ok(()) }
    }
}

/// Whether a list is taken as paper 02 says: valid, ascending, no cell inside another, and not too long.
fn taken(list: &CellUnion) -> bool {
    list.0.len() as u64 <= IDS && list.is_valid()
}

fn decimal(word: &str) -> Result<u64, Word> {
    if word.is_empty() || !word.bytes().all(|b| b.is_ascii_digit()) {
        return Err("number");
    }
    if word.len() > DIGITS {
        return Err("digits");
    }
    word.parse().map_err(|_| "large")
}

fn counted(ids: &[CellID], name: fn(&CellID) -> String) -> String {
    let mut text = ids.len().to_string();
    for id in ids {
        text.push(' ');
        text.push_str(&name(id));
    }
    text
}

fn digits(id: &CellID) -> String {
    format!("{:016x}", id.0)
}

fn list(ids: &[CellID]) -> String {
    counted(ids, digits)
}

/// An id as the options want it.
fn name(id: &CellID, options: &Options) -> String {
    if options.tokens { id.to_token() } else { digits(id) }
}

/// A list as the options want it.
fn answered(ids: &[CellID], options: &Options) -> String {
    if options.tokens { counted(ids, CellID::to_token) } else { list(ids) }
}

/// The bits of a float. Every NaN is written with paper 01's bits; the test is one of text, because the compiler takes one
/// NaN for another in a choice between two floats.
fn float(x: f64) -> String {
    let text = format!("{:016x}", x.to_bits());
    if x.is_nan() { String::from(NAN) } else { text }
}

fn points(points: &[Point]) -> String {
    let one = |p: &Point| format!("{} {} {}", float(p.0.x), float(p.0.y), float(p.0.z));
    points.iter().map(one).collect::<Vec<_>>().join(" ")
}

/// The level that cell_union_bound picks for a squared chord radius.
fn level(radius: f64) -> u64 {
    let center = Point(Vector { x: 1., y: 0., z: 0. });
    MIN_WIDTHMETRIC.max_level(Cap { center, radius: ChordAngle(radius) }.radius().rad())
}

fn truth(t: bool) -> String {
    String::from(if t { "1" } else { "0" })
}

/// The numbers of a request, as the line gives them.
struct Numbers {
    min: u64,
    max: u64,
    step: u64,
    cells: u64,
}

impl Numbers {
    fn read(fields: &mut Fields) -> Result<Numbers, Word> {
        Ok(Numbers { min: fields.number()?, max: fields.number()?, step: fields.number()?, cells: fields.number()? })
    }

    /// Paper 01's refusals 1 to 4, in this order; 0 for none.
    fn refusal(&self) -> u8 {
        if self.max > 30 {
            1
        } else if self.min > self.max {
            2
        } else if !(1..=3).contains(&self.step) {
            3
        } else if self.cells > 1_000 {
            4
        } else {
            0
        }
    }

    fn coverer(&self) -> RegionCoverer {
        RegionCoverer {
            min_level: self.min as u8,
            max_level: self.max as u8,
            level_mod: self.step as u8,
            max_cells: self.cells as usize,
        }
    }
}

#[derive(PartialEq)]
enum Kind {
    Covering,
    Cellunion,
    Raw,
    Interior,
    Icellunion,
    Iraw,
    Fast,
}

fn kind(word: &str) -> Option<Kind> {
    Some(match word {
        "covering" => Kind::Covering,
        "cellunion" => Kind::Cellunion,
        "raw" => Kind::Raw,
        "interior" => Kind::Interior,
        "icellunion" => Kind::Icellunion,
        "iraw" => Kind::Iraw,
        "fast" => Kind::Fast,
        _ => return None,
    })
}

#[cfg(hooked)]
fn outer(coverer: &RegionCoverer, region: &Asked) -> Vec<CellID> {
    // The hooks keep the raw list. A refused run's list is a part only and isn't used.
    coverer.cellunion(region).0
}

#[cfg(not(hooked))]
fn outer(coverer: &RegionCoverer, region: &Asked) -> Vec<CellID> {
    let mut union = coverer.covering(region);
    union.normalize();
    union.0
}

/// Whether the unmodified fast covering of a list might have more cells than the output has places.
fn may_be_long(bound: &[CellID], numbers: &Numbers) -> bool {
    let adjusted = |id: &CellID| id.parent(id.level().min(numbers.max).saturating_sub(numbers.step - 1));
    let bound: Vec<CellID> = bound.iter().map(adjusted).collect();
    !cfg!(hooked) && hooks::denormalized(&bound, numbers.min, numbers.step) > hooks::ROOM
}

/// What is told of a request: its answer, or something about its run.
#[derive(Clone, Copy, PartialEq)]
enum Told {
    Answer,
    Trace,
    Steps,
    Twofold,
}

fn told(word: &str) -> Told {
    match word {
        "trace" => Told::Trace,
        "steps" => Told::Steps,
        "twofold" => Told::Twofold,
        _ => Told::Answer,
    }
}

/// Steps and set-aside totals.
fn figures(run: &hooks::Run) -> String {
    if !cfg!(hooked) {
        return vec!["-"; 1 + hooks::PLACES].join(" ");
    }
    let totals: &[u64] = if cfg!(placed) { &run.aside } else { &[run.total] };
    let words: Vec<String> = [run.steps].iter().chain(totals).map(u64::to_string).collect();
    words.join(" ")
}

/// Whether two of the cells share a leaf.
fn overlap(cells: &[CellID]) -> bool {
    cells.iter().enumerate().any(|(at, one)| cells[..at].iter().any(|other| other.intersects(one)))
}

fn cover(kind: Kind, fields: &mut Fields, told: Told) -> Result<String, Word> {
    let numbers = Numbers::read(fields)?;
    let region = fields.region()?;
    let options = fields.options()?;
    let refused = |number: u8| Ok(format!("refused {number}"));
    if numbers.refusal() != 0 {
        return refused(numbers.refusal());
    }
    if !(1..=2).contains(&options.edition) {
        return refused(14);
    }
    let Some(region) = region else { return refused(5) };
    if options.memory < ENOUGH {
        return refused(6);
    }
    let coverer = numbers.coverer();
    if kind == Kind::Fast && told == Told::Steps {
        return Err("domain");
    }
    if kind == Kind::Fast && may_be_long(&region.cell_union_bound(), &numbers) {
        return Ok(String::from("cut"));
    }
    if (told == Told::Trace || kind == Kind::Raw || kind == Kind::Iraw) && !cfg!(hooked) || matches!(told, Told::Steps | Told::Twofold) && !cfg!(placed) {
        return Ok(String::from("-"));
    }
    hooks::begin(options.allowance, options.edition, told == Told::Steps);
    ASKED.set(0);
    let found = match kind {
        Kind::Covering => coverer.covering(&region).0,
        Kind::Cellunion | Kind::Raw => outer(&coverer, &region),
        Kind::Interior => coverer.interior_covering(&region).0,
        Kind::Icellunion | Kind::Iraw => coverer.interior_cellunion(&region).0,
        Kind::Fast => coverer.fast_covering(&region).0,
    };
    let run = hooks::end();
    match told {
        Told::Trace => return Ok([run.taken.len().to_string()].into_iter().chain(run.taken).collect::<Vec<_>>().join(" ")),
        Told::Twofold => return Ok(format!("{} {}", truth(overlap(&run.starts)), run.twins)),
        Told::Steps => {
            let done = format!("done {} {}", figures(&run), run.raw.len());
            let last = if run.refused != 0 { format!("refused {}", run.refused) } else { done };
            return Ok([run.stood, vec![last]].concat().join(";"));
        }
        Told::Answer => {}
    }
    if run.refused != 0 {
        return refused(run.refused);
    }
    let found = if kind == Kind::Raw || kind == Kind::Iraw { run.raw.clone() } else { found };
    if cfg!(hooked) && (run.long || found.len() as u64 > options.out) {
        return refused(10);
    }
    Ok(format!("ok {} {}", figures(&run), answered(&found, &options)))
}

/// A list as pairs of first and last leaf; None for one outside the rules.
fn ranges(ids: &[CellID]) -> Option<Vec<CellID>> {
    let mut pairs: Vec<CellID> = Vec::new();
    for id in ids {
        if !id.is_valid() || pairs.last().is_some_and(|last| id.range_min() <= *last) {
            return None;
        }
        match pairs.last_mut() {
            Some(last) if id.range_min().0 == last.0 + 2 => *last = id.range_max(),
            _ => pairs.extend([id.range_min(), id.range_max()]),
        }
    }
    Some(pairs)
}

/// The cells of pairs; None for words outside the rules.
fn cells(words: &[CellID]) -> Option<Vec<CellID>> {
    let mut tiles = Vec::new();
    let mut from = 1;
    for pair in words.chunks(2) {
        let [first, last] = *pair else { return None };
        let leaves = [first, last].iter().all(|id| id.is_valid() && id.is_leaf());
        if !leaves || first.0 < from || last < first {
            return None;
        }
        let limit = CellID(last.0 + 2);
        let mut id = first.max_tile(&limit);
        while id != limit {
            tiles.push(id);
            id = id.next().max_tile(&limit);
        }
        from = last.0 + 4;
    }
    Some(tiles)
}

/// The answer with this list, or this refusal where the output has too few places.
fn fitted(found: &[CellID], options: &Options, refusal: u8) -> String {
    if found.len() as u64 > options.out { format!("refused {refusal}") } else { format!("ok {}", answered(found, options)) }
}

fn listed(make: fn(&[CellID]) -> Option<Vec<CellID>>, fields: &mut Fields) -> Result<String, Word> {
    let words = fields.numbers()?;
    let options = fields.options()?;
    Ok(make(&words).map_or(String::from("refused 25"), |found| fitted(&found, &options, 26)))
}

/// What the crate makes of two lists, normalised. They are given to it as they stand: contains_cellid, which is for normalised lists,
/// doesn't see that four siblings hold their parent, but difference then looks at the parent's quarters, where it does.
fn joined(make: fn(&CellUnion, &CellUnion) -> CellUnion, fields: &mut Fields) -> Result<String, Word> {
    let (first, second) = (CellUnion(fields.numbers()?), CellUnion(fields.numbers()?));
    let options = fields.options()?;
    if !taken(&first) {
        return Ok(String::from("refused 15"));
    }
    if !taken(&second) {
        return Ok(String::from("refused 16"));
    }
    let mut found = make(&first, &second);
    found.normalize();
    Ok(fitted(&found.0, &options, 17))
}

/// The start cells of an outer run; hooked builds only.
fn starts(numbers: &Numbers, region: &Asked) -> Vec<CellID> {
    hooks::begin(0, 1, false);
    ASKED.set(0);
    numbers.coverer().covering(region);
    hooks::end().starts
}

/// The first id of a list to be checked that breaks a rule: its number from 1, and the rule.
fn broken(ids: &[CellID], numbers: &Numbers) -> Option<(usize, Word)> {
    let rule = |at: usize| {
        let id = ids[at];
        let mut levels = (numbers.min..=numbers.max).step_by(numbers.step as usize);
        if !id.is_valid() {
            Some("invalid")
        } else if at > 0 && id.range_min() <= ids[at - 1].range_max() {
            Some("order")
        } else if !levels.any(|level| level == id.level()) {
            Some("level")
        } else {
            None
        }
    };
    (0..ids.len()).find_map(|at| rule(at).map(|word| (at + 1, word)))
}

/// The walk of paper 02's request k over a list that breaks no rule.
struct Walk<'a> {
    region: &'a Asked,
    ids: &'a [CellID],
    max: u64,
    allowance: u64,
    tests: u64,
}

/// What ends a walk: a passing cell of max_level that is under no listed id, or a test that is due with the allowance used up.
enum End {
    Uncovered(CellID),
    Spent,
}

impl Walk<'_> {
    /// Looks at a cell and, where it is entered, at all below it that the walk comes to.
    fn look(&mut self, id: &CellID) -> Result<(), End> {
        if self.ids.iter().any(|own| own.contains(id)) {
            return Ok(());
        }
        if self.tests == self.allowance {
            return Err(End::Spent);
        }
        self.tests += 1;
        if !self.region.intersects_cell(&Cell::from(id)) {
            return Ok(());
        }
        if id.level() == self.max {
            return Err(End::Uncovered(*id));
        }
        id.children().iter().try_for_each(|child| self.look(child))
    }
}

fn explain(fields: &mut Fields) -> Result<String, Word> {
    let numbers = Numbers { min: fields.number()?, max: fields.number()?, step: fields.number()?, cells: 8 };
    let (region, ids, options) = (fields.region()?, fields.numbers()?, fields.options()?);
    let refused = |number: u8| Ok(format!("refused {number}"));
    if numbers.refusal() != 0 {
        return refused(numbers.refusal());
    }
    let Some(region) = region else { return refused(5) };
    if ids.len() as u64 > IDS {
        return refused(18);
    }
    if let Some((number, word)) = broken(&ids, &numbers) {
        return Ok(format!("no id {number} {word}"));
    }
    if !cfg!(hooked) {
        return Ok(String::from("-"));
    }
    let starts = starts(&numbers, &region);
    ASKED.set(0);
    let mut walk = Walk { region: &region, ids: &ids, max: numbers.max, allowance: options.allowance, tests: 0 };
    match starts.iter().try_for_each(|id| walk.look(id)) {
        Ok(()) => Ok(format!("yes {}", walk.tests)),
        Err(End::Uncovered(id)) => Ok(format!("no cell {} {}", name(&id, &options), walk.tests)),
        Err(End::Spent) => refused(19),
    }
}

/// The answer of `explain` without its reasons.
fn check(fields: &mut Fields) -> Result<String, Word> {
    let answer = explain(fields)?;
    Ok(if answer.starts_with("refused") { answer } else { answer.split(' ').take(1).collect() })
}

/// The text of a list's tokens, with room for so many bytes.
fn write_tokens(room: u64, ids: &[CellID]) -> String {
    if let Some(at) = ids.iter().position(|id| !id.is_valid()) {
        return format!("refused 11 {}", at + 1);
    }
    let text: String = ids.iter().map(|id| id.to_token() + "\n").collect();
    if text.len() as u64 > room {
        return String::from("refused 12");
    }
    let digits: String = text.bytes().map(|byte| format!("{byte:02x}")).collect();
    format!("ok {} {digits}", text.len()).trim_end().to_string()
}

/// The list of a text of tokens, with room for so many ids.
fn read_tokens(room: u64, text: &[u8]) -> String {
    let mut ids = Vec::new();
    for line in text.split_inclusive(|byte| *byte == b'\n') {
        let token = line.strip_suffix(b"\n").and_then(|token| std::str::from_utf8(token).ok());
        let id = token.map(CellID::from_token).filter(|id| id.is_valid() && Some(id.to_token().as_str()) == token);
        let Some(id) = id else { return format!("refused 11 {}", ids.len() + 1) };
        ids.push(id);
    }
    if ids.len() as u64 > room { String::from("refused 12") } else { format!("ok {}", list(&ids)) }
}

fn probe(question: &str, fields: &mut Fields) -> Result<String, Word> {
    Ok(match question {
        "ranges" => listed(ranges, fields)?,
        "cells" => listed(cells, fields)?,
        "union" => joined(CellUnion::union, fields)?,
        "common" => joined(CellUnion::intersection, fields)?,
        "difference" => joined(CellUnion::difference, fields)?,
        "check" => check(fields)?,
        "explain" => explain(fields)?,
        "write_tokens" => write_tokens(fields.number()?, &fields.numbers()?),
        "read_tokens" => read_tokens(fields.number()?, &fields.text()?),
        "valid" => truth(CellID(fields.bits()?).is_valid()),
        "is_unit" => truth(fields.vector()?.is_unit()),
        "cell_contains_point" => {
            let point = fields.point()?;
            truth(Cell::from(fields.id()?).contains_point(&point))
        }
        "cap_contains_cell" => {
            let cap = fields.cap()?;
            truth(cap.contains_cell(&Cell::from(fields.id()?)))
        }
        "cap_intersects_cell" => {
            let cap = fields.cap()?;
            truth(cap.intersects_cell(&Cell::from(fields.id()?)))
        }
        "common_ancestor_level" => {
            let (a, b) = (fields.id()?, fields.id()?);
            a.common_ancestor_level(&b).map_or(String::from("-1"), |level| level.to_string())
        }
        "level" => level(fields.radius()?).to_string(),
        "levels" => {
            let (first, count) = (fields.radius()?.to_bits(), fields.number()?);
            let last = first.saturating_add(count.saturating_sub(1));
            if count == 0 || count > 10_000_000 || !(f64::from_bits(last) <= 4.) {
                return Err("domain");
            }
            let mut runs: Vec<(u64, u64)> = Vec::new();
            for bits in first..=last {
                let found = level(f64::from_bits(bits));
                match runs.last_mut() {
                    Some((before, many)) if *before == found => *many += 1,
                    _ => runs.push((found, 1)),
                }
            }
            runs.iter().map(|(found, many)| format!("{found}:{many}")).collect::<Vec<_>>().join(" ")
        }
        "face_ij_orientation" => {
            let (f, i, j, o) = fields.id()?.face_ij_orientation();
            format!("{f} {i} {j} {o}")
        }
        "cellid_from_point" => format!("{:016x}", CellID::from(fields.point()?).0),
        "vertices" => points(&Cell::from(fields.id()?).vertices()),
        "edges" => {
            let cell = Cell::from(fields.id()?);
            points(&[cell.edge(0), cell.edge(1), cell.edge(2), cell.edge(3)])
        }
        "cell_cap_bound" => {
            let cap = Cell::from(fields.id()?).cap_bound();
            format!("{} {}", points(&[cap.center]), float(cap.radius.0))
        }
        "sqrt" => float(fields.any_float()?.sqrt()),
        "st_to_uv" => float(s2::stuv::st_to_uv(fields.float()?)),
        "uv_to_st" => float(s2::stuv::uv_to_st(fields.float()?)),
        "vertex_neighbors" => {
            let (id, level) = (fields.id()?, fields.number()?);
            if level >= id.level() {
                return Err("level");
            }
            list(&id.vertex_neighbors(level))
        }
        "region_contains_cell" => {
            let region = fields.region()?.ok_or("domain")?;
            truth(region.contains_cell(&Cell::from(fields.id()?)))
        }
        "region_intersects_cell" => {
            let region = fields.region()?.ok_or("domain")?;
            ASKED.set(0);
            truth(region.intersects_cell(&Cell::from(fields.id()?)))
        }
        "region_look" => {
            let region = fields.region()?.ok_or("domain")?;
            let id = fields.id()?;
            ASKED.set(0);
            let look = |id: CellID| {
                let cell = Cell::from(id);
                (region.intersects_cell(&cell) as u64, region.contains_cell(&cell) as u64)
            };
            let (own, (mut passing, mut inside)) = (look(id), (0, 0));
            if !id.is_leaf() {
                for (place, child) in id.children().iter().enumerate() {
                    let seen = look(*child);
                    passing |= seen.0 << place;
                    inside |= seen.1 << place;
                }
            }
            format!("{} {} {passing} {inside} {passing}", own.0 + own.1, own.0)
        }
        "bound" => list(&fields.region()?.ok_or("domain")?.cell_union_bound()),
        "normalize" => {
            let mut union = CellUnion(fields.ids()?);
            union.normalize();
            list(&union.0)
        }
        "denormalize" => {
            let (min, step) = (fields.number()?, fields.number()?);
            if min > 30 || !(1..=3).contains(&step) {
                return Err("domain");
            }
            let mut union = CellUnion(fields.ids()?);
            if hooks::denormalized(&union.0, min, step) > hooks::ROOM {
                return Err("room");
            }
            union.denormalize(min, step);
            list(&union.0)
        }
        "normalize_covering" => {
            let numbers = Numbers::read(fields)?;
            let bound = fields.ids()?;
            if numbers.refusal() != 0 {
                return Err("domain");
            }
            if may_be_long(&bound, &numbers) {
                return Ok(String::from("cut"));
            }
            hooks::begin(0, 1, false);
            let found = numbers.coverer().fast_covering(&Bound(bound)).0;
            if hooks::end().long {
                return Err("room");
            }
            list(&found)
        }
        "starts" => {
            let numbers = Numbers::read(fields)?;
            let region = fields.region()?;
            if numbers.refusal() != 0 {
                return Err("domain");
            }
            let region = region.ok_or("domain")?;
            if !cfg!(hooked) {
                return Ok(String::from("-"));
            }
            list(&starts(&numbers, &region))
        }
        _ => return Err("unknown"),
    })
}

fn question(fields: Vec<&str>) -> Result<String, Word> {
    let mut fields = Fields(fields.into_iter().peekable());
    let mut word = fields.word()?;
    let told = told(word);
    if told != Told::Answer {
        word = fields.word()?;
    }
    let answer = match kind(word) {
        Some(kind) => cover(kind, &mut fields, told)?,
        None if told != Told::Answer => return Err("kind"),
        None => probe(word, &mut fields)?,
    };
    fields.end()?;
    Ok(answer)
}

/// The answer to a line; None for one that is passed over.
fn answer(number: u64, line: &[u8]) -> Option<String> {
    let error = |word: Word| Some(format!("error {number} {word}"));
    if line.len() > LINE {
        return error("long");
    }
    let text = match std::str::from_utf8(line) {
        Ok(text) if text.is_ascii() && !text.contains('\0') => text,
        _ => return error("bytes"),
    };
    let fields: Vec<&str> = text.split([' ', '\t', '\r']).filter(|field| !field.is_empty()).collect();
    if fields.is_empty() || text.starts_with('#') {
        return None;
    }
    match catch_unwind(AssertUnwindSafe(|| question(fields))) {
        Ok(Ok(answer)) => Some(answer),
        Ok(Err(word)) => error(word),
        Err(cause) if cause.is::<Cut>() => Some(String::from("cut")),
        Err(_) => Some(String::from("panic")),
    }
}

fn main() {
    // RLIMIT_AS is 9 on Linux. The largest list that is ever built stays far below the bound.
    assert_eq!(unsafe { setrlimit(9, &[MEMORY, MEMORY]) }, 0, "no memory bound");
    let report = std::panic::take_hook();
    std::panic::set_hook(Box::new(move |info| {
        if !info.payload().is::<Cut>() {
            report(info)
        }
    }));
    let mut input = std::io::stdin().lock();
    let mut output = std::io::stdout().lock();
    let mut write = |answer: String| writeln!(output, "{answer}").and_then(|()| output.flush()).expect("standard output");
    let (mut number, mut answered, mut line) = (0, 0, Vec::new());
    while input.read_until(b'\n', &mut line).expect("standard input") > 0 {
        number += 1;
        unsafe { alarm(SECONDS) };
        let answer = answer(number, line.strip_suffix(b"\n").unwrap_or(&line));
        unsafe { alarm(0) };
        if let Some(answer) = answer {
            write(answer);
            answered += 1;
        }
        line.clear();
    }
    write(format!("end {answered}"));
}
