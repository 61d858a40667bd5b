//! Times a proved block, through C, against a plain array in Rust that does the same.

use std::{hint::black_box, time::Instant};

unsafe extern "C" {
    fn block_puts(row: *const u8, length: usize, rounds: u32) -> u32;
    fn block_gets(row: *const u8, length: usize, rounds: u32) -> u32;
    fn block_polls(row: *const u8, length: usize, rounds: u32) -> u32;
}

/// The two sides take turns this often; each keeps its fastest turn, the one least disturbed.
const TURNS: usize = 41;
const ROW: usize = 4096;
const ROUNDS: u32 = 64;

fn main() {
    let row = random_row();
    println!("| call | Rust array, ns a call | proved, ns a call | ratio |");
    println!("|---|---|---|---|");
    report("put", &row, puts, |r, n| unsafe { block_puts(r.as_ptr(), r.len(), n) });
    report("get", &row, gets, |r, n| unsafe { block_gets(r.as_ptr(), r.len(), n) });
    report("poll", &row, polls, |r, n| unsafe { block_polls(r.as_ptr(), r.len(), n) });
}

fn report(name: &str, row: &[u8], rust: fn(&[u8], u32) -> u32, proved: impl Fn(&[u8], u32) -> u32) {
    assert_eq!(rust(row, 3), proved(row, 3), "{name}: the two sides differ");
    let (mut a, mut b) = (f64::MAX, f64::MAX);
    for _ in 0..TURNS {
        a = a.min(turn(row, rust));
        b = b.min(turn(row, &proved));
    }
    println!("| {name} | {a:.2} | {b:.2} | {:.2} |", b / a);
}

fn turn(row: &[u8], call: impl Fn(&[u8], u32) -> u32) -> f64 {
    let start = Instant::now();
    black_box(call(black_box(row), black_box(ROUNDS)));
    start.elapsed().as_nanos() as f64 / (ROUNDS as usize * row.len()) as f64
}

fn random_row() -> Vec<u8> {
    let mut state = 0x1a2b_3c4d_5e6f_7081_u64;
    (0..ROW)
        .map(|_| {
            state = state.wrapping_mul(6_364_136_223_846_793_005).wrapping_add(1_442_695_040_888_963_407);
            (state >> 56) as u8
        })
        .collect()
}

#[derive(Clone, Copy)]
enum Kind {
    Start,
    Reset,
    Update,
    Setting,
    Common,
}

#[derive(Clone, Copy)]
struct Field {
    place: usize,
    mask: u32,
    kind: Kind,
    half: usize,
}

const fn field(place: usize, bits: u32, kind: Kind, half: usize) -> Field {
    Field { place, mask: (u32::MAX) >> (32 - bits), kind, half }
}

const FIELDS: [Field; 8] = [
    field(17, 9, Kind::Setting, 0),
    field(65, 1, Kind::Start, 0),
    field(63, 1, Kind::Reset, 0),
    field(0, 6, Kind::Setting, 0),
    field(134, 1, Kind::Start, 1),
    field(87, 32, Kind::Setting, 1),
    field(130, 1, Kind::Update, 1),
    field(148, 6, Kind::Common, 0),
];

#[derive(Clone, Copy, Default)]
struct Marks {
    busy: bool,
    stale: bool,
    link: bool,
    pending: bool,
    hung: bool,
    events: u8,
    late: u32,
    wait: u32,
}

struct Model {
    table: [u32; 160],
    marks: [Marks; 2],
    pace: (u32, u32, bool),
}

impl Model {
    fn new() -> Model {
        Model { table: [0; 160], marks: [Marks::default(); 2], pace: (3, 5, true) }
    }

    fn get(&self, f: Field) -> u32 {
        self.table[f.place]
    }

    fn put(&mut self, f: Field, value: u32) {
        let stored = value & f.mask;
        self.table[f.place] = stored;
        let m = &mut self.marks[f.half];
        match (f.kind, stored) {
            (Kind::Common, _) => {}
            (Kind::Setting, _) => m.pending = true,
            (Kind::Start, 1) => {
                let (late, wait, hung) = self.pace;
                *m = Marks { busy: true, stale: true, link: true, late, wait, hung, ..*m };
            }
            (Kind::Reset, 1) => m.busy = false,
            (Kind::Update, 1) => m.pending = false,
            _ => {}
        }
    }

    fn poll_tx(&mut self) -> bool {
        let m = &mut self.marks[0];
        match (m.busy, m.late, m.wait) {
            (false, _, _) => true,
            (true, 0, 0) => {
                m.busy = false;
                m.events |= if m.hung { 15 } else { 14 };
                true
            }
            (true, 0, _) => {
                m.wait -= 1;
                false
            }
            (true, _, _) => {
                m.late -= 1;
                true
            }
        }
    }
}

fn pick(byte: u8) -> Field {
    FIELDS[usize::from(byte % 8)]
}

fn fold(sum: u32, n: u32) -> u32 {
    sum.wrapping_mul(31).wrapping_add(n)
}

#[inline(never)]
fn puts(row: &[u8], rounds: u32) -> u32 {
    let mut block = Model::new();
    for _ in 0..rounds {
        for &byte in row {
            block.put(pick(byte), u32::from(byte) / 8);
        }
    }
    let fields = (0..8).fold(0, |sum, n| fold(sum, block.get(pick(n))));
    let marks = block.marks.iter().flat_map(|m| [m.busy, m.stale, m.link, m.pending]);
    marks.fold(fields, |sum, up| fold(sum, u32::from(up)))
}

#[inline(never)]
fn gets(row: &[u8], rounds: u32) -> u32 {
    let mut block = Model::new();
    for n in 0..8 {
        block.put(pick(n), u32::from(n) * 1_001);
    }
    let mut sum = 0;
    for _ in 0..rounds {
        for &byte in row {
            sum = fold(sum, block.get(pick(byte)));
        }
    }
    sum
}

#[inline(never)]
fn polls(row: &[u8], rounds: u32) -> u32 {
    let mut block = Model::new();
    let mut sum = 0;
    for _ in 0..rounds {
        for &byte in row {
            if byte < 16 {
                block.put(FIELDS[1], 1);
            }
            sum = fold(sum, u32::from(block.poll_tx()));
        }
    }
    sum
}
