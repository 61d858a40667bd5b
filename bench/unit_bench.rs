//! Times unit calls of the proved new chip, through C, against a plain model of them in Rust that makes the same puts, clears and polls
//! and gives the same answers.

use std::{hint::black_box, time::Instant};

unsafe extern "C" {
    fn unit_calls(order: *const u8, length: usize) -> u32;
}

/// The two sides take turns this often; each keeps its fastest turn, the one least disturbed.
const TURNS: usize = 5;
const LENGTHS: [usize; 3] = [100_000, 1_000_000, 10_000_000];

fn main() {
    let order = random_order();
    println!("| order | calls | Rust model, ns a call | proved, ns a call | ratio |");
    println!("|---|---|---|---|---|");
    for length in LENGTHS {
        report("mixed", &order[..length]);
    }
    // What a set-up costs stands apart: bytes below 5 pick one where the unit is at rest.
    let no_setups: Vec<u8> = order.iter().map(|byte| byte & 0xf0 | (byte % 16).max(5)).collect();
    report("no set-up", &no_setups);
    let setups: Vec<u8> = order.iter().map(|byte| byte & 0xf0 | byte % 5).collect();
    report("set-ups alone", &setups);
}

fn report(name: &str, order: &[u8]) {
    let proved = |order: &[u8]| unsafe { unit_calls(order.as_ptr(), order.len()) };
    assert_eq!(calls(order), proved(order), "the two sides differ");
    let (mut a, mut b) = (f64::MAX, f64::MAX);
    for _ in 0..TURNS {
        a = a.min(turn(order, calls));
        b = b.min(turn(order, proved));
    }
    println!("| {name} | {} | {a:.1} | {b:.1} | {:.2} |", order.len(), b / a);
}

fn turn(order: &[u8], call: impl Fn(&[u8]) -> u32) -> f64 {
    let start = Instant::now();
    black_box(call(black_box(order)));
    start.elapsed().as_nanos() as f64 / order.len() as f64
}

fn random_order() -> Vec<u8> {
    let mut state = 0x1a2b_3c4d_5e6f_7081_u64;
    (0..LENGTHS[LENGTHS.len() - 1])
        .map(|_| {
            state = state.wrapping_mul(6_364_136_223_846_793_005).wrapping_add(1_442_695_040_888_963_407);
            (state >> 56) as u8
        })
        .collect()
}

// The block: a table of fields, and the marks of both halves.

const TX: usize = 0;
const RX: usize = 1;

#[derive(Clone, Copy)]
enum Kind {
    Start,
    Reset,
    FifoReset,
    Update,
    Setting,
}

#[derive(Clone, Copy)]
struct Field {
    place: usize,
    mask: u32,
    kind: Kind,
    half: usize,
}

const fn field(place: usize, bits: u32, kind: Kind, half: usize) -> Field {
    Field { place, mask: u32::MAX >> (32 - bits), kind, half }
}

const TX_SLAVE: Field = field(61, 1, Kind::Setting, TX);
const TX_UPDATE: Field = field(62, 1, Kind::Update, TX);
const TX_RESET: Field = field(63, 1, Kind::Reset, TX);
const TX_FIFO_RESET: Field = field(64, 1, Kind::FifoReset, TX);
const TX_START: Field = field(65, 1, Kind::Start, TX);
const RX_SLAVE: Field = field(129, 1, Kind::Setting, RX);
const RX_UPDATE: Field = field(130, 1, Kind::Update, RX);
const RX_RESET: Field = field(131, 1, Kind::Reset, RX);
const RX_FIFO_RESET: Field = field(132, 1, Kind::FifoReset, RX);
const RX_EOF_NUM: Field = field(133, 12, Kind::Setting, RX);
const RX_START: Field = field(134, 1, Kind::Start, RX);

// The fields of a set-up of either half, which stand in the order in which they are put: their widths.
const TX_WIDTHS: [u32; 44] = [
    9, 9, 1, 9, 1, 1, 2, 8, 6, 1, 7, 5, 5, 6, 1, 1, 1, 1, 1, 1, 1, 1, 1, 1, 3, 4, 1, 1, 1, 1, 1, 1, 1, 1, 1, 1, 1, 1, 1, 1, 1, 1, 1, 32,
];
const RX_WIDTHS: [u32; 40] = [
    9, 9, 1, 9, 1, 2, 8, 1, 6, 1, 7, 5, 5, 6, 1, 1, 2, 1, 1, 1, 1, 1, 1, 4, 1, 1, 1, 1, 1, 1, 1, 1, 1, 1, 1, 1, 1, 1, 1, 1,
];

const fn row<const N: usize>(first: usize, widths: [u32; N], half: usize) -> [Field; N] {
    let mut row = [field(0, 1, Kind::Setting, half); N];
    let mut n = 0;
    while n < N {
        row[n] = field(first + n, widths[n], Kind::Setting, half);
        n += 1;
    }
    row
}

const TX_SETTINGS: [Field; 44] = row(17, TX_WIDTHS, TX);
const RX_SETTINGS: [Field; 40] = row(89, RX_WIDTHS, RX);

// Events are bits: hung, done, link_done, eof.
const HUNG: u8 = 1;
const DONE: u8 = 2;
const END: u8 = 14;

#[derive(Clone, Copy, Default)]
struct Marks {
    busy: bool,
    stale: bool,
    link: bool,
    pending: bool,
    hung: bool,
    events: u8,
    enabled: u8,
    late: u32,
    wait: u32,
}

struct Block {
    table: [u32; 160],
    marks: [Marks; 2],
    pace: [(u32, u32, bool); 2],
}

impl Block {
    fn get(&self, place: usize) -> u32 {
        self.table[place]
    }

    fn put(&mut self, f: Field, value: u32) {
        let stored = value & f.mask;
        self.table[f.place] = stored;
        let m = &mut self.marks[f.half];
        match (f.kind, stored) {
            (Kind::Setting, _) => m.pending = true,
            (Kind::Start, 1) => {
                let (late, wait, hung) = self.pace[f.half];
                *m = Marks { busy: true, stale: true, link: true, late, wait, hung, ..*m };
            }
            (Kind::Reset, 1) => m.busy = false,
            (Kind::FifoReset, 1) => m.stale = false,
            (Kind::Update, 1) => m.pending = false,
            _ => {}
        }
    }

    fn clear(&mut self, half: usize, events: u8) {
        self.marks[half].events &= !events;
    }

    fn enable(&mut self, half: usize, events: u8, on: bool) {
        let m = &mut self.marks[half];
        m.enabled = if on { m.enabled | events } else { m.enabled & !events };
    }

    fn end(&mut self, half: usize) {
        let m = &mut self.marks[half];
        m.busy = false;
        m.events |= END | if m.hung { HUNG } else { 0 };
    }

    // Whether the transmit half is found idle.
    fn poll_tx(&mut self) -> bool {
        let m = &mut self.marks[TX];
        match (m.busy, m.late, m.wait) {
            (false, _, _) => true,
            (true, 0, 0) => {
                self.end(TX);
                true
            }
            (true, 0, _) => {
                m.wait -= 1;
                false
            }
            (true, _, _) => {
                m.late -= 1;
                true
            }
        }
    }

    // The events of the receive half that stand then.
    fn poll_rx(&mut self) -> u8 {
        let m = &mut self.marks[RX];
        match (m.busy, m.wait) {
            (false, _) => {}
            (true, 0) => self.end(RX),
            (true, _) => m.wait -= 1,
        }
        self.marks[RX].events
    }
}

// Set-ups, their check and the numbers that they store.

#[derive(Clone, Copy)]
enum Width {
    HalfFrame,
    Bit,
    Bits(u32),
}

#[derive(Clone, Copy)]
struct Setup {
    rate: u32,
    count: u32,
    mask: u16,
    fill: Option<u32>,
    data_bits: u32,
    channel_bits: u32,
    width: Width,
    active_high: bool,
    msb_shift: bool,
    big_endian: bool,
    lsb_first: bool,
}

const STEREO_48: Setup = Setup {
    rate: 48_000,
    count: 2,
    mask: 3,
    fill: None,
    data_bits: 16,
    channel_bits: 16,
    width: Width::HalfFrame,
    active_high: false,
    msb_shift: true,
    big_endian: false,
    lsb_first: false,
};

const MAX: u64 = 511;

#[derive(Clone, Copy)]
struct Dividers {
    mclk: u32,
    bclk: u32,
    denominator: u32,
    numerator: u32,
}

#[derive(Clone, Copy)]
struct Numbers {
    x: u32,
    y: u32,
    yn1: bool,
    z: u32,
    mclk: u32,
    bclk: u32,
    width: u32,
    half_frame: u32,
    setup: Setup,
}

fn dividers(rate: u32, count: u32, data_bits: u32) -> Result<Dividers, u32> {
    let mclk = u64::from(rate) * if data_bits == 24 { 192 } else { 256 };
    let bclk = u64::from(rate) * u64::from(count) * u64::from(data_bits);
    if mclk == 0 || bclk == 0 || mclk > u64::from(u32::MAX) || bclk > u64::from(u32::MAX) {
        return Err(4);
    }
    let whole = 160_000_000 / mclk as u32;
    let rest = 160_000_000 % mclk as u32;
    let bclk = mclk as u32 / bclk as u32;
    let decimal = u64::from(rest) * 10_000 / mclk;
    if decimal > 9_920 {
        return Ok(Dividers { mclk: whole + 1, bclk, denominator: 0, numerator: 0 });
    }
    if rest == 0 {
        return Ok(Dividers { mclk: whole, bclk, denominator: 0, numerator: 0 });
    }
    let (mut least, mut best) = (u64::MAX, (0, 0));
    for a in 2..=MAX {
        let n = (a * decimal + 5_000) / 10_000;
        let miss = (u64::from(rest) * a).abs_diff(mclk * n);
        if miss < least {
            (least, best) = (miss, (a as u32, n as u32));
        }
        if miss == 0 {
            break;
        }
    }
    Ok(Dividers { mclk: whole, bclk, denominator: best.0, numerator: best.1 })
}

fn check(setup: &Setup) -> Result<Numbers, u32> {
    if setup.mask == 0 || setup.count > 16 {
        return Err(1);
    }
    let frame = setup.count * setup.data_bits;
    let width = match setup.width {
        Width::HalfFrame => frame / 2,
        Width::Bit => 1,
        Width::Bits(bits) => bits,
    };
    if width == 0 || width > 128 || width > frame {
        return Err(2);
    }
    if frame > 128 {
        return Err(3);
    }
    let d = dividers(setup.rate, setup.count, setup.data_bits)?;
    let (a, n) = (d.denominator, d.numerator);
    if d.mclk < 1 || d.mclk > 255 || (a > 0 && n >= a) {
        return Err(5);
    }
    let (z, yn1) = if 2 * n > a { (a - n, true) } else { (n, n == 0) };
    let (x, y) = if z == 0 { (0, 0) } else { (a / z - 1, a % z) };
    Ok(Numbers { x, y, yn1, z, mclk: d.mclk, bclk: d.bclk, width, half_frame: frame / 2, setup: *setup })
}

// The driver: what it puts, clears and polls.

fn put_all<const N: usize>(block: &mut Block, fields: &[Field; N], numbers: [u32; N]) {
    for (field, number) in fields.iter().zip(numbers) {
        block.put(*field, number);
    }
}

fn configure_tx(block: &mut Block, n: &Numbers) {
    let s = &n.setup;
    let slot = |channel: u32| u32::from(s.mask >> channel & 1);
    #[rustfmt::skip]
    let numbers = [
        n.x, n.y, u32::from(n.yn1), n.z, 1, 1, 2, n.mclk, n.bclk - 1,
        u32::from(s.msb_shift), n.width - 1, s.data_bits - 1, s.channel_bits - 1, n.half_frame - 1, 0, 1, 1,
        u32::from(s.fill.is_none()), 1, 0, 1, u32::from(s.big_endian), u32::from(s.lsb_first), u32::from(s.active_high), 0, s.count - 1,
        slot(0), slot(1), slot(2), slot(3), slot(4), slot(5), slot(6), slot(7),
        slot(8), slot(9), slot(10), slot(11), slot(12), slot(13), slot(14), slot(15),
        0, s.fill.unwrap_or(0),
    ];
    put_all(block, &TX_SETTINGS, numbers);
}

fn configure_rx(block: &mut Block, n: &Numbers) {
    let s = &n.setup;
    let slot = |channel: u32| u32::from(s.mask >> channel & 1);
    #[rustfmt::skip]
    let numbers = [
        n.x, n.y, u32::from(n.yn1), n.z, 1, 2, n.mclk, 1, n.bclk - 1,
        u32::from(s.msb_shift), n.width - 1, s.data_bits - 1, s.channel_bits - 1, n.half_frame - 1, 0, 1, 2,
        1, 0, 1, u32::from(s.big_endian), u32::from(s.lsb_first), u32::from(s.active_high), s.count - 1,
        slot(0), slot(1), slot(2), slot(3), slot(4), slot(5), slot(6), slot(7),
        slot(8), slot(9), slot(10), slot(11), slot(12), slot(13), slot(14), slot(15),
    ];
    put_all(block, &RX_SETTINGS, numbers);
}

fn reset_tx(block: &mut Block) {
    block.put(TX_RESET, 1);
    block.put(TX_FIFO_RESET, 1);
    block.put(TX_RESET, 0);
    block.put(TX_FIFO_RESET, 0);
    block.clear(TX, HUNG | DONE);
}

fn reset_rx(block: &mut Block) {
    block.put(RX_START, 0);
    block.put(RX_RESET, 1);
    block.put(RX_FIFO_RESET, 1);
    block.put(RX_RESET, 0);
    block.put(RX_FIFO_RESET, 0);
    block.clear(RX, HUNG | DONE);
}

// The units, and their calls by value.

#[allow(dead_code)]
#[derive(Clone, Copy)]
enum Call {
    ApplyConfig(Setup),
    Start(usize, u16),
    Wait(u16),
    Stop,
    Listen(u8),
    Unlisten(u8),
    Clear(u8),
}

enum Answer {
    Done,
    NotTaken,
    Polled(u32),
    Refused(u32),
    TimedOut(u32),
}

struct Unit {
    running: bool,
    limit: u16,
}

// The half's own events among rx_hung, tx_hung, rx_done and tx_done.
fn own(half: usize, interrupts: u8) -> u8 {
    let bits = if half == RX { interrupts } else { interrupts >> 1 };
    bits & 1 | bits >> 1 & 2
}

fn start(block: &mut Block, half: usize, limit: u16, len: usize) -> Result<u32, u32> {
    if half == TX {
        if len == 0 || len > 65_535 {
            return Err(6);
        }
        reset_tx(block);
        if len > usize::from(limit) {
            return Err(7);
        }
        block.put(TX_START, 1);
    } else {
        if len == 0 || len > 4_096 || len % 4 != 0 {
            return Err(6);
        }
        reset_rx(block);
        if len > usize::from(limit) {
            return Err(7);
        }
        block.put(RX_EOF_NUM, len as u32 - 1);
        block.put(RX_START, 1);
    }
    Ok(0)
}

fn wait(block: &mut Block, half: usize, allowance: u16) -> Option<u32> {
    for made in 1..=u32::from(allowance) {
        if half == TX {
            if block.poll_tx() {
                block.put(TX_START, 0);
                return Some(made);
            }
        } else if block.poll_rx() & DONE != 0 {
            block.clear(RX, DONE);
            return Some(made);
        }
    }
    None
}

fn call(block: &mut Block, unit: &mut Unit, half: usize, call: &Call) -> Answer {
    match (call, unit.running) {
        (Call::ApplyConfig(setup), false) => match check(setup) {
            Ok(numbers) => {
                if half == TX {
                    configure_tx(block, &numbers);
                } else {
                    configure_rx(block, &numbers);
                }
                Answer::Done
            }
            Err(number) => Answer::Refused(number),
        },
        // No start of the new chip polls, so none looks at its allowance.
        (Call::Start(len, _allowance), false) => match start(block, half, unit.limit, *len) {
            Ok(polls) => {
                unit.running = true;
                Answer::Polled(polls)
            }
            Err(number) => Answer::Refused(number),
        },
        (Call::Wait(allowance), true) => match wait(block, half, *allowance) {
            Some(polls) => {
                unit.running = false;
                Answer::Polled(polls)
            }
            None => Answer::TimedOut(u32::from(*allowance)),
        },
        (Call::Stop, true) => {
            unit.running = false;
            if half == TX {
                block.put(TX_START, 0);
            } else {
                reset_rx(block);
            }
            Answer::Done
        }
        (Call::Listen(interrupts), _) => {
            block.enable(half, own(half, *interrupts), true);
            Answer::Done
        }
        (Call::Unlisten(interrupts), _) => {
            block.enable(half, own(half, *interrupts), false);
            Answer::Done
        }
        (Call::Clear(interrupts), _) => {
            block.clear(half, own(half, *interrupts));
            Answer::Done
        }
        _ => Answer::NotTaken,
    }
}

// The order of calls, and the sum over what they answer and leave.

const LIMIT: u16 = 2_048;

#[rustfmt::skip]
const RESTING: [Call; 16] = [
    Call::ApplyConfig(STEREO_48),
    Call::ApplyConfig(Setup { rate: 8_000, width: Width::Bit, active_high: true, ..STEREO_48 }),
    Call::ApplyConfig(Setup { rate: 2_000, ..STEREO_48 }),
    Call::ApplyConfig(Setup { count: 9, ..STEREO_48 }),
    Call::ApplyConfig(Setup {
        rate: 32_000, count: 4, mask: 5, fill: Some(7), data_bits: 32, channel_bits: 24, width: Width::Bits(31), ..STEREO_48
    }),
    Call::Start(64, 0),
    Call::Start(128, 3),
    Call::Start(2_048, 9),
    Call::Start(2_052, 9),
    Call::Start(0, 9),
    Call::Start(1_024, 65_535),
    Call::Listen(15),
    Call::Listen(8),
    Call::Unlisten(2),
    Call::Clear(15),
    Call::Clear(1),
];

const RUNNING: [Call; 16] = [
    Call::Wait(0),
    Call::Wait(1),
    Call::Wait(2),
    Call::Wait(3),
    Call::Wait(9),
    Call::Wait(9),
    Call::Wait(65_535),
    Call::Stop,
    Call::Listen(3),
    Call::Listen(12),
    Call::Listen(0),
    Call::Unlisten(1),
    Call::Unlisten(8),
    Call::Clear(4),
    Call::Clear(6),
    Call::Clear(9),
];

#[rustfmt::skip]
const PLACES: [usize; 20] = [17, 18, 19, 20, 24, 25, 27, 42, 60, 65, 89, 90, 91, 92, 95, 97, 99, 112, 133, 134];

fn fold(sum: u32, n: u32) -> u32 {
    sum.wrapping_mul(31).wrapping_add(n)
}

fn number(half: usize, answer: Answer) -> u32 {
    let said = match answer {
        Answer::Done => 10,
        Answer::NotTaken => 11,
        Answer::Polled(polls) => polls + 20,
        Answer::TimedOut(polls) => polls + 1_000_000,
        Answer::Refused(number) => number,
    };
    2 * said + half as u32
}

fn fold_block(sum: u32, block: &Block) -> u32 {
    let mut sum = PLACES.iter().fold(sum, |sum, place| fold(sum, block.get(*place)));
    for m in &block.marks {
        for up in [m.busy, m.stale, m.link, m.pending, m.hung] {
            sum = fold(sum, u32::from(up));
        }
        for events in [m.events, m.enabled] {
            sum = (0..4).fold(sum, |sum, n| fold(sum, u32::from(events >> n & 1)));
        }
        sum = fold(fold(sum, m.late), m.wait);
    }
    sum
}

#[inline(never)]
fn calls(order: &[u8]) -> u32 {
    let mut block = Block { table: [0; 160], marks: [Marks::default(); 2], pace: [(0, 6, true), (1, 4, false)] };
    let philips = check(&Setup { rate: 44_100, ..STEREO_48 }).unwrap();
    block.put(TX_SLAVE, 0);
    block.put(RX_SLAVE, 0);
    configure_tx(&mut block, &philips);
    configure_rx(&mut block, &philips);
    for update in [TX_UPDATE, RX_UPDATE] {
        block.put(update, 0);
        block.put(update, 1);
    }
    let mut units = [Unit { running: false, limit: LIMIT }, Unit { running: false, limit: LIMIT }];
    let mut sum = 0;
    for byte in order {
        let half = usize::from(byte / 16 % 2);
        let unit = &mut units[half];
        let row = if unit.running { &RUNNING } else { &RESTING };
        let answer = call(&mut block, unit, half, &row[usize::from(byte % 16)]);
        sum = fold(sum, number(half, answer));
    }
    fold_block(sum, &block)
}
