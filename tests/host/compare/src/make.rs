//! Makes states and frames, whole and damaged.
use crate::rules::{column_field, State, Value};

pub struct Random(pub u64);

impl Random {
    pub fn next(&mut self) -> u64 {
        self.0 = self.0.wrapping_add(0x9E37_79B9_7F4A_7C15);
        mix(self.0)
    }
    /// From 0 to n - 1.
    pub fn below(&mut self, n: usize) -> usize {
        ((u128::from(self.next()) * n as u128) >> 64) as usize
    }
    pub fn range(&mut self, low: usize, high: usize) -> usize {
        low + self.below(high - low + 1)
    }
    pub fn one_in(&mut self, n: usize) -> bool {
        self.below(n) == 0
    }
    pub fn pick<T: Copy>(&mut self, from: &[T]) -> T {
        from[self.below(from.len())]
    }
    pub fn byte(&mut self) -> u8 {
        (self.next() >> 56) as u8
    }
    pub fn bytes(&mut self, n: usize) -> Vec<u8> {
        let mut bytes = Vec::with_capacity(n + 8);
        while bytes.len() < n {
            bytes.extend(self.next().to_le_bytes());
        }
        bytes.truncate(n);
        bytes
    }
}

fn mix(mut z: u64) -> u64 {
    z = (z ^ (z >> 30)).wrapping_mul(0xBF58_476D_1CE4_E5B9);
    z = (z ^ (z >> 27)).wrapping_mul(0x94D0_49BB_1331_11EB);
    z ^ (z >> 31)
}

/// Bytes handed to a call. Others stand before and behind them, so that a read past an end would show.
pub struct Lent {
    pub all: Vec<u8>,
    pub start: usize,
    pub len: usize,
}

impl Lent {
    pub fn bytes(&self) -> &[u8] {
        &self.all[self.start..self.start + self.len]
    }

    /// Lends the first `len` bytes; the rest stay in place behind them.
    fn new(r: &mut Random, bytes: &[u8], len: usize) -> Lent {
        let start = r.below(8);
        let mut all = r.bytes(start);
        all.extend(bytes);
        all.extend(r.bytes(8));
        Lent { all, start, len }
    }

    pub fn whole(r: &mut Random, bytes: &[u8]) -> Lent {
        Lent::new(r, bytes, bytes.len())
    }
}

/// The value of a dot in one history.
fn value(history: u64, column: u8, counter: u32) -> Value {
    let a = mix(history ^ (u64::from(column) << 32) ^ u64::from(counter));
    let mut value = [0; 16];
    value[..8].copy_from_slice(&a.to_be_bytes());
    value[8..].copy_from_slice(&mix(a).to_be_bytes());
    value
}

fn top(r: &mut Random) -> u32 {
    (match r.below(4) {
        0 | 1 => r.range(1, 7),
        2 => r.range(999_990, 999_999),
        _ => r.range(1, 999_999),
    }) as u32
}

fn set(r: &mut Random, state: &mut State, column: u8, top: u32, count: u32, history: u64) {
    state.known.insert(column, top);
    for counter in (1..=top).rev().take(count as usize) {
        // Now and then the bytes are not those of the history, so that two sides differ in a dot.
        let history = if r.one_in(6) { r.next() } else { history };
        state.held.insert((column, counter), value(history, column, counter));
    }
}

fn count(r: &mut Random, top: u32) -> u32 {
    r.below(top.min(4) as usize + 1) as u32
}

pub fn state(r: &mut Random, history: u64) -> State {
    let mut state = State { key: r.below(16) as u8, ..State::default() };
    let dense = r.pick(&[0, 1, 2, 4, 8, 12, 16, 23, 24]);
    let full = r.one_in(12);
    for column in 0..24 {
        if r.below(24) < dense {
            let top = top(r);
            let count = if full { top.min(4) } else { count(r, top) };
            set(r, &mut state, column, top, count, history);
        }
    }
    state
}

/// Another state of the same history: tops near those of `of`.
pub fn relative(r: &mut Random, of: &State, history: u64) -> State {
    let mut state = State { key: of.key, ..State::default() };
    if r.one_in(12) {
        state.key = r.below(16) as u8;
    }
    let fresh = r.one_in(2);
    for column in 0..24 {
        let near = of.top(column);
        let new = if near == 0 {
            if !fresh || !r.one_in(3) {
                continue;
            }
            top(r)
        } else {
            match r.below(8) {
                0 => continue,
                1 | 2 => near,
                3 => top(r),
                _ => (near + r.below(6) as u32).min(999_999).saturating_sub(r.below(6) as u32).max(1),
            }
        };
        let count = count(r, new);
        set(r, &mut state, column, new, count, history);
    }
    state
}

pub fn frame(r: &mut Random, state: &State, damaged: bool) -> Lent {
    if damaged {
        damage(r, state)
    } else {
        Lent::whole(r, &state.write())
    }
}

const TOPS: [u32; 12] = [0, 1, 2, 3, 4, 5, 999_998, 999_999, 1_000_000, 0x0100_0000, 0x8000_0000, u32::MAX];

fn damage(r: &mut Random, state: &State) -> Lent {
    let mut fields = state.fields();
    let any = r.below(fields.len());
    // A column field, where there is one.
    let col = if fields.len() > 1 { r.range(1, fields.len() - 1) } else { 0 };
    match r.below(20) {
        // Bits, then bytes, anywhere.
        0 => {
            let mut bytes = fields.concat();
            for _ in 0..r.range(1, 3) {
                let at = r.below(bytes.len());
                bytes[at] ^= 1 << r.below(8);
            }
            return Lent::whole(r, &bytes);
        }
        1 => {
            let mut bytes = fields.concat();
            for _ in 0..r.range(1, 3) {
                let at = r.below(bytes.len());
                bytes[at] = r.byte();
            }
            return Lent::whole(r, &bytes);
        }
        // Cut short anywhere, or near the start of a field.
        2 => {
            let bytes = fields.concat();
            let len = r.below(bytes.len() + 1);
            return Lent::new(r, &bytes, len);
        }
        3 => {
            let bytes = fields.concat();
            let start: usize = fields[..any].iter().map(Vec::len).sum();
            let len = (start + r.below(14)).min(bytes.len());
            return Lent::new(r, &bytes, len);
        }
        // Longer.
        4 => {
            let n = r.range(1, 40);
            let more = if r.one_in(2) { r.bytes(n) } else { vec![r.pick(&[0, 1, 2, 255]); n] };
            fields.push(more);
        }
        // Another length, over the same body.
        5 | 6 => {
            let old = i32::from(fields[any][1]) * 256 + i32::from(fields[any][2]);
            let new = match r.below(6) {
                0 => old + r.pick(&[-1, 1]),
                1 => old + r.pick(&[-16, 16]),
                2 => r.range(0, 8) as i32,
                3 => r.range(0, 110) as i32,
                4 => old + r.range(1, 3) as i32 * 256,
                _ => r.range(0, 65535) as i32,
            };
            fields[any][1..3].copy_from_slice(&(new.clamp(0, 65535) as u16).to_be_bytes());
        }
        // Columns swapped, twice there, or left out.
        7 if col > 0 => {
            let other = r.range(1, fields.len() - 1);
            fields.swap(col, other);
        }
        8 => {
            let again = fields[any].clone();
            let at = r.range(any, fields.len());
            fields.insert(at, again);
        }
        9 => {
            fields.remove(any);
        }
        10 => {
            let tag = r.byte();
            fields[any][0] = r.pick(&[0, 1, 2, 3, 4, 16, 255, tag]);
        }
        // A column, a count or a top at an edge.
        11 if col > 0 => fields[col][3] = r.pick(&[0, 22, 23, 24, 25, 128, 255]),
        12 if col > 0 => fields[col][4] = r.pick(&[0, 1, 2, 3, 4, 5, 6, 255]),
        13 if col > 0 => fields[col][5..9].copy_from_slice(&r.pick(&TOPS).to_be_bytes()),
        // A new column field with any count, any list and any top near the edges.
        14 => {
            let values = r.below(7);
            let count = if r.one_in(3) { r.below(7) } else { values };
            let list = 16 * values + if r.one_in(5) { r.below(16) } else { 0 };
            let list = r.bytes(list);
            let top = if r.one_in(2) { r.pick(&TOPS) } else { top(r) };
            let new = column_field(r.below(26) as u8, count as u8, top, &list);
            let at = r.range(1, fields.len());
            fields.insert(at, new);
        }
        // A body longer or shorter, with the length to fit.
        15 => {
            let body = (fields[any].len() - 3 + r.below(18)).saturating_sub(r.below(18));
            let more = r.bytes(18);
            fields[any].extend(more);
            fields[any].truncate(3 + body);
            fields[any][1..3].copy_from_slice(&(body as u16).to_be_bytes());
        }
        // Another key.
        16 => fields[0][3] = r.pick(&[0, 14, 15, 16, 17, 128, 255]),
        // Garbage.
        17 => {
            let n = r.below(81);
            let bytes = r.bytes(n);
            return Lent::whole(r, &bytes);
        }
        // Garbage of small bytes.
        18 => {
            let n = r.below(81);
            let bytes: Vec<u8> = (0..n).map(|_| r.pick(&[0, 0, 0, 1, 1, 2, 2, 3, 6, 22])).collect();
            return Lent::whole(r, &bytes);
        }
        // Several thousand bytes, seldom more than a length can tell.
        _ => {
            let n = if r.one_in(200) { r.range(65_500, 70_000) } else { r.range(1_700, 6_000) };
            match r.below(5) {
                0 => {
                    let more = r.bytes(n);
                    fields.push(more);
                }
                1 => fields = vec![r.bytes(n)],
                2 => fields.push(vec![0; n]),
                // The same columns over and over.
                3 => {
                    let all = fields[1..].to_vec();
                    while !all.is_empty() && fields.len() < n / 30 {
                        fields.extend_from_slice(&all);
                    }
                }
                // A long body that is there.
                _ => {
                    let body = n.min(65_535);
                    let more = r.bytes(body);
                    fields[any].extend(more);
                    fields[any].truncate(3 + body);
                    fields[any][1..3].copy_from_slice(&(body as u16).to_be_bytes());
                }
            }
        }
    }
    Lent::whole(r, &fields.concat())
}
