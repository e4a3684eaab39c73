//! The rules, written a second time. A state is the set of dots that stand, with their values,
//! and the highest counter known of each column.
use std::collections::BTreeMap;

pub type Value = [u8; 16];
/// A column and a counter.
pub type Dot = (u8, u32);

#[derive(Clone, Default)]
pub struct State {
    pub key: u8,
    pub known: BTreeMap<u8, u32>,
    pub held: BTreeMap<Dot, Value>,
}

#[derive(Clone, Copy)]
pub struct Refusal {
    pub number: u32,
    pub offset: usize,
}

impl Refusal {
    pub fn code(self) -> u32 {
        65536 * self.number + u32::try_from(self.offset).unwrap()
    }
}

fn refuse<T>(number: u32, offset: usize) -> Result<T, Refusal> {
    Err(Refusal { number, offset })
}

/// Tag and body of the field at `at`.
fn field(bytes: &[u8], at: usize) -> Result<(u8, &[u8]), Refusal> {
    match &bytes[at..] {
        [tag, high, low, rest @ ..] => {
            let length = usize::from(u16::from_be_bytes([*high, *low]));
            match rest.get(..length) {
                Some(body) => Ok((*tag, body)),
                None => refuse(1, at),
            }
        }
        _ => refuse(1, at),
    }
}

impl State {
    pub fn read(bytes: &[u8]) -> Result<State, Refusal> {
        let (tag, head) = field(bytes, 0)?;
        if tag != 1 {
            return refuse(2, 0);
        }
        let key = match head {
            [key @ 0..=15] => *key,
            [_] => return refuse(4, 0),
            _ => return refuse(3, 0),
        };
        let mut state = State { key, ..State::default() };
        let mut at = 4;
        while at != bytes.len() {
            let (tag, body) = field(bytes, at)?;
            if tag != 2 {
                return refuse(2, at);
            }
            let [column, count, t0, t1, t2, t3, list @ ..] = body else {
                return refuse(3, at);
            };
            let top = u32::from_be_bytes([*t0, *t1, *t2, *t3]);
            let count = u32::from(*count);
            if *column > 23 || count > 4 || count > top || top == 0 || top > 999_999 {
                return refuse(4, at);
            }
            if list.len() != 16 * count as usize {
                return refuse(3, at);
            }
            if state.known.range(*column..).next().is_some() {
                return refuse(5, at);
            }
            state.known.insert(*column, top);
            // Newest first: the first value is that of counter `top`.
            for (value, counter) in list.chunks(16).zip((1..=top).rev()) {
                state.held.insert((*column, counter), value.try_into().unwrap());
            }
            at += 3 + body.len();
        }
        Ok(state)
    }

    pub fn top(&self, column: u8) -> u32 {
        self.known.get(&column).copied().unwrap_or(0)
    }

    /// This side lets a dot of the other side stand: it holds it too, or it does not know it.
    fn allows(&self, dot: &Dot) -> bool {
        self.held.contains_key(dot) || dot.1 > self.top(dot.0)
    }

    pub fn merge(first: &State, second: &State) -> State {
        let mut both = State { key: first.key, ..State::default() };
        for side in [first, second] {
            for (&column, &top) in &side.known {
                let known = both.known.entry(column).or_insert(0);
                *known = top.max(*known);
            }
        }
        for (mine, other, wins_ties) in [(second, first, false), (first, second, true)] {
            for (dot, value) in &mine.held {
                if !other.allows(dot) {
                    continue;
                }
                // Held by both: the side with the higher top gives the value.
                let (here, there) = (mine.top(dot.0), other.top(dot.0));
                if !other.held.contains_key(dot) || here > there || (here == there && wins_ties) {
                    both.held.insert(*dot, *value);
                }
            }
        }
        both
    }

    pub fn write(&self) -> Vec<u8> {
        self.fields().concat()
    }

    /// The head field, then the column fields.
    pub fn fields(&self) -> Vec<Vec<u8>> {
        let mut fields = vec![vec![1, 0, 1, self.key]];
        for (&column, &top) in &self.known {
            let mut list: Vec<u8> = Vec::new();
            let mut count = 0;
            for (dot, value) in self.held.range((column, 0)..=(column, u32::MAX)).rev() {
                assert_eq!(dot.1, top - count, "dots of a column without a gap");
                list.extend(value);
                count += 1;
            }
            fields.push(column_field(column, count as u8, top, &list));
        }
        fields
    }
}

pub fn column_field(column: u8, count: u8, top: u32, list: &[u8]) -> Vec<u8> {
    let length = u16::try_from(6 + list.len()).unwrap();
    let mut field = vec![2];
    field.extend(length.to_be_bytes());
    field.extend([column, count]);
    field.extend(top.to_be_bytes());
    field.extend(list);
    field
}

pub fn check(frame: &[u8]) -> u32 {
    State::read(frame).map_or_else(Refusal::code, |_| 0)
}

/// The merged frame, before the output's length is looked at.
pub fn merge(first: &[u8], second: &[u8]) -> Result<Vec<u8>, u32> {
    let first = State::read(first).map_err(Refusal::code)?;
    let second = State::read(second).map_err(Refusal::code)?;
    if first.key != second.key {
        return Err(12 * 65536);
    }
    Ok(State::merge(&first, &second).write())
}
