//! Compares the two C calls with a second implementation of the rules. Stops at the first difference.
mod make;
mod rules;

use make::{Lent, Random};
use std::process::exit;
use std::time::Instant;

extern "C" {
    fn zabrusko_check_frame(frame: *const u8, frame_len: usize) -> u32;
    fn zabrusko_merge_frames(
        first: *const u8,
        first_len: usize,
        second: *const u8,
        second_len: usize,
        out: *mut u8,
        out_len: usize,
    ) -> u32;
}

const SEED: u64 = 0x5A61_6272_7573_6B6F;
/// Bytes before and behind the output that have to stay.
const FENCE: usize = 64;
const NUMBERS: [usize; 8] = [0, 1, 2, 3, 4, 5, 9, 12];

fn hex(bytes: &[u8]) -> String {
    bytes.iter().map(|b| format!("{b:02X}")).collect::<Vec<_>>().join(" ")
}

fn told(answer: u32) -> String {
    format!("{answer} (number {}, rest {})", answer >> 16, answer & 0xFFFF)
}

fn check(round: u64, frame: &Lent) -> u32 {
    let before = frame.all.clone();
    let bytes = frame.bytes();
    let theirs = unsafe { zabrusko_check_frame(bytes.as_ptr(), bytes.len()) };
    let ours = rules::check(bytes);
    if theirs != ours || frame.all != before {
        println!("DIFFERENCE in check, round {round}");
        println!("frame, {} bytes: {}", bytes.len(), hex(bytes));
        println!("library: {}", told(theirs));
        println!("rules:   {}", told(ours));
        println!("bytes of the caller changed: {}", frame.all != before);
        exit(1);
    }
    ours
}

fn merge(round: u64, r: &mut Random, first: &Lent, second: &Lent) -> (u32, Option<Vec<u8>>) {
    let merged = rules::merge(first.bytes(), second.bytes());
    let out_len = match &merged {
        Ok(frame) => match r.below(8) {
            0 => frame.len() - 1,
            1 => r.below(frame.len()),
            2 | 3 => frame.len(),
            4 => frame.len() + 1,
            5 => 1756,
            _ => frame.len() + r.below(100),
        },
        Err(_) => r.pick(&[0, 3, 4, 100, 1756, 2000]),
    };
    let before = r.bytes(FENCE + out_len + FENCE);
    let mut out = before.clone();
    let (a, b) = (first.bytes(), second.bytes());
    let (a_before, b_before) = (first.all.clone(), second.all.clone());
    let theirs = unsafe {
        let space = &mut out[FENCE..FENCE + out_len];
        zabrusko_merge_frames(a.as_ptr(), a.len(), b.as_ptr(), b.len(), space.as_mut_ptr(), out_len)
    };
    let mut due = before;
    let ours = match &merged {
        Ok(frame) if frame.len() <= out_len => {
            due[FENCE..FENCE + frame.len()].copy_from_slice(frame);
            frame.len() as u32
        }
        Ok(_) => 9 * 65536,
        Err(code) => *code,
    };
    let changed = first.all != a_before || second.all != b_before;
    if theirs != ours || out != due || changed {
        println!("DIFFERENCE in merge, round {round}, output of {out_len} bytes");
        println!("first, {} bytes: {}", a.len(), hex(a));
        println!("second, {} bytes: {}", b.len(), hex(b));
        println!("library: {}", told(theirs));
        println!("rules:   {}", told(ours));
        println!("bytes of the caller changed: {changed}");
        if out != due {
            println!("output with {FENCE} bytes on both sides, library: {}", hex(&out));
            println!("output with {FENCE} bytes on both sides, rules:   {}", hex(&due));
        }
        exit(1);
    }
    (ours, merged.ok())
}

fn main() {
    let rounds: u64 = match std::env::args().nth(1) {
        None => 1_000_000,
        Some(text) => text.parse().unwrap_or_else(|_| {
            eprintln!("usage: compare [rounds]");
            exit(2)
        }),
    };
    let start = Instant::now();
    let mut r = Random(SEED);
    let (mut checks, mut merges) = ([0u64; 13], [0u64; 13]);
    let (mut differ, mut longest, mut bytes) = (0u64, 0, 0u64);
    for round in 0..rounds {
        let history = r.next();
        let one = make::state(&mut r, history);
        let damaged = r.below(5) < 3;
        let frame = make::frame(&mut r, &one, damaged);
        bytes += frame.len as u64;
        longest = longest.max(frame.len);
        checks[(check(round, &frame) >> 16) as usize] += 1;

        // Every second round merges: two relatives, sometimes damaged; sometimes the round's frame on either side.
        if round % 2 == 1 {
            let two = if r.one_in(10) { make::state(&mut r, history) } else { make::relative(&mut r, &one, history) };
            let damaged = r.one_in(8);
            let other = make::frame(&mut r, &two, damaged);
            let frame = if r.one_in(4) { frame } else { make::frame(&mut r, &one, false) };
            let (first, second) = if r.one_in(2) { (&frame, &other) } else { (&other, &frame) };
            let (answer, merged) = merge(round, &mut r, first, second);
            merges[(answer >> 16) as usize] += 1;
            if let Some(merged) = merged {
                // How often neither side is simply the answer.
                differ += u64::from(merged != first.bytes() && merged != second.bytes());
                // What a merge wrote is a frame.
                let merged = Lent::whole(&mut r, &merged);
                if check(round, &merged) != 0 {
                    println!("DIFFERENCE: a merged frame is refused, round {round}: {}", hex(merged.bytes()));
                    exit(1);
                }
            }
        }
    }

    println!("{:>10} {:>12} {:>12}", "answer", "check", "merge");
    for number in 0..13 {
        if NUMBERS.contains(&number) || checks[number] + merges[number] > 0 {
            let name = if number == 0 { "accepted".to_string() } else { number.to_string() };
            println!("{name:>10} {:>12} {:>12}", checks[number], merges[number]);
        }
    }
    println!("{:>10} {:>12} {:>12}", "all", checks.iter().sum::<u64>(), merges.iter().sum::<u64>());
    println!("merges whose frame is neither of the two: {differ}");
    println!("bytes checked: {bytes}, longest frame: {longest}");
    println!("no difference, {:.1} s", start.elapsed().as_secs_f64());

    // A long run has to meet every answer.
    let unmet: Vec<String> = NUMBERS
        .iter()
        .filter(|&&n| (n < 9 && checks[n] == 0) || merges[n] == 0)
        .map(|n| n.to_string())
        .collect();
    if rounds >= 10_000 && !unmet.is_empty() {
        println!("not met: {}", unmet.join(", "));
        exit(1);
    }
}
