//! Measures three checkers side by side in one process: round after round, the workloads in random order, and for each the
//! checkers in random order right after each other. Prints a line for each: group, name, size, and the nanoseconds of a call
//! of this library, of the Rust checker and of the plain one.
mod workload;

use mice_fuzz::random::Random;
use mice_fuzz::{checker, text};
use std::hint::black_box;
use workload::{Input, Workload};

type Check = unsafe extern "C" fn(*const i16, usize, *const i16, usize, *mut u64, usize, *mut u64, usize) -> u64;
type Read = unsafe extern "C" fn(*const u8, usize, *mut i16, usize, *mut u64, usize) -> u64;

extern "C" {
    fn mice_check(f: *const i16, fl: usize, t: *const i16, tl: usize, c: *mut u64, cl: usize, a: *mut u64, al: usize)
        -> u64;
    fn mice_read(t: *const u8, tl: usize, r: *mut i16, rl: usize, a: *mut u64, al: usize) -> u64;
    fn plain_check(
        f: *const i16,
        fl: usize,
        t: *const i16,
        tl: usize,
        c: *mut u64,
        cl: usize,
        a: *mut u64,
        al: usize,
    ) -> u64;
    fn plain_read(t: *const u8, tl: usize, r: *mut i16, rl: usize, a: *mut u64, al: usize) -> u64;
    fn clock_gettime(clock: i32, time: *mut i64) -> i32;
}

const CHECKERS: [&str; 3] = ["mice", "rust", "plain"];

/// Lent memory, kept from call to call and never cleared.
struct Lent {
    counts: Vec<u64>,
    room: Vec<i16>,
    answer: [u64; 3],
}

fn by_c(check: Check, read: Read, w: &Workload, lent: &mut Lent) {
    let Lent { counts, room, answer } = lent;
    // SAFETY: all of it is valid for the lengths that go with it, and no two overlap.
    unsafe {
        match &w.input {
            Input::Check { formula, trace } => check(
                formula.as_ptr(),
                formula.len(),
                trace.as_ptr(),
                trace.len(),
                counts.as_mut_ptr(),
                counts.len(),
                answer.as_mut_ptr(),
                3,
            ),
            Input::Read { text } => read(text.as_ptr(), text.len(), room.as_mut_ptr(), room.len(), answer.as_mut_ptr(), 3),
        }
    };
}

fn by_rust(w: &Workload, lent: &mut Lent) {
    lent.answer = match &w.input {
        Input::Check { formula, trace } => {
            let o = checker::check(formula, trace, lent.counts.len());
            lent.counts[..o.counts.len()].copy_from_slice(&o.counts);
            [o.number, o.place, o.total]
        }
        Input::Read { text } => match text::read(text, lent.room.len()) {
            Ok(words) => {
                lent.room[..words.len()].copy_from_slice(&words);
                [0, 0, words.len() as u64]
            }
            Err((number, place)) => [number, place, 0],
        },
    };
}

fn call(which: usize, w: &Workload, lent: &mut Lent) {
    match which {
        0 => by_c(mice_check, mice_read, w, lent),
        1 => by_rust(w, lent),
        _ => by_c(plain_check, plain_read, w, lent),
    }
    black_box(&lent.answer);
}

/// Processor time of this thread in nanoseconds: what other programs take of the machine is not counted.
fn now() -> f64 {
    const THREAD_CPUTIME: i32 = 3;
    let mut time = [0i64; 2];
    // SAFETY: on 64-bit Linux a timespec is two 64-bit numbers, seconds and nanoseconds.
    let status = unsafe { clock_gettime(THREAD_CPUTIME, time.as_mut_ptr()) };
    assert!(status == 0, "no clock");
    time[0] as f64 * 1e9 + time[1] as f64
}

/// Nanoseconds of a call, over so many calls.
fn timed(which: usize, w: &Workload, lent: &mut Lent, calls: u32) -> f64 {
    let start = now();
    for _ in 0..calls {
        call(which, w, lent);
    }
    (now() - start) / calls as f64
}

/// One workload, how often each checker is called for one sample, and a row of three times for each round.
struct Run {
    workload: Workload,
    calls: [u32; 3],
    rounds: usize,
    rows: Vec<[f64; 3]>,
}

const ROUNDS: usize = 25;

/// All checkers have to agree on a workload, and each has to go through all of it. Then it is known how long a call takes.
fn prepared(workload: Workload, lent: &mut Lent) -> Run {
    let w = &workload;
    let mut calls = [1; 3];
    let mut slowest: f64 = 0.0;
    let mut first: Option<([u64; 3], Vec<u64>, Vec<i16>)> = None;
    for which in 0..3 {
        lent.counts.fill(0);
        lent.room.fill(0);
        let once = timed(which, w, lent, 1);
        let said = (lent.answer, lent.counts.clone(), lent.room.clone());
        assert!([0, 29].contains(&said.0[0]), "{} {}: refused {} at {}", w.group, w.name, said.0[0], said.0[1]);
        assert!(
            *first.get_or_insert(said.clone()) == said,
            "{} {}: {} says something else",
            w.group,
            w.name,
            CHECKERS[which]
        );
        calls[which] = (2e6 / once).clamp(1.0, 1e5) as u32; // samples of about 2 ms
        slowest = slowest.max(once);
    }
    Run { workload, calls, rounds: if slowest > 1e8 { 7 } else { ROUNDS }, rows: vec![] }
}

fn main() {
    let mut lent = Lent { counts: vec![0; 1024], room: vec![0; 32767], answer: [0; 3] };
    let mut runs: Vec<Run> = workload::all().into_iter().map(|w| prepared(w, &mut lent)).collect();
    let r = &mut Random::new(1, 0);
    let mut order: Vec<usize> = (0..runs.len()).collect();
    for round in 0..ROUNDS {
        r.shuffle(&mut order);
        for &i in &order {
            let run = &mut runs[i];
            if round < run.rounds {
                let (mut checkers, mut row) = ([0, 1, 2], [0.0; 3]);
                r.shuffle(&mut checkers);
                for which in checkers {
                    row[which] = timed(which, &run.workload, &mut lent, run.calls[which]);
                }
                run.rows.push(row);
            }
        }
    }
    for run in &runs {
        for row in &run.rows {
            let w = &run.workload;
            println!("{}\t{}\t{}\t{:.0}\t{:.0}\t{:.0}", w.group, w.name, w.size(), row[0], row[1], row[2]);
        }
    }
}
