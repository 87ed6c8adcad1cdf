//! Compares the library with the second checker on random cases: what it returns and all that it was lent, guards included.
use mice_fuzz::random::Random;
use mice_fuzz::{checker, damage, generate, text};
use std::fmt::Write as _;
use std::io::IsTerminal;
use std::time::{Duration, Instant};

extern "C" {
    fn mice_check(
        formula: *const i16,
        formula_len: usize,
        trace: *const i16,
        trace_len: usize,
        counts: *mut u64,
        counts_len: usize,
        answer: *mut u64,
        answer_len: usize,
    ) -> u64;
    fn mice_read(
        text: *const u8,
        text_len: usize,
        room: *mut i16,
        room_len: usize,
        answer: *mut u64,
        answer_len: usize,
    ) -> u64;
}

#[derive(Clone)]
enum Input {
    Check { formula: Vec<i16>, trace: Vec<i16> },
    Read { text: Vec<u8> },
}

#[derive(Clone)]
struct Case {
    input: Input,
    room: usize,
    answer: usize,
}

/// What a call returned and left behind: the whole answer slice and the whole count room, or room for words.
#[derive(PartialEq, Debug)]
struct Seen {
    returned: u64,
    answer: Vec<u64>,
    counts: Vec<u64>,
    words: Vec<i16>,
}

// ---- cases

fn make(seed: u64, number: u64) -> Case {
    let r = &mut Random::new(seed, number);
    let answer = if r.one_in(25) { r.below(3) } else { r.from(3..=5) };
    if r.one_in(3) {
        return make_read(r, answer);
    }
    let (formula, trace) = if r.one_in(300) { generate::at_limit(r) } else { make_check(r) };
    let claims = checker::claim_count(&formula, &trace).unwrap_or(2);
    let room = match r.below(20) {
        0 => r.below(claims + 1),
        1..=9 => claims,
        _ => claims + r.from(1..=4),
    };
    Case { input: Input::Check { formula, trace }, room, answer }
}

fn make_check(r: &mut Random) -> (Vec<i16>, Vec<i16>) {
    let (mut cnf, mut trace) = generate::sound(r);
    let kind = r.below(20);
    if (7..=16).contains(&kind) {
        for _ in 0..r.pick(&[1, 1, 1, 2, 3]) {
            damage::meaning(r, &mut cnf, &mut trace);
        }
    }
    let (mut formula, mut trace) = (cnf.words(), trace.words());
    if kind >= 16 {
        for _ in 0..r.pick(&[1, 1, 2, 3]) {
            let words = if r.one_in(5) { &mut formula } else { &mut trace };
            damage::words(r, words);
        }
    }
    (formula, trace)
}

fn make_read(r: &mut Random, answer: usize) -> Case {
    let cnf = generate::text_cnf(r);
    let mut text = generate::text(r, &cnf);
    if !r.one_in(3) {
        for _ in 0..r.pick(&[1, 1, 2, 3]) {
            damage::text(r, &mut text);
        }
    }
    if r.one_in(400) {
        let filling = r.pick(b" \nc1");
        text.resize(r.pick(&[65534, 65535, 65536, 70000]), filling);
    }
    let needed = cnf.words().len();
    let room = match r.below(10) {
        0 => r.below(needed + 1),
        1 => needed - 1,
        2..=5 => needed,
        _ => needed + r.from(1..=4),
    };
    Case { input: Input::Read { text }, room, answer }
}

// ---- both sides of the comparison

fn count_fill(i: usize) -> u64 {
    0xC0C0_C0C0_0000_0000 + i as u64
}

fn answer_fill(i: usize) -> u64 {
    0xA5A5_A5A5_0000_0000 + i as u64
}

const WORD_FILL: i16 = -21931;

/// A lent block between guards.
struct Block<T> {
    all: Vec<T>,
    len: usize,
}

const GUARD: usize = 16;

impl<T: Copy + PartialEq> Block<T> {
    fn new(content: impl ExactSizeIterator<Item = T>, guard: T) -> Self {
        let len = content.len();
        let mut all = vec![guard; GUARD];
        all.extend(content);
        all.extend([guard; GUARD]);
        Block { all, len }
    }

    fn at(&mut self) -> *mut T {
        self.all[GUARD..].as_mut_ptr()
    }

    fn content(&self) -> &[T] {
        &self.all[GUARD..GUARD + self.len]
    }

    fn guarded(&self, guard: T) -> bool {
        self.all[..GUARD].iter().chain(&self.all[GUARD + self.len..]).all(|&g| g == guard)
    }
}

/// What the library does; an error when a guard or an input was changed.
fn library(case: &Case) -> Result<Seen, String> {
    const G64: u64 = 0x5A5A_5A5A_5A5A_5A5A;
    let mut answer = Block::new((0..case.answer).map(answer_fill), G64);
    let mut seen = Seen { returned: 0, answer: vec![], counts: vec![], words: vec![] };
    let whole;
    match &case.input {
        Input::Check { formula, trace } => {
            let mut f = Block::new(formula.iter().copied(), 0x5A5A);
            let mut t = Block::new(trace.iter().copied(), 0x5A5A);
            let mut counts = Block::new((0..case.room).map(count_fill), G64);
            // SAFETY: four blocks of their own, each as long as it says.
            seen.returned =
                unsafe { mice_check(f.at(), f.len, t.at(), t.len, counts.at(), counts.len, answer.at(), answer.len) };
            seen.counts = counts.content().to_vec();
            whole = f.guarded(0x5A5A)
                && t.guarded(0x5A5A)
                && counts.guarded(G64)
                && f.content() == &formula[..]
                && t.content() == &trace[..];
        }
        Input::Read { text } => {
            let mut t = Block::new(text.iter().copied(), 0x5A);
            let mut room = Block::new((0..case.room).map(|_| WORD_FILL), 0x5A5A);
            // SAFETY: three blocks of their own, each as long as it says.
            seen.returned = unsafe { mice_read(t.at(), t.len, room.at(), room.len, answer.at(), answer.len) };
            seen.words = room.content().to_vec();
            whole = t.guarded(0x5A) && room.guarded(0x5A5A) && t.content() == &text[..];
        }
    }
    seen.answer = answer.content().to_vec();
    if whole && answer.guarded(G64) {
        Ok(seen)
    } else {
        Err("an input or a guard was overwritten".to_string())
    }
}

fn over<T: Copy>(written: &[T], lent: &mut [T]) {
    lent[..written.len()].copy_from_slice(written);
}

/// What it should do.
fn expected(case: &Case) -> Seen {
    let mut seen = Seen { returned: 13, answer: (0..case.answer).map(answer_fill).collect(), counts: vec![], words: vec![] };
    let say = |seen: &mut Seen, answer: [u64; 3]| {
        seen.returned = answer[0];
        over(&answer, &mut seen.answer);
    };
    match &case.input {
        Input::Check { formula, trace } => {
            seen.counts = (0..case.room).map(count_fill).collect();
            if case.answer >= 3 {
                let outcome = checker::check(formula, trace, case.room);
                over(&outcome.counts, &mut seen.counts);
                say(&mut seen, [outcome.number, outcome.place, outcome.total]);
            }
        }
        Input::Read { text } => {
            seen.words = vec![WORD_FILL; case.room];
            if case.answer >= 3 {
                match text::read(text, case.room) {
                    Ok(words) => {
                        over(&words, &mut seen.words);
                        say(&mut seen, [0, 0, words.len() as u64]);
                    }
                    Err((number, place)) => say(&mut seen, [number, place, 0]),
                }
            }
        }
    }
    seen
}

/// Both sides told, if they differ.
fn difference(case: &Case) -> Option<String> {
    compared(case, &expected(case))
}

fn compared(case: &Case, wanted: &Seen) -> Option<String> {
    match library(case) {
        Ok(seen) if seen == *wanted => None,
        Ok(seen) => Some(format!("; library:        {seen:?}\n; second checker: {wanted:?}\n")),
        Err(why) => Some(format!("; library:        {why}\n; second checker: {wanted:?}\n")),
    }
}

/// Counts of claims that hold are held to their definition, over all settings of up to 8 variables.
fn counts_by_settings(case: &Case) -> Option<String> {
    let Input::Check { formula, trace } = &case.input else { return None };
    let counts = checker::check(formula, trace, usize::MAX).counts;
    let settings = checker::settings(formula, trace, 8);
    let wrong = counts.iter().zip(&settings).position(|(c, s)| s.is_some_and(|s| s != *c))?;
    Some(format!("; claim {}: count {}, but {:?} settings\n", wrong + 1, counts[wrong], settings[wrong]))
}

// ---- a difference: made small, written down, read again

/// Drops stretches of a list, long ones first, while the difference stays.
fn shrink<T: Clone>(list: &[T], differs: impl Fn(&[T]) -> bool) -> Vec<T> {
    let mut list = list.to_vec();
    let mut size = list.len();
    while size > 0 {
        let mut at = 0;
        while at < list.len() {
            let mut shorter = list.clone();
            shorter.drain(at..(at + size).min(list.len()));
            if differs(&shorter) {
                list = shorter;
            } else {
                at += size;
            }
        }
        size /= 2;
    }
    list
}

fn shrunk(case: &Case, differs: impl Fn(&Case) -> bool) -> Case {
    let mut case = case.clone();
    loop {
        let with = |input: Input| Case { input, ..case.clone() };
        let smaller = match &case.input {
            Input::Check { formula, trace } => {
                let trace = shrink(trace, |t| differs(&with(Input::Check { formula: formula.clone(), trace: t.to_vec() })));
                let formula =
                    shrink(formula, |f| differs(&with(Input::Check { formula: f.to_vec(), trace: trace.clone() })));
                with(Input::Check { formula, trace })
            }
            Input::Read { text } => {
                with(Input::Read { text: shrink(text, |t| differs(&with(Input::Read { text: t.to_vec() }))) })
            }
        };
        let size = |c: &Case| match &c.input {
            Input::Check { formula, trace } => formula.len() + trace.len(),
            Input::Read { text } => text.len(),
        };
        if size(&smaller) == size(&case) {
            return smaller;
        }
        case = smaller;
    }
}

fn written(case: &Case) -> String {
    let list = |words: &mut dyn Iterator<Item = i64>| {
        words.fold(String::new(), |mut s, w| {
            let _ = write!(s, " {w}");
            s
        })
    };
    let mut s = match &case.input {
        Input::Check { formula, trace } => format!(
            "formula{}\ntrace{}\n",
            list(&mut formula.iter().map(|&w| w.into())),
            list(&mut trace.iter().map(|&w| w.into()))
        ),
        Input::Read { text } => format!("text{}\n", list(&mut text.iter().map(|&b| b.into()))),
    };
    let _ = writeln!(s, "room {}\nanswer {}", case.room, case.answer);
    s
}

fn parsed(content: &str) -> Option<Case> {
    let find = |key: &str| -> Option<Vec<i64>> {
        let line = content.lines().find(|l| l.split_whitespace().next() == Some(key))?;
        line.split_whitespace().skip(1).map(|w| w.parse().ok()).collect()
    };
    let words = |key| Some(find(key)?.into_iter().map(|w| w as i16).collect());
    let input = match find("text") {
        Some(text) => Input::Read { text: text.into_iter().map(|b| b as u8).collect() },
        None => Input::Check { formula: words("formula")?, trace: words("trace")? },
    };
    Some(Case { input, room: *find("room")?.first()? as usize, answer: *find("answer")?.first()? as usize })
}

fn report(seed: u64, number: u64, case: &Case, found: &str) {
    let by_library = difference(case).is_some();
    let differs = |c: &Case| if by_library { difference(c).is_some() } else { counts_by_settings(c).is_some() };
    let small = shrunk(case, differs);
    let told = if by_library { difference(&small) } else { counts_by_settings(&small) };
    let content = format!("; seed {seed}, case {number}, made small\n{}{}", written(&small), told.unwrap_or_default());
    let file = format!("{found}/seed-{seed}-case-{number}.case");
    let saved = std::fs::create_dir_all(found).and_then(|()| std::fs::write(&file, &content));
    println!("\nDIFFERENCE {file}{}\n{content}", saved.err().map_or(String::new(), |e| format!(" ({e})")));
}

// ---- the run

struct Options {
    seed: u64,
    from: u64,
    count: u64,
    found: String,
    replay: Option<String>,
    say: bool,
}

fn options() -> Option<Options> {
    let mut o = Options { seed: 1, from: 0, count: 100_000, found: "found".into(), replay: None, say: false };
    let mut args = std::env::args().skip(1);
    while let Some(arg) = args.next() {
        match arg.as_str() {
            "--seed" => o.seed = args.next()?.parse().ok()?,
            "--from" => o.from = args.next()?.parse().ok()?,
            "--count" => o.count = args.next()?.parse().ok()?,
            "--found" => o.found = args.next()?,
            "--replay" => o.replay = Some(args.next()?),
            "--say" => o.say = true,
            _ => return None,
        }
    }
    Some(o)
}

fn replay(file: &str) -> i32 {
    let Some(case) = std::fs::read_to_string(file).ok().and_then(|s| parsed(&s)) else {
        eprintln!("{file}: not a case that can be read");
        return 2;
    };
    let told = difference(&case).or_else(|| counts_by_settings(&case));
    println!("{}", told.as_deref().unwrap_or("no difference"));
    told.is_some() as i32
}

/// How often each answer came, and which never did.
fn histogram(title: &str, numbers: &[usize], seen: &[u64; 30]) {
    let all: u64 = seen.iter().sum();
    println!("{title}: {all} cases");
    for &n in numbers {
        let name = if n == 0 { "accepted".to_string() } else { format!("refused {n}") };
        println!(
            "  {name:<11}{:>10} {:>6.2} %{}",
            seen[n],
            100.0 * seen[n] as f64 / all.max(1) as f64,
            if seen[n] == 0 { "   NEVER" } else { "" }
        );
    }
}

fn run(o: &Options) -> i32 {
    let (mut checks, mut reads) = ([0u64; 30], [0u64; 30]);
    let (mut differences, mut counted) = (0, 0);
    let start = Instant::now();
    let mut told = start;
    let mut done = 0;
    for number in o.from..o.from + o.count {
        if o.say {
            eprintln!("case {number}");
        }
        let case = make(o.seed, number);
        let wanted = expected(&case);
        match case.input {
            Input::Check { .. } => checks[wanted.returned as usize] += 1,
            Input::Read { .. } => reads[wanted.returned as usize] += 1,
        }
        let by_settings = number % 16 == 0;
        counted += by_settings as u64;
        if compared(&case, &wanted).is_some() || by_settings && counts_by_settings(&case).is_some() {
            differences += 1;
            report(o.seed, number, &case, &o.found);
        }
        done += 1;
        if told.elapsed() > Duration::from_secs(5) {
            told = Instant::now();
            let end = if std::io::stderr().is_terminal() { "\r" } else { "\n" };
            eprint!(
                "case {number}: {done} of {}, {:.0} a second, {differences} differences{end}",
                o.count,
                done as f64 / start.elapsed().as_secs_f64()
            );
        }
        if differences == 5 {
            break;
        }
    }
    histogram("check", &[0, 11, 12, 13, 21, 22, 23, 24, 25, 26, 27, 28, 29], &checks);
    histogram("text", &[0, 1, 2, 3, 4, 5, 6, 7, 13], &reads);
    println!(
        "{done} cases with seed {}, {counted} of them by settings too, {:.1} s, {differences} differences",
        o.seed,
        start.elapsed().as_secs_f64()
    );
    (differences > 0) as i32
}

fn main() {
    let Some(o) = options() else {
        eprintln!("options: --seed S --count N --from CASE --replay FILE --say");
        std::process::exit(2);
    };
    let status = match &o.replay {
        Some(file) => replay(file),
        None => run(&o),
    };
    std::process::exit(status);
}
