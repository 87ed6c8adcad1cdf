//! Cases for measuring speed, the same on every machine: typical, of full size, hostile but legal, and of doubled sizes.
use mice_fuzz::generate;
use mice_fuzz::random::Random;
use mice_fuzz::trace::{Claim, Cnf, Refutation, Step, Trace};
use mice_fuzz::writer::Writer;

pub enum Input {
    Check { formula: Vec<i16>, trace: Vec<i16> },
    Read { text: Vec<u8> },
}

pub struct Workload {
    pub group: &'static str,
    pub name: String,
    pub input: Input,
}

impl Workload {
    /// Words of formula and trace, or bytes of the text.
    pub fn size(&self) -> usize {
        match &self.input {
            Input::Check { formula, trace } => formula.len() + trace.len(),
            Input::Read { text } => text.len(),
        }
    }
}

const WORDS: usize = 32767;

fn claim(rule: i16, subformula: i16, assumption: i16, arguments: impl Into<Vec<i16>>) -> Claim {
    Claim { rule, subformula, assumption, arguments: arguments.into() }
}

fn numbers(last: usize) -> Vec<i16> {
    (1..=last as i16).collect()
}

fn negated(list: &[i16]) -> Vec<i16> {
    list.iter().map(|l| -l).collect()
}

/// What a splitting solver writes for random clauses of three literals: the first formula whose trace has a size in the range.
fn solved(variables: usize, clauses: usize, size: std::ops::Range<usize>) -> (Cnf, Trace) {
    for seed in 0.. {
        let r = &mut Random::new(2026, seed);
        let cnf = Cnf {
            n: variables,
            clauses: (0..clauses).map(|_| r.some_of(variables, 3).into_iter().map(|v| r.sign(v)).collect()).collect(),
        };
        let mut writer = Writer::new(&cnf, r, false, 1, 1000);
        let done = writer.claim(&numbers(clauses), &[]).is_some();
        let t = std::mem::take(&mut writer.trace);
        let fits = t.subformulas.len() <= 1024 && t.assumptions.len() <= 1024 && t.refutations.len() <= 256;
        if done && fits && size.contains(&t.words().len()) {
            return (cnf, t);
        }
    }
    unreachable!()
}

/// Adds claims while the trace keeps within `words` words and 1,024 claims.
fn fill(t: &mut Trace, words: usize, mut next: impl FnMut(usize) -> Claim) {
    let mut size = t.words().len();
    while t.claims.len() < 1024 {
        let c = next(t.claims.len() + 1);
        size += 4 + c.arguments.len();
        if size > words {
            break;
        }
        t.claims.push(c);
    }
}

/// Long lists of clauses, every claim with all clauses and a long assumption: extension after extension.
fn extensions(words: usize) -> (Cnf, Trace) {
    // the assumption sets all of the variables, which each clause names fifteen of
    let groups = (words / 2048).max(1);
    let clause = |i: usize| (0..15).map(|k| (1 + i % groups + groups * k) as i16).collect();
    let cnf = Cnf { n: groups * 15, clauses: (0..words / 16).map(clause).collect() };
    let mut t = Trace {
        subformulas: vec![vec![], numbers(cnf.clauses.len())],
        assumptions: vec![vec![], numbers(cnf.n)],
        refutations: vec![],
        claims: vec![claim(1, 1, 1, [])],
    };
    fill(&mut t, words, |_| claim(4, 2, 2, [1]));
    (cnf, t)
}

/// P1's composition with `count` refutations of many short steps, each cited by one claim, or by claim after claim.
fn short_steps(words: usize, count: usize, again: bool) -> (Cnf, Trace) {
    let cnf = Cnf { n: 2, clauses: vec![vec![1], vec![2]] };
    let first = Step { pivot: 1, left: (1, 1), right: (3, 1), resolvent: vec![-2] };
    let steps = (words * 7 / 8 / 7 / count).min(1024);
    let mut all = vec![first; steps - 1];
    all.push(Step { pivot: 2, left: (1, 2), right: (4, steps as i16 - 1), resolvent: vec![] });
    let mut t = Trace {
        subformulas: vec![vec![], vec![1, 2]],
        assumptions: vec![vec![], vec![1, 2]],
        refutations: vec![Refutation { steps: all, closing: (4, steps as i16) }; count],
        claims: vec![claim(1, 1, 1, []), claim(4, 2, 2, [1])],
    };
    let most = if again { words } else { t.words().len() + 6 * count };
    fill(&mut t, most, |k| claim(2, 2, 1, [(k % count) as i16 + 1, 2]));
    (cnf, t)
}

/// One refutation whose resolvents are long, cited by claim after claim: each reads all of it again.
fn long_resolvents(words: usize) -> (Cnf, Trace) {
    let mut n = 1;
    while (n + 1) * (n + 1) / 2 + 6 * (n + 1) < words * 3 / 4 {
        n += 1;
    }
    let cnf = Cnf { n, clauses: numbers(n).into_iter().map(|v| vec![v]).collect() };
    let steps = (1..=n as i16)
        .map(|v| Step {
            pivot: v,
            left: (2, v),
            right: if v == 1 { (3, 1) } else { (4, v - 1) },
            resolvent: negated(&numbers(n)[v as usize..]),
        })
        .collect();
    let mut t = Trace {
        subformulas: vec![vec![], numbers(n)],
        assumptions: vec![vec![], numbers(n)],
        refutations: vec![Refutation { steps, closing: (4, n as i16) }],
        claims: vec![claim(1, 1, 1, []), claim(4, 2, 2, [1])],
    };
    fill(&mut t, words, |k| claim(2, 2, 2, [1, k as i16 - 1]));
    (cnf, t)
}

/// Compositions of 63 premises: all ways to satisfy one clause of six literals, and `more` literals that all of them assume.
fn many_premises(words: usize, more: usize) -> (Cnf, Trace) {
    let extra: Vec<i16> = (7..7 + more as i16).collect();
    let mut cnf = Cnf { n: 6 + more, clauses: vec![numbers(6)] };
    cnf.clauses.extend(extra.iter().map(|&v| vec![v]));
    let mut t = Trace {
        subformulas: vec![vec![], numbers(1 + more)],
        assumptions: vec![vec![], extra.clone()],
        refutations: vec![],
        claims: vec![claim(1, 1, 1, [])],
    };
    for s in 1..64 {
        let setting = (1..=6).map(|v| if s >> (v - 1) & 1 == 1 { v } else { -v });
        t.assumptions.push(setting.chain(extra.iter().copied()).collect());
        t.claims.push(claim(4, 2, s + 2, [1]));
    }
    // resolve variable 6, then 5 and so on; the literals of A last
    let (mut steps, mut before): (Vec<Step>, i16) = (vec![], 0);
    for v in (0..6i16).rev() {
        let first = steps.len() as i16 + 1;
        for p in 0..1 << v {
            let side = |s: i16| -> (i16, i16) {
                let below = p | s << v;
                if v < 5 {
                    (4, before + below)
                } else if below == 0 {
                    (1, 1)
                } else {
                    (3, below)
                }
            };
            let path = (1..=v).map(|u| if p >> (u - 1) & 1 == 1 { -u } else { u });
            let resolvent = path.chain(negated(&extra)).collect();
            steps.push(Step { pivot: v + 1, left: side(0), right: side(1), resolvent });
        }
        before = first;
    }
    for (i, &l) in extra.iter().enumerate() {
        let last = steps.len() as i16;
        steps.push(Step { pivot: l, left: (2, l), right: (4, last), resolvent: negated(&extra[i + 1..]) });
    }
    let last = steps.len() as i16;
    t.refutations.push(Refutation { steps, closing: (4, last) });
    let mut arguments = vec![1];
    arguments.extend(2..=64);
    fill(&mut t, words, |_| claim(2, 2, 2, arguments.clone()));
    (cnf, t)
}

/// Joins: clause after clause added to what is counted.
fn joins(words: usize) -> (Cnf, Trace) {
    let mut count = 1;
    while (count + 1) * (count + 2) / 2 + 20 * count < words {
        count += 1;
    }
    let count = count.min(60);
    let cnf = Cnf { n: 2 * count, clauses: (0..count as i16).map(|i| vec![2 * i + 1, 2 * i + 2]).collect() };
    let mut t = Trace {
        subformulas: vec![vec![]],
        assumptions: vec![vec![]],
        refutations: vec![],
        claims: vec![claim(1, 1, 1, [])],
    };
    for i in 1..=count as i16 {
        t.subformulas.push(vec![i]);
        t.assumptions.push(vec![2 * i - 1]);
        t.claims.push(claim(4, t.subformulas.len() as i16, t.assumptions.len() as i16, [1]));
    }
    let all: Vec<i16> = cnf.clauses.iter().map(|c| c[0]).collect();
    t.subformulas.push(numbers(count));
    t.assumptions.push(all.clone());
    let mut last = 2;
    for i in 2..=count {
        t.subformulas.push(numbers(i));
        t.assumptions.push(all[..i].to_vec());
        t.claims.push(claim(3, t.subformulas.len() as i16, t.assumptions.len() as i16, [last, i as i16 + 1]));
        last = t.claims.len() as i16;
    }
    // then the axiom joined with all of it, again and again
    let (f, a) = (t.subformulas.len() as i16, t.assumptions.len() as i16);
    fill(&mut t, words, |k| claim(3, f, a, [1, k as i16 - 1]));
    (cnf, t)
}

/// A text of so many bytes: clauses of `len` literals in falling order, which have to be sorted.
fn text(bytes: usize, len: usize, n: usize) -> Vec<u8> {
    let line = |i: usize| {
        let literals = (0..len).rev().map(|k| 1 + (i * 7 + k) % n);
        let mut sorted: Vec<usize> = literals.collect();
        sorted.sort_by(|a, b| b.cmp(a));
        sorted.iter().map(|v| if (v + i) % 3 == 0 { format!("-{v} ") } else { format!("{v} ") }).collect::<String>() + "0\n"
    };
    let mut body = String::new();
    let mut clauses = 0;
    while clauses < 2048 && body.len() + line(clauses).len() + 16 < bytes {
        body += &line(clauses);
        clauses += 1;
    }
    let mut text = format!("p cnf {n} {clauses}\n{body}").into_bytes();
    text.resize(bytes, b' ');
    text
}

const SIZES: [usize; 6] = [1024, 2048, 4096, 8192, 16384, WORDS];

pub fn all() -> Vec<Workload> {
    let mut all = vec![];
    let mut check = |group: &'static str, name: &str, (cnf, trace): (Cnf, Trace)| {
        all.push(Workload {
            group,
            name: name.to_string(),
            input: Input::Check { formula: cnf.words(), trace: trace.words() },
        });
    };
    check("typical", "small", solved(8, 16, 500..1500));
    check("typical", "medium", solved(12, 30, 4000..8000));
    check("typical", "large", solved(16, 44, 12000..20000));
    check("full size", "extensions", extensions(WORDS));
    check("full size", "short steps", short_steps(WORDS, 32, false));
    check("full size", "short steps, cited often", short_steps(WORDS, 4, true));
    check("full size", "63 premises", many_premises(WORDS, 0));
    check("full size", "joins", joins(WORDS));
    check("worst case", "long resolvents", long_resolvents(WORDS));
    check("worst case", "63 long premises", many_premises(WORDS, 100));
    for size in SIZES {
        check("growth: extensions", &size.to_string(), extensions(size));
    }
    for size in SIZES {
        check("growth: refutations cited once", &size.to_string(), short_steps(size, 32, false));
    }
    for size in SIZES {
        check("growth: a refutation cited often", &size.to_string(), long_resolvents(size));
    }
    let mut read =
        |group: &'static str, name: String, text: Vec<u8>| all.push(Workload { group, name, input: Input::Read { text } });
    let r = &mut Random::new(2026, 0);
    let cnf =
        Cnf { n: 100, clauses: (0..400).map(|_| r.some_of(100, 3).into_iter().map(|v| r.sign(v)).collect()).collect() };
    read("typical", "text".to_string(), generate::text(r, &cnf));
    read("full size", "text".to_string(), text(65535, 7, 512));
    read("worst case", "text of long clauses".to_string(), text(65535, 64, 512));
    for size in SIZES {
        read("growth: texts", (2 * size).to_string(), text(2 * size, 7, 512));
    }
    all
}
