//! Random cases: formulas with sound traces, texts, and either at the limits of the format.
use crate::random::Random;
use crate::trace::{Claim, Cnf, Refutation, Step, Trace};
use crate::writer::Writer;

/// So many variables are named 1 to n in order, or thinly spread over up to 512 names.
fn renamed(r: &mut Random, mut cnf: Cnf) -> Cnf {
    if cnf.n > 0 && r.one_in(4) {
        let n = r.pick(&[cnf.n + 1, 64, 65, 511, 512]).max(cnf.n);
        let names = r.some_of(n, cnf.n);
        for l in cnf.clauses.iter_mut().flatten() {
            *l = names[l.unsigned_abs() as usize - 1] * l.signum();
        }
        cnf.n = n;
    }
    cnf
}

fn clause(r: &mut Random, n: usize, len: usize) -> Vec<i16> {
    r.some_of(n, len.min(n)).into_iter().map(|v| r.sign(v)).collect()
}

/// A few variables, a few short clauses.
fn small_cnf(r: &mut Random) -> Cnf {
    let n = r.from(0..=7);
    let m = r.pick(&[0, 1, 2, 2, 3, 3, 4, 5, 6, 8]);
    let longest = r.from(1..=4);
    let clauses = (0..m)
        .map(|_| {
            let len = if r.one_in(40) { 0 } else { r.from(1..=longest) };
            clause(r, n, len)
        })
        .collect();
    renamed(r, Cnf { n, clauses })
}

/// Long clauses, so that counts come near 2^64, and now and then a part that nothing satisfies.
fn wide_cnf(r: &mut Random) -> Cnf {
    let mut cnf = Cnf::default();
    for _ in 0..r.from(1..=3) {
        let len = r.pick(&[1, 2, 3, 31, 32, 33, 61, 62, 63, 63, 64, 64]);
        let start = if r.one_in(4) { cnf.n - cnf.n.min(r.from(1..=3)) } else { cnf.n };
        cnf.clauses.push((start as i16 + 1..=(start + len) as i16).map(|v| if r.one_in(9) { -v } else { v }).collect());
        cnf.n = cnf.n.max(start + len);
    }
    if r.one_in(5) {
        cnf.n += 1;
        cnf.clauses.extend([vec![cnf.n as i16], vec![-(cnf.n as i16)]]);
        r.shuffle(&mut cnf.clauses);
    }
    cnf
}

/// Some clauses, and literals of some of their variables.
fn part_of(r: &mut Random, cnf: &Cnf, often: usize) -> (Vec<i16>, Vec<i16>) {
    let how_many = r.from(0..=cnf.clauses.len());
    let f = r.some_of(cnf.clauses.len(), how_many);
    let mut names: Vec<i16> = f.iter().flat_map(|&i| cnf.clause(i)).map(|l| l.abs()).collect();
    names.sort();
    names.dedup();
    names.retain(|_| r.one_in(often));
    (f, names.into_iter().map(|v| r.sign(v)).collect())
}

/// A formula and a sound trace: of the whole formula, or of some parts (which ends in 29 unless a part is the whole).
pub fn sound(r: &mut Random) -> (Cnf, Trace) {
    loop {
        let wide = r.one_in(8);
        let cnf = if wide { wide_cnf(r) } else { small_cnf(r) };
        let all: Vec<i16> = (1..=cnf.clauses.len() as i16).collect();
        let targets = if r.one_in(6) { r.from(0..=3) } else { 0 };
        let mut goals: Vec<_> = (0..targets).map(|_| part_of(r, &cnf, if wide { 20 } else { 3 })).collect();
        if wide {
            // one literal of each clause: the extension of the axiom with as many free variables as there can be
            let mut held: Vec<i16> = cnf.clauses.iter().filter_map(|c| c.first().copied()).collect();
            held.sort_by_key(|l| l.abs());
            held.dedup_by_key(|l| l.abs());
            goals.push((all.clone(), held));
        }
        // all of a wide formula takes a split for each variable, so that is done rarely
        if !r.one_in(12) && (!wide || r.one_in(60)) {
            goals.push((all, vec![]));
        }
        let depth = if wide { 1 } else { r.pick(&[1, 2, 2, 3, 4, 6]) };
        let most = if wide { 300 } else { 120 };
        let mut writer = Writer::new(&cnf, r, true, depth, most);
        let done = goals.iter().all(|(f, a)| writer.claim(f, a).is_some());
        let mut trace = std::mem::take(&mut writer.trace);
        if done {
            if r.one_in(6) {
                unused(r, &cnf, &mut trace);
            }
            return (cnf, trace);
        }
    }
}

/// Entries at the ends of the sections that no claim uses.
fn unused(r: &mut Random, cnf: &Cnf, trace: &mut Trace) {
    for _ in 0..r.from(1..=3) {
        let (f, a) = part_of(r, cnf, 2);
        trace.subformulas.push(f);
        trace.assumptions.push(a);
    }
    if cnf.n > 0 {
        let step = Step { pivot: 1, left: (2, 1), right: (2, cnf.n as i16), resolvent: clause(r, cnf.n, 3) };
        trace.refutations.push(Refutation { steps: vec![step], closing: (4, 1) });
    }
}

/// A case with one number of its form at its limit, or one over it.
pub fn at_limit(r: &mut Random) -> (Vec<i16>, Vec<i16>) {
    let over = r.below(2);
    let mut cnf = Cnf { n: 2, clauses: vec![vec![1], vec![2]] };
    let axiom = Claim { rule: 1, subformula: 1, assumption: 1, arguments: vec![] };
    let mut t =
        Trace { subformulas: vec![vec![]], assumptions: vec![vec![]], refutations: vec![], claims: vec![axiom.clone()] };
    let empty = Refutation { steps: vec![], closing: (1, 1) };
    let step = Step { pivot: 1, left: (1, 1), right: (1, 2), resolvent: vec![2] };
    match r.below(12) {
        0 => cnf.n = 512 + over,
        1 => cnf.clauses = vec![vec![1]; 2048 + over],
        2 => {
            cnf.n = 100;
            cnf.clauses[0] = (1..=64 + over as i16).collect();
        }
        3 => t.subformulas = vec![vec![]; 1024 + over],
        4 => t.assumptions = vec![vec![]; 1024 + over],
        5 => t.refutations = vec![empty; 256 + over],
        6 => t.refutations = vec![Refutation { steps: vec![step; 1024 + over], closing: (4, 1024 + over as i16) }],
        7 => t.claims = vec![axiom; 1024 + over],
        8 => t.claims.push(Claim { rule: 2, arguments: vec![1; 64 + over], ..axiom }),
        9 => t.claims.push(Claim { rule: 4, arguments: vec![1024 + over as i16], ..axiom }),
        10 => {
            // the formula has 32,767 words, or one more
            cnf = Cnf { n: 512, clauses: vec![(1..=15).collect(); 2047] };
            let left = 32767 + over - cnf.words().len() - 1;
            cnf.clauses.push((1..=left as i16).collect());
        }
        _ => {
            // the trace has 32,767 words, or one more
            cnf.clauses = vec![vec![1]; 2048];
            t.subformulas.extend(vec![(1..=2048).collect(); 15]);
            let left = 32767 + over - t.words().len() - 1;
            t.subformulas.push((1..=left as i16).collect());
        }
    }
    (cnf.words(), t.words())
}

// ---- texts

/// A text for a formula, in any layout that the document allows.
pub fn text(r: &mut Random, cnf: &Cnf) -> Vec<u8> {
    let playful = !r.one_in(4);
    let mut text = vec![];
    let blank = |r: &mut Random| -> &'static str {
        if playful {
            r.pick(&[" ", " ", "  ", "\t", "\r", " \t "])
        } else {
            " "
        }
    };
    let line_end = |r: &mut Random| -> &'static str {
        if playful {
            r.pick(&["\n", "\n", "\n", " \n", "\r\n", "\n\n", "\nc\n", "\nc 1 0\n", "\n \t\n", "\ncnf p\n"])
        } else {
            "\n"
        }
    };
    if playful && r.one_in(2) {
        text.extend(r.pick(&["c a comment\n", "c\n", "\n", " \n\r\n", "c p cnf 1 1\n\n"]).as_bytes());
    }
    for (i, part) in
        ["p".to_string(), "cnf".to_string(), cnf.n.to_string(), cnf.clauses.len().to_string()].iter().enumerate()
    {
        if i > 0 {
            text.extend(blank(r).as_bytes());
        }
        text.extend(part.as_bytes());
    }
    text.extend(line_end(r).as_bytes());
    for c in &cnf.clauses {
        let mut literals = c.clone();
        if playful {
            r.shuffle(&mut literals);
        }
        for l in literals {
            text.extend(l.to_string().as_bytes());
            let gap = if playful && r.one_in(8) { line_end(r) } else { blank(r) };
            text.extend(gap.as_bytes());
        }
        text.push(b'0');
        let gap = if playful && r.one_in(4) { blank(r) } else { line_end(r) };
        text.extend(gap.as_bytes());
    }
    if playful && r.one_in(4) {
        text.pop();
    }
    text
}

/// A formula for texts: small, or with long clauses, or now and then with very many.
pub fn text_cnf(r: &mut Random) -> Cnf {
    match r.below(40) {
        0 => {
            let n = r.pick(&[100, 511, 512]);
            Cnf {
                n,
                clauses: (0..r.pick(&[100, 500, 2047, 2048]))
                    .map(|_| {
                        let len = r.from(0..=5);
                        clause(r, n, len)
                    })
                    .collect(),
            }
        }
        1..=5 => {
            let n = r.pick(&[64, 65, 99, 512]);
            Cnf {
                n,
                clauses: (0..r.from(1..=3))
                    .map(|_| {
                        let len = r.pick(&[3, 62, 63, 64]);
                        clause(r, n, len)
                    })
                    .collect(),
            }
        }
        _ => small_cnf(r),
    }
}

#[cfg(test)]
mod tests {
    use super::*;
    use crate::checker;

    /// Sound traces are never refused but for a count that is too large (28) or an end that isn't the whole (29), and they use
    /// every rule and every kind of citation.
    #[test]
    fn sound_traces_hold() {
        let (mut rules, mut kinds) = ([0; 5], [0; 5]);
        for case in 0..3000 {
            let (cnf, trace) = sound(&mut Random::new(7, case));
            let number = checker::check(&cnf.words(), &trace.words(), 1024).number;
            assert!([0, 12, 28, 29].contains(&number), "case {case}: {number}");
            assert!(number != 12 || trace.words().len() > 32767 || trace.refutations.len() > 256, "case {case}: malformed");
            trace.claims.iter().for_each(|c| rules[c.rule as usize] += 1);
            for s in trace.refutations.iter().flat_map(|t| &t.steps) {
                kinds[s.left.0 as usize] += 1;
                kinds[s.right.0 as usize] += 1;
            }
        }
        println!("rules {rules:?}, kinds {kinds:?}");
        assert!(rules[1..].iter().chain(&kinds[1..]).all(|&k| k > 1000));
    }
}
