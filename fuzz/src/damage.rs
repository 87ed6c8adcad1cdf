//! Damage to sound cases: to a trace as it is thought of, to its words, and to texts.
use crate::random::Random;
use crate::trace::{Citation, Cnf, Trace};

const NEAR_LIMITS: [i16; 34] = [
    0, 1, 2, 3, 4, 5, -1, -2, 7, 62, 63, 64, 65, 66, 255, 256, 257, 511, 512, 513, -511, -512, -513, 1023, 1024, 1025, 2047,
    2048, 2049, 32766, 32767, -32766, -32767, -32768,
];

// ---- a trace as it is thought of

/// Another sign, another number, one member more or less; the list keeps its order.
fn list(r: &mut Random, list: &mut Vec<i16>, top: usize, signed: bool) {
    let at = if list.is_empty() { 0 } else { r.below(list.len()) };
    match r.below(3) {
        0 if !list.is_empty() && signed => list[at] = -list[at],
        1 if !list.is_empty() => {
            list.remove(at);
        }
        _ if top > 0 => {
            let v = r.from(1..=top) as i16;
            list.retain(|l| l.abs() != v);
            list.push(if signed { r.sign(v) } else { v });
            list.sort_by_key(|l| l.abs());
        }
        _ => {}
    }
}

fn near(r: &mut Random, number: i16, top: usize) -> i16 {
    match r.below(3) {
        0 => number + 1,
        1 => (number - 1).max(1),
        _ => r.from(1..=top.max(1)) as i16,
    }
}

fn citation(r: &mut Random, c: &mut Citation, cnf: &Cnf, steps: usize) {
    if r.one_in(3) {
        c.0 = r.from(1..=4) as i16;
    }
    let top = [cnf.clauses.len(), cnf.n, 3, steps][c.0 as usize - 1].max(1);
    let v = r.from(1..=top) as i16;
    c.1 = if c.0 == 2 {
        if r.one_in(2) {
            -c.1
        } else {
            r.sign(v)
        }
    } else {
        v
    };
}

fn refutation(r: &mut Random, cnf: &Cnf, trace: &mut Trace) {
    let at = r.below(trace.refutations.len());
    let refutation = &mut trace.refutations[at];
    let count = refutation.steps.len();
    if count == 0 || r.one_in(8) {
        return citation(r, &mut refutation.closing, cnf, count);
    }
    let s = if r.one_in(3) { count - 1 } else { r.below(count) };
    let step = &mut refutation.steps[s];
    match r.below(7) {
        0 => citation(r, &mut step.left, cnf, s),
        1 => citation(r, &mut step.right, cnf, s),
        2 => std::mem::swap(&mut step.left, &mut step.right),
        3 => step.pivot = near(r, step.pivot, cnf.n),
        4 => {
            let copy = step.clone();
            refutation.steps.insert(s, copy);
        }
        5 if s + 1 == count => {
            refutation.steps.pop();
        }
        _ => list(r, &mut step.resolvent, cnf.n, true),
    }
}

fn claim(r: &mut Random, trace: &mut Trace) {
    let (claims, at) = (trace.claims.len(), r.below(trace.claims.len()));
    let c = &mut trace.claims[at];
    let argument = if c.arguments.is_empty() { 0 } else { r.below(c.arguments.len()) };
    match r.below(12) {
        0 => c.rule = r.from(1..=4) as i16,
        10 | 11 => {
            // another rule, with as many arguments as it takes
            c.rule = r.pick(&[1, 2, 3, 3, 3, 4]);
            c.arguments = (0..[0, r.from(1..=4), 2, 1][c.rule as usize - 1]).map(|_| r.from(1..=at.max(1)) as i16).collect();
        }
        1 => c.subformula = near(r, c.subformula, trace.subformulas.len()).min(trace.subformulas.len() as i16),
        2 => c.assumption = near(r, c.assumption, trace.assumptions.len()).min(trace.assumptions.len() as i16),
        3 | 4 if !c.arguments.is_empty() => c.arguments[argument] = near(r, c.arguments[argument], claims),
        5 if !c.arguments.is_empty() => {
            c.arguments.remove(argument);
        }
        6 => {
            let k = near(r, at as i16, claims);
            c.arguments.insert(argument, k);
        }
        7 if !c.arguments.is_empty() => {
            let again = c.arguments[argument];
            c.arguments.push(again);
        }
        8 => {
            let other = r.below(claims);
            trace.claims.swap(at, other);
        }
        _ => {
            trace.claims.remove(at);
        }
    }
}

/// One change to what the formula or the trace says; its form mostly stays right.
pub fn meaning(r: &mut Random, cnf: &mut Cnf, trace: &mut Trace) {
    match r.below(12) {
        0 if !cnf.clauses.is_empty() => {
            let i = r.below(cnf.clauses.len());
            list(r, &mut cnf.clauses[i], cnf.n, true);
        }
        1 | 2 if !trace.subformulas.is_empty() => {
            let i = r.below(trace.subformulas.len());
            list(r, &mut trace.subformulas[i], cnf.clauses.len(), false);
        }
        3 | 4 if !trace.assumptions.is_empty() => {
            let i = r.below(trace.assumptions.len());
            list(r, &mut trace.assumptions[i], cnf.n, true);
        }
        5..=7 if !trace.refutations.is_empty() => refutation(r, cnf, trace),
        _ if !trace.claims.is_empty() => claim(r, trace),
        _ => {}
    }
}

// ---- words

pub fn words(r: &mut Random, words: &mut Vec<i16>) {
    let at = r.below(words.len() + 1);
    let in_it = at < words.len();
    match r.below(9) {
        0 if in_it => words[at] = r.pick(&NEAR_LIMITS),
        1 if in_it => words[at] = words[at].wrapping_add(r.pick(&[1, -1, 2, 256, -256])),
        2 if in_it => words[at] = words[at].wrapping_neg(),
        3 if in_it => words[at] ^= 1 << r.below(16),
        4 if in_it => {
            words.remove(at);
        }
        5 => words.insert(at, r.pick(&NEAR_LIMITS)),
        6 => {
            let end = (at + r.from(1..=12)).min(words.len());
            let copy = words[at..end].to_vec();
            words.splice(at..at, copy);
        }
        7 if in_it => {
            let other = r.below(words.len());
            words.swap(at, other);
        }
        _ => words.truncate(at),
    }
}

// ---- texts

pub fn text(r: &mut Random, text: &mut Vec<u8>) {
    let at = r.below(text.len() + 1);
    let in_it = at < text.len();
    let tokens: [&[u8]; 26] = [
        b" 0 ",
        b" -0 ",
        b" 00 ",
        b" 01 ",
        b" 1 ",
        b" -1 ",
        b" 2 ",
        b" +1 ",
        b" - ",
        b" 100000 ",
        b" 99999 ",
        b" 512 ",
        b" 513 ",
        b" 1x ",
        b"\n",
        b"\nc 0\n",
        b"\n c\n",
        b"\nc",
        b"p",
        b"\np cnf 1 1\n",
        b" \x0b ",
        b" \x0c",
        b"\0",
        b" 1\xff",
        b"c",
        b"\r",
    ];
    match r.below(8) {
        0 if in_it => text[at] = r.pick(b"0123456789 -\n\t\rcpnf\x0bx+"),
        1 if in_it => text[at] = r.below(256) as u8,
        2 if in_it => {
            text.remove(at);
        }
        3 | 4 => {
            let token = r.pick(&tokens);
            text.splice(at..at, token.iter().copied());
        }
        5 => {
            let end = (at + r.from(1..=10)).min(text.len());
            let copy = text[at..end].to_vec();
            text.splice(at..at, copy);
        }
        6 => text.truncate(at),
        _ => text.extend(r.pick(&tokens)),
    }
}
