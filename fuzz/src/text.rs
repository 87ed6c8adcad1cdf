//! The reader of DIMACS text, written from document 01 alone.

/// The formula words of a text for a room of so many places, or refusal number and place.
pub fn read(text: &[u8], room: usize) -> Result<Vec<i16>, (u64, u64)> {
    if text.len() > 65535 {
        return Err((1, 65535));
    }
    let mut lines = lines(text).into_iter();
    let Some((start, first)) = lines.next() else {
        return Err((2, text.len() as u64));
    };
    let (n, m) = header(first).ok_or((2, start as u64))?;
    let mut clauses: Vec<Vec<i16>> = vec![];
    let mut open: Vec<i16> = vec![];
    for (place, token) in lines.flat_map(|(start, line)| tokens(start, line)) {
        let fault = |number| Err((number, place as u64));
        let Some(value) = number(token) else {
            return fault(3);
        };
        if clauses.len() == m {
            return fault(6);
        }
        if value.unsigned_abs() as usize > n {
            return fault(4);
        }
        if value == 0 {
            open.sort_by_key(|l| l.abs());
            clauses.push(std::mem::take(&mut open));
        } else if open.len() == 64 || open.iter().any(|l| i32::from(l.abs()) == value.abs()) {
            return fault(5);
        } else {
            open.push(value as i16);
        }
    }
    if clauses.len() < m {
        return Err((6, text.len() as u64));
    }
    let mut words = vec![n as i16, m as i16];
    for clause in clauses {
        words.push(clause.len() as i16);
        words.extend(clause);
    }
    if words.len() > room.min(32767) {
        return Err((7, text.len() as u64));
    }
    Ok(words)
}

fn blank(b: u8) -> bool {
    matches!(b, b' ' | b'\t' | b'\r')
}

/// The lines that are neither comments nor blank, each with the place where it begins.
fn lines(text: &[u8]) -> Vec<(usize, &[u8])> {
    let mut at = 0;
    let mut kept = vec![];
    for line in text.split(|&b| b == b'\n') {
        if line.first() != Some(&b'c') && !line.iter().all(|&b| blank(b)) {
            kept.push((at, line));
        }
        at += line.len() + 1;
    }
    kept
}

fn tokens(start: usize, line: &[u8]) -> Vec<(usize, &[u8])> {
    let mut at = start;
    let mut found = vec![];
    for token in line.split(|&b| blank(b)) {
        if !token.is_empty() {
            found.push((at, token));
        }
        at += token.len() + 1;
    }
    found
}

fn number(token: &[u8]) -> Option<i32> {
    let (minus, digits) = match token {
        [b'-', rest @ ..] => (true, rest),
        _ => (false, token),
    };
    match digits {
        [b'0'] if !minus => Some(0),
        [b'1'..=b'9', rest @ ..] if rest.len() <= 4 && rest.iter().all(u8::is_ascii_digit) => {
            let value = digits.iter().fold(0, |v, d| 10 * v + i32::from(d - b'0'));
            Some(if minus { -value } else { value })
        }
        _ => None,
    }
}

fn header(line: &[u8]) -> Option<(usize, usize)> {
    let parts: Vec<&[u8]> = tokens(0, line).into_iter().map(|(_, t)| t).collect();
    let size = |token, most| number(token).filter(|v| (0..=most).contains(v)).map(|v| v as usize);
    match parts[..] {
        [b"p", b"cnf", n, m] if line[0] == b'p' && n[0] != b'-' && m[0] != b'-' => Some((size(n, 512)?, size(m, 2048)?)),
        _ => None,
    }
}
