//! Formulas and traces as they are thought of, and the words that say them.

#[derive(Clone, Default, Debug)]
pub struct Cnf {
    pub n: usize,
    pub clauses: Vec<Vec<i16>>,
}

/// Kind and number.
pub type Citation = (i16, i16);

#[derive(Clone, Debug)]
pub struct Step {
    pub pivot: i16,
    pub left: Citation,
    pub right: Citation,
    pub resolvent: Vec<i16>,
}

#[derive(Clone, Debug)]
pub struct Refutation {
    pub steps: Vec<Step>,
    pub closing: Citation,
}

#[derive(Clone, Debug)]
pub struct Claim {
    pub rule: i16,
    pub subformula: i16,
    pub assumption: i16,
    pub arguments: Vec<i16>,
}

#[derive(Clone, Default, Debug)]
pub struct Trace {
    pub subformulas: Vec<Vec<i16>>,
    pub assumptions: Vec<Vec<i16>>,
    pub refutations: Vec<Refutation>,
    pub claims: Vec<Claim>,
}

fn put_list(words: &mut Vec<i16>, list: &[i16]) {
    words.push(list.len() as i16);
    words.extend(list);
}

impl Cnf {
    pub fn clause(&self, number: i16) -> &[i16] {
        &self.clauses[number as usize - 1]
    }

    pub fn words(&self) -> Vec<i16> {
        let mut words = vec![self.n as i16, self.clauses.len() as i16];
        self.clauses.iter().for_each(|c| put_list(&mut words, c));
        words
    }
}

impl Refutation {
    pub fn words(&self) -> Vec<i16> {
        let mut words = vec![self.steps.len() as i16];
        for s in &self.steps {
            words.extend([s.pivot, s.left.0, s.left.1, s.right.0, s.right.1]);
            put_list(&mut words, &s.resolvent);
        }
        words.extend([self.closing.0, self.closing.1]);
        words
    }
}

impl Trace {
    pub fn words(&self) -> Vec<i16> {
        let mut words = vec![1];
        for lists in [&self.subformulas, &self.assumptions] {
            words.push(lists.len() as i16);
            lists.iter().for_each(|l| put_list(&mut words, l));
        }
        words.push(self.refutations.len() as i16);
        self.refutations.iter().for_each(|r| words.extend(r.words()));
        words.push(self.claims.len() as i16);
        for c in &self.claims {
            words.extend([c.rule, c.subformula, c.assumption]);
            put_list(&mut words, &c.arguments);
        }
        words
    }
}
