//! The automaton that runs the rules: by way of a nondeterministic one, a table of states.
use crate::pattern::{Class, Pattern};
use crate::{Logos, Rule};
use std::collections::{BTreeSet, HashMap};

/// A state has free steps, and at most one step on a class of bytes.
#[derive(Default)]
struct Nfa {
    free: Vec<Vec<usize>>,
    step: Vec<Option<(Class, usize)>>,
    /// The rule that ends in a state.
    rule: HashMap<usize, usize>,
}

type States = BTreeSet<usize>;

impl Nfa {
    fn state(&mut self) -> usize {
        self.free.push(vec![]);
        self.step.push(None);
        self.free.len() - 1
    }
    fn link(&mut self, from: usize, to: usize) {
        self.free[from].push(to)
    }

    /// Adds a pattern that starts in a state, and gives the state where it ends.
    fn add(&mut self, p: &Pattern, start: usize) -> usize {
        if let Pattern::Cat(v) = p {
            return v.iter().fold(start, |s, p| self.add(p, s));
        }
        let (begin, end) = (self.state(), self.state());
        self.link(start, begin);
        match p {
            Pattern::Class(c, _) => self.step[begin] = Some((**c, end)),
            Pattern::Alt(v) => {
                for p in v {
                    let e = self.add(p, begin);
                    self.link(e, end)
                }
            }
            Pattern::Star(p) | Pattern::Plus(p) | Pattern::Opt(p) => {
                let e = self.add(p, begin);
                self.link(e, end)
            }
            Pattern::Cat(_) => unreachable!(),
        }
        if matches!(p, Pattern::Star(_) | Pattern::Opt(_)) {
            self.link(begin, end)
        }
        if matches!(p, Pattern::Star(_) | Pattern::Plus(_)) {
            self.link(end, begin)
        }
        end
    }

    /// All states that free steps lead to.
    fn closed(&self, from: impl IntoIterator<Item = usize>) -> States {
        let mut todo: Vec<usize> = from.into_iter().collect();
        let mut seen = States::new();
        while let Some(s) = todo.pop() {
            if seen.insert(s) {
                todo.extend(&self.free[s])
            }
        }
        seen
    }

    fn after(&self, states: &States, b: usize) -> States {
        let to = |s: &usize| self.step[*s].as_ref().filter(|(class, _)| class[b]).map(|(_, e)| *e);
        self.closed(states.iter().filter_map(to))
    }
}

/// State 0 is dead, 1 is the first.
pub struct Dfa {
    next: Vec<[u16; 256]>,
    accept: Vec<Option<u16>>,
}

impl Dfa {
    pub fn build<T: Logos>(rules: &[Rule<T>]) -> Dfa {
        let mut nfa = Nfa::default();
        let root = nfa.state();
        let mut priority = vec![];
        for (k, r) in rules.iter().enumerate() {
            let p = if r.literal { Pattern::literal(r.pattern) } else { Pattern::regex(r.pattern) };
            priority.push(p.priority());
            let end = nfa.add(&p, root);
            nfa.rule.insert(end, k);
        }
        Dfa::determined(&nfa, nfa.closed([root]), &priority)
    }

    fn determined(nfa: &Nfa, first: States, priority: &[usize]) -> Dfa {
        let mut numbers = HashMap::from([(States::new(), 0), (first.clone(), 1)]);
        let mut sets = vec![States::new(), first];
        let (mut next, mut accept) = (vec![], vec![]);
        while next.len() < sets.len() {
            let now = sets[next.len()].clone();
            let row = std::array::from_fn(|b| {
                let to = nfa.after(&now, b);
                *numbers.entry(to.clone()).or_insert_with(|| {
                    sets.push(to);
                    (sets.len() - 1) as u16
                })
            });
            next.push(row);
            accept.push(Dfa::winner(nfa, &now, priority));
        }
        Dfa { next, accept }
    }

    /// The rule of highest priority that ends here. Two rules of the same priority never end in one state.
    fn winner(nfa: &Nfa, states: &States, priority: &[usize]) -> Option<u16> {
        let ending: Vec<usize> = states.iter().filter_map(|s| nfa.rule.get(s).copied()).collect();
        let best = *ending.iter().max_by_key(|&&k| priority[k])?;
        assert!(ending.iter().all(|&k| k == best || priority[k] < priority[best]), "rules of the same priority");
        Some(best as u16)
    }

    /// The rule with the longest match at the start of the text, and the match's length.
    pub(crate) fn longest(&self, text: &[u8]) -> Option<(usize, usize)> {
        let (mut state, mut best) = (1, None);
        for (i, &b) in text.iter().enumerate() {
            state = self.next[state as usize][b as usize];
            if state == 0 {
                break;
            }
            if let Some(k) = self.accept[state as usize] {
                best = Some((k as usize, i + 1))
            }
        }
        best
    }
}
