//! Shim of logos (hand-written). The longest match over the rules of the derive, ties by logos' priority. A character
//! at which no rule matches is one error token with `Error::default()`.
//! For the oracle, `inject` makes the next lexers give a fixed token list in place of lexing.
pub use automaton::Dfa;
pub use logos_derive::Logos;
use std::{any::Any, cell::RefCell, rc::Rc};

mod automaton;
mod pattern;

/// One `#[token]` or `#[regex]`, with what to do on its match.
pub struct Rule<T: Logos> {
    pub literal: bool,
    pub pattern: &'static str,
    pub action: for<'a, 's> fn(&'a mut Lexer<'s, T>) -> Result<T, T::Error>,
}

pub trait Logos: Sized + Clone + 'static {
    type Error: Default + Clone + 'static;
    fn rules() -> &'static [Rule<Self>];
    fn variants() -> &'static [Self];
    fn dfa() -> &'static Dfa;
    fn lexer(s: &str) -> Lexer<'_, Self> {
        Lexer::new(s)
    }
}

/// Ready tokens: each result with its length in bytes.
pub type Injected<T> = Vec<(Result<T, <T as Logos>::Error>, usize)>;

thread_local! {
    static INJECTED: RefCell<Option<Rc<dyn Any>>> = const { RefCell::new(None) };
}

/// Until called with None, each new lexer of this thread gives these tokens.
pub fn inject<T: Logos>(list: Option<Rc<Injected<T>>>) {
    INJECTED.set(list.map(|l| l as Rc<dyn Any>))
}

pub struct Lexer<'s, T: Logos> {
    src: &'s str,
    start: usize,
    end: usize,
    injected: Option<(Rc<Injected<T>>, usize)>,
    dfa: &'static Dfa,
}

impl<T: Logos> Clone for Lexer<'_, T> {
    fn clone(&self) -> Self {
        Lexer { injected: self.injected.clone(), ..*self }
    }
}

impl<T: Logos> std::fmt::Debug for Lexer<'_, T> {
    fn fmt(&self, f: &mut std::fmt::Formatter<'_>) -> std::fmt::Result {
        write!(f, "Lexer({}..{})", self.start, self.end)
    }
}

impl<'s, T: Logos> Lexer<'s, T> {
    pub fn new(src: &'s str) -> Self {
        let list = INJECTED.with_borrow(|i| i.clone()).and_then(|r| r.downcast::<Injected<T>>().ok());
        Lexer { src, start: 0, end: 0, injected: list.map(|r| (r, 0)), dfa: T::dfa() }
    }
    pub fn remainder(&self) -> &'s str {
        &self.src[self.end..]
    }
    pub fn slice(&self) -> &'s str {
        &self.src[self.start..self.end]
    }
    pub fn span(&self) -> std::ops::Range<usize> {
        self.start..self.end
    }
    pub fn bump(&mut self, n: usize) {
        self.end += n;
        assert!(self.src.is_char_boundary(self.end), "Invalid Lexer bump")
    }
}

impl<T: Logos> Iterator for Lexer<'_, T> {
    type Item = Result<T, T::Error>;
    fn next(&mut self) -> Option<Self::Item> {
        self.start = self.end;
        if let Some((list, at)) = &mut self.injected {
            let (token, length) = list.get(*at)?;
            *at += 1;
            self.end += *length;
            return Some(token.clone());
        }
        let first = self.src[self.start..].chars().next()?;
        match self.dfa.longest(&self.src.as_bytes()[self.start..]) {
            Some((rule, length)) => {
                self.end += length;
                Some((T::rules()[rule].action)(self))
            }
            None => {
                self.end += first.len_utf8();
                Some(Err(T::Error::default()))
            }
        }
    }
}
