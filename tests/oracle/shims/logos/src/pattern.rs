//! The patterns that lexer.rs has, read as they are written: classes, sequences, alternations, `*`, `+`, `?` and
//! groups. Over bytes: those of 128 and above belong to every negated class, which is exact for the patterns of
//! lexer.rs.

pub type Class = [bool; 256];

pub enum Pattern {
    /// The bytes that match, and whether it was written as a single character.
    Class(Box<Class>, bool),
    Cat(Vec<Pattern>),
    Alt(Vec<Pattern>),
    Star(Box<Pattern>),
    Plus(Box<Pattern>),
    Opt(Box<Pattern>),
}

impl Pattern {
    pub fn literal(text: &str) -> Pattern {
        Pattern::Cat(text.bytes().map(one).collect())
    }

    pub fn regex(text: &str) -> Pattern {
        let mut r = Reader { text: text.as_bytes(), at: 0 };
        let pattern = r.alternation();
        assert_eq!(r.at, text.len());
        pattern
    }

    /// logos' priority: a literal byte 2, a class 1, a star or option 0, an alternation its least.
    pub fn priority(&self) -> usize {
        match self {
            Pattern::Class(_, single) => 1 + *single as usize,
            Pattern::Cat(v) => v.iter().map(Pattern::priority).sum(),
            Pattern::Alt(v) => v.iter().map(Pattern::priority).min().unwrap(),
            Pattern::Plus(p) => p.priority(),
            Pattern::Star(_) | Pattern::Opt(_) => 0,
        }
    }
}

fn one(b: u8) -> Pattern {
    let mut c = [false; 256];
    c[b as usize] = true;
    Pattern::Class(Box::new(c), true)
}

struct Reader<'s> {
    text: &'s [u8],
    at: usize,
}

impl Reader<'_> {
    fn peek(&self) -> Option<u8> {
        self.text.get(self.at).copied()
    }
    fn take(&mut self) -> u8 {
        self.at += 1;
        self.text[self.at - 1]
    }
    fn eat(&mut self, b: u8) -> bool {
        let found = self.peek() == Some(b);
        self.at += found as usize;
        found
    }

    fn alternation(&mut self) -> Pattern {
        let mut alts = vec![self.sequence()];
        while self.eat(b'|') {
            alts.push(self.sequence())
        }
        if alts.len() == 1 { alts.pop().unwrap() } else { Pattern::Alt(alts) }
    }

    fn sequence(&mut self) -> Pattern {
        let mut v = vec![];
        while self.peek().is_some_and(|b| b != b'|' && b != b')') {
            v.push(self.repeated())
        }
        if v.len() == 1 { v.pop().unwrap() } else { Pattern::Cat(v) }
    }

    /// An atom with what repeats it. A lazy `*?` or `+?` is read as `*` or `+`: the longest match wins all the same.
    fn repeated(&mut self) -> Pattern {
        let mut p = self.atom();
        loop {
            p = match self.peek() {
                Some(b'*') => Pattern::Star(Box::new(p)),
                Some(b'+') => Pattern::Plus(Box::new(p)),
                Some(b'?') => Pattern::Opt(Box::new(p)),
                _ => return p,
            };
            self.at += 1;
            if matches!(p, Pattern::Star(_) | Pattern::Plus(_)) {
                self.eat(b'?');
            }
        }
    }

    fn atom(&mut self) -> Pattern {
        match self.take() {
            b'(' => {
                let p = self.alternation();
                assert!(self.eat(b')'));
                p
            }
            b'[' => self.class(),
            b'\\' => one(self.escaped()),
            b => {
                assert!(!b".^$+*?".contains(&b));
                one(b)
            }
        }
    }

    /// What a backslash stands before.
    fn escaped(&mut self) -> u8 {
        match self.take() {
            b'n' => b'\n',
            b'r' => b'\r',
            b't' => b'\t',
            b => {
                assert!(!b.is_ascii_alphanumeric());
                b
            }
        }
    }

    fn class_byte(&mut self) -> u8 {
        if self.eat(b'\\') { self.escaped() } else { self.take() }
    }

    fn class(&mut self) -> Pattern {
        let negated = self.eat(b'^');
        let mut c = [negated; 256];
        while !self.eat(b']') {
            let low = self.class_byte();
            let range = self.peek() == Some(b'-') && self.text[self.at + 1] != b']';
            let high = if range {
                self.at += 1;
                self.class_byte()
            } else {
                low
            };
            for b in low..=high {
                c[b as usize] = !negated
            }
        }
        Pattern::Class(Box::new(c), false)
    }
}
