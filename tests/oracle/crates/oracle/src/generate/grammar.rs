//! Random token lists that follow the grammar, more or less: what people write.
use super::{Rng, SAMPLES, Toks};
use dt_tools_parser::lexer::TokenKind::{self, *};

const DIRECTIVES: &[TokenKind] = &[PragmaDirective, DefineDirective, UndefDirective, IncludeDirective, ErrorDirective];
const INFIX: &[TokenKind] = &[
    Plus,
    Minus,
    Asterisk,
    Slash,
    Modulo,
    Ampersand,
    BitwiseOr,
    BitwiseXor,
    BitwiseShl,
    BitwiseShr,
    LogicalAnd,
    LogicalOr,
    LAngle,
    RAngle,
    RelationalLtEq,
    RelationalGtEq,
    RelationalEq,
    RelationalNeq,
];

/// What stands inside a conditional.
#[derive(Clone, Copy)]
enum Inside {
    Items,
    Values,
    Cells,
}

/// A token list for an entry.
pub fn tokens(r: &mut Rng, entry: u32) -> Toks {
    let mut w = Writer { r, toks: vec![], depth: 0 };
    match entry {
        1 => w.times(5, Writer::item),
        2 => w.reference_noamp(),
        3 => w.values(),
        _ => w.cells(),
    }
    w.toks
}

struct Writer<'r> {
    r: &'r mut Rng,
    toks: Toks,
    depth: usize,
}

impl Writer<'_> {
    /// A token of this kind with one of its sample texts.
    fn k(&mut self, kind: TokenKind) {
        let texts: Vec<_> = SAMPLES.iter().filter(|x| x.0 == kind as u32).collect();
        let (kind, text) = *self.r.pick(&texts);
        self.toks.push((kind, text.to_string()))
    }
    fn any(&mut self, kinds: &[TokenKind]) {
        let k = self.r.pick(kinds);
        self.k(k)
    }
    fn all(&mut self, kinds: &[TokenKind]) {
        for &k in kinds {
            self.k(k)
        }
    }
    fn blank(&mut self, text: &str) {
        self.toks.push((Whitespace as u32, text.to_string()))
    }
    /// Fewer than `below` times.
    fn times(&mut self, below: usize, f: fn(&mut Self)) {
        for _ in 0..self.r.n(below) {
            f(self)
        }
    }

    fn trivia(&mut self) {
        if self.r.p(25) {
            let k = self.r.pick(&[Whitespace, Whitespace, Whitespace, BlockComment, LineComment]);
            self.k(k);
            if k == LineComment {
                self.blank("\n")
            }
        }
    }

    fn name(&mut self) {
        for i in 0..1 + self.r.n(3) {
            if i % 2 == 0 { self.any(&[Ident, Ident, Ident, Number]) } else { self.any(&[Comma, Minus]) }
        }
    }

    /// A name that may be a macro with arguments.
    fn macro_name(&mut self) {
        if self.r.p(12) { self.invocation(true) } else { self.name() }
    }

    fn unit_address(&mut self) {
        if !self.r.p(30) {
            return;
        }
        if self.r.p(8) {
            self.trivia()
        }
        self.k(AtSign);
        if self.r.p(8) {
            self.trivia()
        }
        self.macro_name()
    }

    fn invocation(&mut self, with_arguments: bool) {
        self.k(Ident);
        if !with_arguments && !self.r.p(30) {
            return;
        }
        self.k(LParen);
        for i in 0..self.r.n(4) {
            if i > 0 {
                self.k(Comma)
            }
            self.argument()
        }
        self.k(RParen)
    }

    fn argument(&mut self) {
        if self.r.p(20) {
            self.all(&[LParen, Number]);
            if self.r.p(50) {
                self.all(&[Comma, Ident])
            }
            self.k(RParen)
        } else {
            self.any(&[Number, Ident, String, Plus, Ampersand, LAngle, Semicolon])
        }
        self.trivia()
    }

    fn reference(&mut self) {
        self.k(Ampersand);
        self.reference_noamp()
    }

    fn reference_noamp(&mut self) {
        match self.r.n(5) {
            0 => {
                self.all(&[LCurly, Slash]);
                if self.r.p(80) {
                    self.name();
                    self.unit_address();
                    self.times(3, Self::path_segment)
                }
                self.k(RCurly)
            }
            1 => {
                self.k(LCurly);
                self.name();
                self.times(3, Self::path_segment);
                self.k(RCurly)
            }
            2 => self.invocation(true),
            _ => {
                self.k(Ident);
                if self.r.p(20) {
                    self.k(Number)
                }
            }
        }
    }

    fn path_segment(&mut self) {
        self.k(Slash);
        self.name();
        self.unit_address()
    }

    fn expr(&mut self, depth: usize) {
        self.trivia();
        match self.r.n(if depth == 0 { 3 } else { 9 }) {
            0 | 1 => self.any(&[Number, Number, Char]),
            2 => self.invocation(false),
            3 => {
                self.any(&[Plus, Minus, BitwiseNot, LogicalNot]);
                self.expr(depth - 1)
            }
            4 => {
                self.k(LParen);
                self.expr(depth - 1);
                self.k(RParen)
            }
            5 => {
                self.expr(depth - 1);
                self.k(QuestionMark);
                self.expr(depth - 1);
                self.k(Colon);
                self.expr(depth - 1)
            }
            _ => {
                self.expr(depth - 1);
                self.trivia();
                self.any(INFIX);
                self.expr(depth - 1)
            }
        }
        self.trivia()
    }

    /// A plain directive on its line, or an include.
    fn directive(&mut self) {
        if self.r.p(50) {
            self.any(DIRECTIVES);
            self.blank("\n")
        } else {
            self.k(DtIncludeDirective);
            self.trivia();
            self.k(String)
        }
    }

    fn cell(&mut self) {
        self.trivia();
        match self.r.n(12) {
            0..4 => self.k(Number),
            4 => return self.k(Char),
            5 => self.invocation(false),
            6 | 7 => self.reference(),
            8..10 => {
                self.k(LParen);
                let depth = self.r.n(4);
                self.expr(depth);
                return self.k(RParen);
            }
            10 => return self.directive(),
            _ if self.depth < 4 => return self.conditional(Inside::Cells),
            _ => self.k(Number),
        }
        self.blank(" ")
    }

    fn cells(&mut self) {
        self.times(5, Self::cell)
    }

    fn cell_list(&mut self) {
        self.k(LAngle);
        self.cells();
        self.k(RAngle)
    }

    fn value(&mut self) {
        self.trivia();
        match self.r.n(12) {
            0..2 => self.k(String),
            2..6 => self.cell_list(),
            6 => {
                self.k(BitsDirective);
                self.trivia();
                self.k(Number);
                self.blank(" ");
                self.cell_list()
            }
            7 => self.reference(),
            8 => self.invocation(false),
            9 => self.k(DtBytestring),
            10 => self.directive(),
            _ if self.depth < 4 => self.conditional(Inside::Values),
            _ => self.k(String),
        }
        self.trivia()
    }

    fn values(&mut self) {
        for i in 0..1 + self.r.n(3) {
            if i > 0 && self.r.p(95) {
                self.k(Comma)
            }
            self.value()
        }
        if self.r.p(4) {
            self.k(Comma)
        }
    }

    fn conditional(&mut self, what: Inside) {
        self.depth += 1;
        self.any(&[IfDirective, IfdefDirective, IfndefDirective]);
        self.blank("\n");
        self.inside(what);
        for _ in 0..self.r.n(2) {
            self.any(&[ElifDirective, ElifdefDirective, ElifndefDirective, ElseDirective, ElseDirective]);
            self.blank("\n");
            self.inside(what)
        }
        if self.r.p(95) {
            self.k(EndifDirective);
            self.blank("\n")
        }
        self.depth -= 1
    }

    fn inside(&mut self, what: Inside) {
        match what {
            Inside::Items => self.times(3, Self::item),
            Inside::Values if self.r.p(80) => self.values(),
            Inside::Values => {}
            Inside::Cells => self.cells(),
        }
    }

    /// Up to two labels; one of a node may wrongly have a unit address.
    fn labels(&mut self, of_node: bool) {
        for _ in 0..self.r.pick(&[0, 0, 0, 1, 2]) {
            self.macro_name();
            if of_node && self.r.p(4) {
                self.unit_address()
            }
            self.k(Colon);
            self.trivia()
        }
    }

    fn property(&mut self) {
        self.labels(false);
        self.macro_name();
        if self.r.p(70) {
            self.trivia();
            self.k(Equals);
            self.values()
        }
        self.k(Semicolon)
    }

    fn node(&mut self) {
        if self.r.p(5) {
            self.k(OmitIfNoRefDirective);
            self.trivia()
        }
        self.labels(true);
        match self.r.n(6) {
            0 => self.k(Slash),
            1 => self.reference(),
            _ => {
                self.macro_name();
                self.unit_address()
            }
        }
        self.trivia();
        self.k(LCurly);
        self.times(4, Self::item);
        self.trivia();
        self.all(&[RCurly, Semicolon])
    }

    fn delete(&mut self) {
        self.any(&[DeleteNodeDirective, DeletePropertyDirective]);
        self.trivia();
        if self.r.p(40) {
            self.reference()
        } else {
            self.macro_name();
            self.unit_address()
        }
        self.k(Semicolon)
    }

    fn memreserve(&mut self) {
        self.k(MemreserveDirective);
        self.trivia();
        self.k(Number);
        self.blank(" ");
        self.all(&[Number, Semicolon])
    }

    fn item(&mut self) {
        self.trivia();
        self.depth += 1;
        match self.r.n(20) {
            0..8 => self.property(),
            8..13 if self.depth < 5 => self.node(),
            13 => {
                self.any(&[V1Directive, PluginDirective]);
                self.k(Semicolon)
            }
            14 | 18 => self.directive(),
            15 => self.memreserve(),
            16 => self.delete(),
            17 if self.depth < 5 => self.conditional(Inside::Items),
            _ => {
                self.name();
                self.k(Semicolon)
            }
        }
        self.depth -= 1;
        self.trivia()
    }
}
