//! Every expression of a few operators, in brackets: operands are a digit each, with a prefix operator or without. The
//! library is compared with the Rust, and the Rust's tree with the one that request 3/14's powers give (levels.rs).
use crate::call::Call;
use crate::judge::Judge;
use crate::levels::{joined, operators, power};
use crate::show;
use dt_parser_layout::{
    CLASS_LEAF, CLASS_NODE, COL_TREE_CLASS, COL_TREE_COUNT, COL_TREE_KIND, COL_TREE_PARENT, COL_TREE_WIDTH,
    ENTRY_CELLS, ROW_TREE, SETTING_OLD, TREES,
};
use oracle::parsed::NodeKind;
use oracle::token::TokenKind::{self, *};
use oracle::token::fixed_text;

const PREFIXES: [TokenKind; 4] = [Plus, Minus, BitwiseNot, LogicalNot];

/// Tree rows of a leaf, or of a node with all below it. They are numbered from the first, whose parent is 0 yet.
struct Part {
    rows: Vec<u32>,
    width: u32,
}

fn row(class: u32, kind: u32, width: u32, count: u32) -> Vec<u32> {
    let mut row = vec![0; ROW_TREE];
    row[COL_TREE_CLASS] = class;
    row[COL_TREE_KIND] = kind;
    row[COL_TREE_WIDTH] = width;
    row[COL_TREE_COUNT] = count;
    row
}

fn text(kind: TokenKind) -> &'static str {
    if kind == Number { "1" } else { fixed_text(kind as u32).expect("all others have one") }
}

fn leaf(kind: TokenKind) -> Part {
    let width = text(kind).len() as u32;
    Part { rows: row(CLASS_LEAF, kind as u32, width, 1), width }
}

fn node(kind: NodeKind, parts: Vec<Part>) -> Part {
    let width = parts.iter().map(|p| p.width).sum();
    let mut rows = row(CLASS_NODE, kind as u32, width, parts.len() as u32);
    for mut part in parts {
        // its first row names this node, and all others move with it
        let first = (rows.len() / ROW_TREE) as u32;
        part.rows.chunks_exact_mut(ROW_TREE).skip(1).for_each(|row| row[COL_TREE_PARENT] += first);
        rows.extend(part.rows)
    }
    Part { rows, width }
}

/// An expression: its operators, and the prefix of each operand, one more than these.
struct Expression {
    operators: Vec<TokenKind>,
    prefixes: Vec<Option<TokenKind>>,
}

impl Expression {
    /// The one with that number, whose digits are operators and then, for each operand, whether it has a prefix.
    fn number(mut number: usize, count: usize, all: &[TokenKind]) -> Expression {
        let mut digit = |base| {
            let digit = number % base;
            number /= base;
            digit
        };
        let operators = (0..count).map(|_| all[digit(all.len())]).collect();
        let prefixes = (0..=count).map(|i| (digit(2) == 1).then_some(PREFIXES[i % PREFIXES.len()])).collect();
        Expression { operators, prefixes }
    }

    fn call(&self) -> Call {
        let mut kinds = vec![LParen];
        for (i, prefix) in self.prefixes.iter().enumerate() {
            kinds.extend(prefix);
            kinds.push(Number);
            match self.operators.get(i) {
                Some(QuestionMark) => kinds.extend([QuestionMark, Number, Colon]),
                operator => kinds.extend(operator),
            }
        }
        kinds.push(RParen);
        let mut call = Call { entry: ENTRY_CELLS, ..Call::default() };
        for kind in kinds {
            call.tokens.extend([kind as u32, text(kind).len() as u32]);
            call.bytes.extend_from_slice(text(kind).as_bytes())
        }
        call
    }

    /// The tree rows that the powers give it.
    fn rows(&self) -> Vec<u32> {
        let digit = || node(NodeKind::LiteralExpr, vec![leaf(Number)]);
        // a prefix, 23, pulls harder than any operator after its operand
        let operand = |prefix: &Option<TokenKind>| match prefix {
            Some(prefix) => node(NodeKind::PrefixExpr, vec![leaf(*prefix), digit()]),
            None => digit(),
        };
        let join = |left, operator, right| match operator {
            QuestionMark => node(NodeKind::InfixExpr, vec![left, leaf(QuestionMark), digit(), leaf(Colon), right]),
            _ => node(NodeKind::InfixExpr, vec![left, leaf(operator), right]),
        };
        let operands = self.prefixes.iter().map(operand).collect();
        let whole = joined(operands, self.operators.clone(), power, join).expect("no two pull equally hard");
        let cell = node(NodeKind::DtExpr, vec![leaf(LParen), whole, leaf(RParen)]);
        node(NodeKind::EntryCells, vec![cell]).rows
    }
}

/// True if nothing differed.
pub fn run(most: u32) -> bool {
    let (mut judge, mut calls, all) = (Judge::default(), 0u64, operators());
    for count in 0..=most as usize {
        for number in 0..all.len().pow(count as u32) << (count + 1) {
            let expression = Expression::number(number, count, &all);
            let mut call = expression.call();
            if !agrees(&mut judge, &expression, &mut call) {
                println!("expression {calls} differs");
                show::both(&mut judge, &call);
                println!("by levels:");
                show::rows(TREES, &expression.rows());
                return false;
            }
            calls += 1
        }
    }
    println!("every expression of up to {most} of {} operators: {calls} calls, no difference", all.len());
    true
}

/// Library, Rust and levels give one tree, in buffers that just fit.
fn agrees(judge: &mut Judge, expression: &Expression, call: &mut Call) -> bool {
    let Ok((input, _)) = judge.input(call, false) else { return false };
    call.lengths = judge.needs(SETTING_OLD);
    let same = judge.call(call, input, 0x5A5A5A59).wrong.is_none();
    same && judge.rows(SETTING_OLD)[TREES] == expression.rows()
}
