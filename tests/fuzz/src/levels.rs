//! Request 3/14 of document 02, binding powers by level, as a plain reading of its words. It shares nothing with the
//! definitions, and it is not expr.rs' way either: there is no minimum that goes down into an operand. An operand
//! between two operators goes to the one that pulls harder.
//!
//! "Number the binary levels 1 to 10 from || to multiplication and work out left as 2 × level + 1 and right as 2 ×
//! level + 2; the ternary keeps 2 and 1. No answer changes."
use oracle::token::TokenKind::{self, *};

/// From || to multiplication.
#[rustfmt::skip]
const LEVELS: [&[TokenKind]; 10] = [
    &[LogicalOr], &[LogicalAnd], &[BitwiseOr], &[BitwiseXor], &[Ampersand], &[RelationalEq, RelationalNeq],
    &[LAngle, RAngle, RelationalLtEq, RelationalGtEq], &[BitwiseShl, BitwiseShr], &[Plus, Minus],
    &[Asterisk, Slash, Modulo],
];

/// How hard an operator pulls at what stands to its left and to its right.
#[derive(Clone, Copy)]
pub struct Power {
    left: usize,
    right: usize,
}

/// Of an infix operator; `QuestionMark` is the ternary.
pub fn power(operator: TokenKind) -> Power {
    if operator == QuestionMark {
        return Power { left: 2, right: 1 };
    }
    let level = 1 + LEVELS.iter().position(|l| l.contains(&operator)).expect("an infix operator");
    Power { left: 2 * level + 1, right: 2 * level + 2 }
}

/// All infix operators.
pub fn operators() -> Vec<TokenKind> {
    LEVELS.concat().into_iter().chain([QuestionMark]).collect()
}

/// Operands with operators between them, put together: an operator takes its two operands once it wins both. None if
/// two pull equally hard.
pub fn joined<T>(
    mut operands: Vec<T>,
    mut operators: Vec<TokenKind>,
    power: impl Fn(TokenKind) -> Power,
    join: impl Fn(T, TokenKind, T) -> T,
) -> Option<T> {
    while !operators.is_empty() {
        let wins = |&i: &usize| {
            let own = power(operators[i]);
            let left = i == 0 || power(operators[i - 1]).right < own.left;
            left && operators.get(i + 1).is_none_or(|&next| power(next).left < own.right)
        };
        let i = (0..operators.len()).find(wins)?;
        let (operator, right) = (operators.remove(i), operands.remove(i + 1));
        let left = operands.remove(i);
        operands.insert(i, join(left, operator, right))
    }
    operands.pop()
}

#[cfg(test)]
mod tests {
    use super::*;
    use oracle::token::fixed_text;
    use std::string::String;

    /// Operands 1, 2, .. with these operators, in brackets as they are grouped; the ternary's own operand is 0.
    fn grouped(operators: &[TokenKind], power: impl Fn(TokenKind) -> Power) -> Option<String> {
        let operands = (1..=operators.len() + 1).map(|n| n.to_string()).collect();
        joined(operands, operators.to_vec(), power, |a, op, b| {
            let middle = if op == QuestionMark { "0:" } else { "" };
            format!("({a}{}{middle}{b})", fixed_text(op as u32).expect("an operator has one"))
        })
    }

    #[test]
    fn a_higher_level_binds_tighter_and_one_level_groups_from_the_left() {
        let cases: [(&[TokenKind], &str); 5] = [
            (&[Plus, Asterisk], "(1+(2*3))"),
            (&[Minus, Plus, Minus], "(((1-2)+3)-4)"),
            (&[BitwiseOr, Ampersand, BitwiseOr], "((1|(2&3))|4)"),
            (&[LogicalOr, LogicalAnd, LogicalOr], "((1||(2&&3))||4)"),
            (&[BitwiseShl, Plus, RelationalEq, LAngle], "((1<<(2+3))==(4<5))"),
        ];
        for (operators, tree) in cases {
            assert_eq!(grouped(operators, power).as_deref(), Some(tree))
        }
    }

    #[test]
    fn the_ternary_is_the_lowest_and_groups_from_the_right() {
        assert_eq!(grouped(&[QuestionMark, QuestionMark], power).as_deref(), Some("(1?0:(2?0:3))"));
        assert_eq!(grouped(&[LogicalOr, QuestionMark, LogicalOr], power).as_deref(), Some("((1||2)?0:(3||4))"));
    }

    /// Each of these gives another tree, or none.
    #[test]
    fn wrong_powers_are_noticed() {
        let both_two = |op| Power { left: power(op).right, ..power(op) };
        assert_eq!(grouped(&[Minus, Minus], both_two), None);
        let exchanged = |op| match op {
            Ampersand => power(BitwiseOr),
            BitwiseOr => power(Ampersand),
            _ => power(op),
        };
        assert_eq!(grouped(&[BitwiseOr, Ampersand], exchanged).as_deref(), Some("((1|2)&3)"));
        let level_zero = |op| if op == QuestionMark { Power { left: 1, right: 2 } } else { power(op) };
        assert_eq!(grouped(&[QuestionMark, QuestionMark], level_zero).as_deref(), Some("((1?0:2)?0:3)"));
    }
}
