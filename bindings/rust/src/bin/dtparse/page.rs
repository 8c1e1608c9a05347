//! What the parts of the text for people are made from.

use crate::lines::Lines;
use crate::style::Style;
use dt_parser::Parse;

pub struct Page<'p> {
    /// The text's name, for positions.
    pub name: &'p str,
    pub lines: &'p Lines<'p>,
    pub parse: &'p Parse<'p>,
    pub style: Style,
}
