//! Hand-written: the type that the crate root of dt-tools declares and the Rust files use.

/// Byte range in the source text.
#[derive(Debug, Clone, Copy, PartialEq, Eq, Hash)]
pub struct TextRange {
    pub start: usize,
    pub end: usize,
}

impl TextRange {
    pub fn byte_range(self) -> std::ops::Range<usize> {
        self.start..self.end
    }
    pub fn within_file<F>(self, file: F) -> dt_tools_diagnostic::Span<F> {
        dt_tools_diagnostic::Span { start: self.start, end: self.end, file }
    }
}

impl From<std::ops::Range<usize>> for TextRange {
    fn from(r: std::ops::Range<usize>) -> Self {
        TextRange { start: r.start, end: r.end }
    }
}
