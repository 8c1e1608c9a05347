//! Colours.

/// Writes text in colours, or plainly.
#[derive(Debug, Clone, Copy)]
pub struct Style {
    on: bool,
}

/// What a piece of text is.
#[derive(Debug, Clone, Copy, PartialEq, Eq)]
pub enum Ink {
    Error,
    Note,
    Strong,
    Frame,
    Faint,
}

impl Style {
    pub const fn new(on: bool) -> Self {
        Self { on }
    }

    /// The text in the colours of what it is.
    pub fn paint(self, ink: Ink, text: &str) -> String {
        if !self.on || text.is_empty() {
            return text.to_string();
        }
        let code = match ink {
            Ink::Error => "1;31",
            Ink::Note => "1;36",
            Ink::Strong => "1",
            Ink::Frame => "1;34",
            Ink::Faint => "2",
        };
        format!("\x1b[{code}m{text}\x1b[0m")
    }
}
