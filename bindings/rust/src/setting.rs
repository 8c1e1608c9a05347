//! What is reported.

use crate::numbered::numbered;

numbered! {
    /// What is reported. A call takes a number, of which 0 is the old setting and every other one the strict setting.
    #[derive(Default)]
    Setting {
        /// What dt-tools reports.
        #[default]
        Old = 0,
        /// Also each label that breaks the rule of the Devicetree Specification: letters, digits and underscores, and
        /// no digit first. Judged is the name of a label (`a: b {};`) and of a reference (`&a`), not that of a path
        /// (`&{/a}`). The reports have [`Message::NotALabel`](crate::Message::NotALabel) and follow all others, in the
        /// order of the text. The tree, the lexical errors and the other reports are those of the old setting.
        Strict = 1,
    }
}
