//! Kinds of tree nodes, with the names of dt-tools' cst.rs.

use crate::numbered::numbered;

numbered! {
    /// The kind of a tree node, 0 to 24 in rows.
    ///
    /// ```
    /// use dt_parser::NodeKind;
    /// assert_eq!(NodeKind::DtNode.number(), 15);
    /// assert_eq!(NodeKind::from_number(25), None);
    /// ```
    NodeKind {
        /// The root of [`Entrypoint::SourceFile`](crate::Entrypoint::SourceFile).
        SourceFile = 0,
        /// Of an entry that this parser leaves out; in no tree.
        EntryName = 1,
        /// The root of [`Entrypoint::PropValues`](crate::Entrypoint::PropValues).
        EntryPropValues = 2,
        /// The root of [`Entrypoint::Cells`](crate::Entrypoint::Cells).
        EntryCells = 3,
        /// Of an entry that this parser leaves out; in no tree.
        EntryPreprocessorConditional = 4,
        /// Of an entry that this parser leaves out; in no tree.
        PreprocessorDefinedOperation = 5,
        /// An operator with its operands; a ternary is one node of five parts.
        InfixExpr = 6,
        /// A prefix operator with its operand.
        PrefixExpr = 7,
        /// An expression in brackets.
        ParenExpr = 8,
        /// A number, a character or a macro as an operand.
        LiteralExpr = 9,
        /// What was not understood. There may be one without a report.
        ParseError = 10,
        /// A directive such as `/dts-v1/;`.
        DtsDirective = 11,
        /// A directive's arguments.
        DtsDirectiveArguments = 12,
        /// `#if` to `#endif`: the directives and the branches between them.
        PreprocessorConditional = 13,
        /// What stands in a conditional's branch.
        PreprocessorBranch = 14,
        /// A devicetree node.
        DtNode = 15,
        /// A property.
        DtProperty = 16,
        /// Cells in angle brackets.
        DtCellList = 17,
        /// A bracketed expression as a cell.
        DtExpr = 18,
        /// A label with its colon.
        DtLabel = 19,
        /// A property's values.
        PropValueList = 20,
        /// A reference, `&label` or `&{/path}`; the root of
        /// [`Entrypoint::ReferenceNoamp`](crate::Entrypoint::ReferenceNoamp).
        DtPhandle = 21,
        /// `@` and the address after it.
        UnitAddress = 22,
        /// A macro, with or without arguments.
        MacroInvocation = 23,
        /// One of a macro's arguments.
        MacroArgument = 24,
    }
}
