"""What random token lists are made of: kinds by their names in lexer.rs."""

ENTRIES = (1, 1, 1, 2, 3, 3, 4, 4)
TRIVIA = ("Whitespace", "LineComment", "BlockComment")

# Pieces of what people write, as kinds; lists of them are mostly lists that no lexer gives.
PIECES = [
    piece.split()
    for piece in """
    Ident; Ident Colon; Ident Equals; Ident Equals LAngle; RAngle Semicolon; Semicolon; LCurly; RCurly; RCurly Semicolon
    Ampersand Ident; Ampersand LCurly Slash Ident AtSign Number; Ident LParen; RParen; LParen; Number; Number; Plus; Minus
    Asterisk; QuestionMark; Colon; Comma; String; Slash LCurly; IfDirective; ElseDirective; EndifDirective; DefineDirective
    BitsDirective Number; OmitIfNoRefDirective; DtIncludeDirective String; MemreserveDirective Number Number
    DeleteNodeDirective Ident; V1Directive Semicolon; AtSign; Ident AtSign Number; Char; DtBytestring; BitwiseNot; LogicalOr
    RelationalEq; BitwiseShl; LAngle; RAngle; Slash; Equals; Ampersand; ElifdefDirective; DeletePropertyDirective
    Ident LParen Ident Comma LParen Number Comma Ident RParen RParen
    """.replace("\n", ";").split(";")
    if piece.strip()
]

# Whole statements, references, values and cells by entry, to be damaged a little.
STATEMENTS = {
    entry: [line.split() for line in text.strip().splitlines()]
    for entry, text in {
        1: """
        Ident Semicolon
        Ident Minus Number Equals String Comma LAngle Number Ident RAngle Semicolon
        Ident Equals LAngle Ampersand Ident LParen Number Plus Number RParen RAngle Semicolon
        Ident Equals BitsDirective Number LAngle Number RAngle Comma DtBytestring Semicolon
        Ident Equals IfDirective String Comma ElseDirective String EndifDirective Semicolon
        Ident Equals LAngle IfdefDirective Number ElifDirective Ident EndifDirective RAngle Semicolon
        Ident Equals IfDirective Ampersand LCurly Slash Ident EndifDirective Semicolon
        Ident Equals IfDirective LAngle Number ElseDirective String EndifDirective Semicolon
        Ident Equals Ampersand LCurly Slash Ident RCurly Comma Ident LParen Number RParen Semicolon
        Ident Colon Ident AtSign Number LCurly Ident Semicolon RCurly Semicolon
        Ident AtSign Number Colon Ident LCurly RCurly Semicolon
        Slash LCurly Ident Equals String Semicolon RCurly Semicolon
        OmitIfNoRefDirective Ident Colon Ident LCurly RCurly Semicolon
        Ampersand Ident LCurly Ident Semicolon RCurly Semicolon
        Ampersand LCurly Slash Ident AtSign Number Slash Ident RCurly LCurly RCurly Semicolon
        Ident LParen Ident Comma RParen LCurly RCurly Semicolon
        DeleteNodeDirective Ident AtSign Number Semicolon
        DeletePropertyDirective Ampersand Ident Semicolon
        MemreserveDirective Number Number Semicolon
        V1Directive Semicolon PluginDirective Semicolon
        DtIncludeDirective String Ident Semicolon
        IfDirective Ident Semicolon ElseDirective Ident LCurly RCurly Semicolon EndifDirective
        Slash LCurly IfndefDirective Ident Semicolon EndifDirective RCurly Semicolon
        """,
        2: """
        LCurly Slash Ident AtSign Number Slash Ident RCurly
        LCurly Ident Comma Ident Slash Ident AtSign Ident LParen Number RParen RCurly
        LCurly Slash RCurly
        Ident Number
        Ident LParen Ident Comma LParen Number RParen RParen
        """,
        3: """
        String Comma LAngle Number RAngle Comma Ident
        BitsDirective Number LAngle Ident Char RAngle
        IfDirective String Comma EndifDirective Comma Ampersand Ident
        DtIncludeDirective String Comma DtBytestring
        LAngle LParen Minus Number Asterisk Ident RParen RAngle String
        """,
        4: """
        Number Char Ident LParen Number Comma Ident RParen Ampersand Ident
        IfDirective Number ElseDirective Ident EndifDirective Number
        Ampersand LCurly Slash Ident AtSign Number RCurly LParen Number RParen
        IfDirective Ampersand LCurly Ident Slash Ident ElseDirective Ampersand LCurly Slash Ident EndifDirective
        DtIncludeDirective String Number DefineDirective
        LParen Number QuestionMark Ident Colon BitwiseNot Number RParen
        """,
    }.items()
}

# What ends something or starts something else: the kinds that recovery looks for.
STOPS = """Semicolon LCurly RCurly RAngle RParen Comma Colon AtSign Slash Ampersand Equals IfDirective ElifDirective ElifndefDirective
    ElseDirective EndifDirective V1Directive PluginDirective DtIncludeDirective MemreserveDirective DeleteNodeDirective""".split()

# Infix operators that bind alike, loosest first; the ternary apart.
LEVELS = [
    level.split()
    for level in """LogicalOr; LogicalAnd; BitwiseOr; BitwiseXor; Ampersand; RelationalEq RelationalNeq
    ; LAngle RAngle RelationalLtEq RelationalGtEq; BitwiseShl BitwiseShr; Plus Minus; Asterisk Slash Modulo""".split(";")
]
PREFIX = "Plus Minus BitwiseNot LogicalNot".split()

# What nests: repeated, these come near 64 open calls, or have the Rust expect the same again and again.
HEADS = ["", "Ident Equals", "Ident Equals LAngle", "LAngle", "Ident LCurly", "LParen", "Ampersand LCurly", "Slash LCurly"]
UNITS = [
    "IfDirective", "IfndefDirective", "Ident LCurly", "Ident Equals", "Ident Equals LAngle", "LParen", "Ident LParen", "LCurly",
    "LAngle", "Minus", "BitwiseNot", "Number QuestionMark", "Number QuestionMark Number Colon", "Number Plus", "Slash LCurly",
    "BitsDirective Number LAngle", "ElseDirective", "Ident Colon", "Equals", "Ampersand", "Ampersand LCurly", "String Comma",
    "Number", "BitwiseNot LParen", "Asterisk", "IfDirective Ident LCurly", "IfDirective LParen", "Plus LParen",
]  # fmt: skip
# Conditionals in values and cells: as they end, the same expectations are pushed again, and no token clears them.
CONDITIONALS = ["IfDirective", "IfdefDirective", "IfndefDirective"]
CONDITIONAL_HEADS = [(4, ""), (4, "Number"), (3, "LAngle"), (1, "Ident Equals LAngle"), (1, "Ident Equals"), (3, "")]
TAILS = [
    "", "Semicolon", "RCurly", "LCurly", "RAngle", "EndifDirective", "ElseDirective", "Number", "Ident", "Equals", "Ampersand",
    "String", "RParen", "Comma", "AtSign", "Colon", "LAngle Number RAngle", "BitsDirective", "QuestionMark", "V1Directive",
]  # fmt: skip

# Exactly at the limit. Entry, head and unit of what nests through one function: item, propvalues, eat_cell,
# expr_binding_power.
NESTS = [
    (1, "", "Ident LCurly"), (1, "", "IfDirective"), (3, "", "IfDirective"), (4, "", "IfDirective"), (4, "", "LParen"),
    (4, "LParen", "Minus"),
]  # fmt: skip
# Cells after 50 or 51 conditionals: with these tails the Rust has so many expectations pending or more, with repeats.
# Document 01 had a limit of 256, which is not met since each is pending once (document 02, 6/14).
MANY = 255
REPEATING_HEADS = [(4, ""), (4, "Number"), (3, "LAngle")]
REPEATING_TAILS = [a + b for a in ("", "Ident ", "DtIncludeDirective ") for b in ("Semicolon", "LCurly", "RCurly")]
REPEATING_TAILS.append("LParen Number Semicolon")

# kinds of leaves alone, and numbers of no kind
BAD_KINDS = (25, 26, 61, 62, 63, 75, 76, 100, 128, 4294967295)
BAD_ENTRIES = (0, 5, 6, 7, 255, 4294967295)
