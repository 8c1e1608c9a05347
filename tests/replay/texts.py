"""Each answer of document 01 compared with the unchanged Rust's: tree, lexical errors, and every report turned into the
Rust's own message text and labels. The words are read out of docs/src, as tools/header/names.py has them."""
from compare.case import FIRST_ERROR, ErrorRow, ReportRow, TreeRow, rows
from compare.strict import NOT_A_LABEL
from compare.tables import TRIVIA
from header.names import expectation_words, first_word, hint_texts, label_text, message_texts, token_words
from header.numbers import Numbers
from header.sources import Repository


class Words:
    """The Rust's texts, by document 01's numbers."""

    def __init__(self, root, kinds):
        repository = Repository(root)
        numbers = Numbers(repository)
        self.expected, self.first = numbers.messages["expected"], first_word(repository)
        self.messages = {numbers.messages[name]: text for name, text in message_texts(repository).items()}
        self.hints = {numbers.hints[name]: text for name, text in hint_texts(repository).items()}
        self.label = label_text(repository)
        others = expectation_words(repository)
        self.words = {number: others[name] for name, number in numbers.expectations.items()}
        named = token_words(repository)
        self.words.update((number, named[name]) for name, number in kinds.items())
        self.trivia, self.unrecognized = {kinds[name] for name in TRIVIA}, kinds["Unrecognized"]

    def message(self, row, pool, case):
        """The Rust's text of a report row."""
        if row.message != self.expected:
            return self.messages[row.message]
        words = [self.words[code] for code in pool]
        text = self.first + " " + (", ".join(words[:-1]) + " or " if words[1:] else "") + words[-1]
        rest = [r.kind for r in case.rows[row.mark :] if r.kind not in self.trivia]
        if not rest:
            return text + ", but reached end of input"
        return text + ", but found " + self.words[rest[0] if rest[0] < FIRST_ERROR else self.unrecognized]

    def lines(self, parsed, case):
        """The Rust's lines for an accepted call. It has no reports of labels."""
        out = ["R %d %d %d %d %d" % row for row in rows(TreeRow, parsed.rows)]
        out += ["X %d %d %d" % row for row in rows(ErrorRow, parsed.lexical)]
        for row in (r for r in rows(ReportRow, parsed.reports) if r.message != NOT_A_LABEL):
            pool = parsed.pool[row.pool_first : row.pool_first + row.pool_count]
            out.append("E %d %d %s" % (row.start, row.end, self.message(row, pool, case)))
            if (row.label_start, row.label_end) != (0, 0):
                out.append("L %d %d %s" % (row.label_start, row.label_end, self.label))
            if row.hint:
                out.append("L %d %d %s" % (row.start, row.end, self.hints[row.hint]))
        return out
