"""Makes a case on which the two answers differ small: fewer rows or bytes, shorter texts, and buffers with room if that
will do."""
from compare.caret import listed


def without_rows(case):
    """The case with one part of its rows left out, large parts first."""
    n = len(case.rows)
    size = n
    while size:
        for at in range(0, n - size + 1, size):
            yield case._replace(rows=case.rows[:at] + case.rows[at + size :])
        size //= 2


def shorter_texts(case, fixed):
    for i, row in enumerate(case.rows):
        if row.length == len(row.text) > 1 and row.kind not in fixed:
            short = row._replace(length=1, text=b"a")
            yield case._replace(rows=case.rows[:i] + (short,) + case.rows[i + 1 :])


def plainer(case):
    if case.odd is not None:
        yield case._replace(odd=None)
    if case.extra:
        yield case._replace(extra=b"")
    if case.setting > 1:
        yield case._replace(setting=1)


def size(case):
    return len(case.rows), len(case.numbers()), len(case.data()), sum(case.lengths), case.setting


def with_room(cases, oracle):
    """Those that get as far as a parse, with ample buffers: the definitions may need more than the Rust."""
    fine = [c for c in cases if oracle.refused_early(c) is None]
    return [c._replace(lengths=tuple(2 * n + 60 for n in p.needs())) for c, p in zip(fine, oracle.ask(fine))]


def tight(case, oracle):
    """The case with buffers that just suffice, and with each buffer empty."""
    if oracle.refused_early(case) is None:
        yield case._replace(lengths=tuple(oracle.ask([case])[0].needs()))
    for b in range(5):
        yield case._replace(lengths=case.lengths[:b] + (0,) + case.lengths[b + 1 :])


def smallest(case, oracle, differs, say):
    """The smallest case found that still differs. `differs` takes cases and gives those on which the answers differ."""
    roomy = differs(with_room([case], oracle))
    if roomy:
        case = roomy[0]
    while True:
        tries = list(without_rows(case)) + list(shorter_texts(case, oracle.texts)) + list(plainer(case))
        tries = with_room(tries, oracle) if roomy else tries + list(tight(case, oracle))
        tries = sorted({c for c in tries if size(c) < size(case)}, key=size)
        found = differs(tries)
        if not found:
            return case
        case = min(found, key=size)
        say("  smaller: %d rows, %d bytes, buffers %s" % (len(case.rows), len(case.data()), case.lengths))


def without_bytes(case):
    """The case with one part of its text left out, large parts first; and with a plain byte in place of one."""
    n = len(case.data)
    size = n
    while size:
        for at in range(0, n - size + 1, size):
            yield case._replace(data=case.data[:at] + case.data[at + size :])
        size //= 2
    for at in range(n):
        if case.data[at] not in b";a":
            yield case._replace(data=case.data[:at] + b"a" + case.data[at + 1 :])


def text_size(case):
    plain = sum(b not in b";a" for b in case.data)
    return len(case.data), plain, case.entry != 1, case.setting, sum(case.lengths) + case.room


def text_with_room(cases, texts):
    """Those that get as far as a parse, with ample buffers, and the others."""
    parses = texts.parses(cases)
    needs = iter(texts.oracle.ask([p for p in parses if p]))
    for case, parse in zip(cases, parses):
        lengths = tuple(2 * n + 60 for n in next(needs).needs()) if parse else (9, 9, 9, 9, 9)
        yield case._replace(lengths=lengths, room=2 * len(case.data) + 3)


def smallest_text(case, texts, differs, say):
    """As `smallest`, of a text."""
    roomy = differs(list(text_with_room([case], texts)))
    if roomy:
        case = roomy[0]
    while True:
        tries = list(without_bytes(case)) + [case._replace(entry=1), case._replace(setting=0)]
        tries = list(text_with_room(tries, texts)) if roomy else tries
        tries = sorted({c for c in tries if text_size(c) < text_size(case)}, key=text_size)
        found = differs(tries)
        if not found:
            return case
        case = min(found, key=text_size)
        say("  smaller: %d bytes" % len(case.data))


def query_size(case):
    query = case.query
    return size(case.parse), query.first, query.second, case.room


def query_with_room(cases, oracle):
    """Those whose file gets as far as a parse, with ample buffers."""
    fine = [c for c in cases if oracle.refused_early(c.parse) is None]
    for case, parse, full in zip(fine, with_room([c.parse for c in fine], oracle), oracle.ask([c.parse for c in fine])):
        yield case._replace(parse=parse, room=len(listed(case.query, full.rows)) + 3 if full.rows else 3)


def nearer(case):
    """The case with a smaller offset, or a smaller end of a range."""
    query = case.query
    for n in {0, query.first // 2, max(query.first - 1, 0)}:
        yield case._replace(query=query._replace(first=n))
    for n in {0, query.second // 2, max(query.second - 1, 0)}:
        yield case._replace(query=query._replace(second=n))


def with_parse(case, parse):
    """The case with a smaller file: what is asked stays, or goes down by as many bytes."""
    query, less = case.query, len(case.parse.data()) - len(parse.data())
    moved = query._replace(first=max(query.first - less, 0), second=max(query.second - less, 0))
    return [case._replace(parse=parse, query=q) for q in (query, moved)]


def smallest_query(case, oracle, differs, say):
    """As `smallest`, of a query."""
    roomy = differs(list(query_with_room([case], oracle)))
    if roomy:
        case = roomy[0]
    while True:
        parse = case.parse
        smaller = [*without_rows(parse), *shorter_texts(parse, oracle.texts), *plainer(parse)]
        tries = [c for p in smaller for c in with_parse(case, p)] + list(nearer(case))
        tries = list(query_with_room(tries, oracle)) if roomy else tries
        tries = sorted({c for c in tries if query_size(c) < query_size(case)}, key=query_size)
        found = differs(tries)
        if not found:
            return case
        case = min(found, key=query_size)
        say("  smaller: %d rows, %s" % (len(case.parse.rows), case.query.show()))
