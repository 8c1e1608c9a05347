//! Queries in list buffers of every length: the list, and what each buffer holds after it and after a refusal.

use super::*;
use crate::TextRange;

/// Buffers with room for a parse, and a list of this length.
fn with_list(room: usize, list: usize) -> Buffers {
    Buffers { list: vec![LENT; list], ..lent(0, room) }
}

/// Number, place and counts, to compare.
fn numbers(answer: &Answer) -> [usize; 6] {
    let Answer { number, place, tree_count, error_count, report_count, expectation_count } = *answer;
    [number as usize, place, tree_count, error_count, report_count, expectation_count]
}

/// The token rows of a text, by an entry that nests nothing.
fn rows_of(text: &[u8]) -> Vec<u32> {
    const REFERENCE_NOAMP: u32 = 2;
    let mut buffers = lent(2 * text.len(), ROOM);
    let answer = call_text(REFERENCE_NOAMP, OLD, text, &mut buffers);
    assert_eq!(answer.answer.number, 0);
    buffers.tokens[..2 * answer.token_count].to_vec()
}

/// A property; nodes with a blank between them, and one without text; reports of labels; a lexical error in a node that
/// is not closed; and nothing.
const TEXTS: [&[u8]; 5] = [TEXT, b"a{b;}; /delete-node/", b"1:a;&2{};", b"/{a=<1 \\ (2)>;b", b""];

/// Queries at every place of a text, around its end and far from it.
fn queries(text: &[u8]) -> Vec<Query> {
    let far = [u32::MAX as usize, 1 << 32, (1 << 32) + 1, 1 << 63, usize::MAX];
    let places: Vec<usize> = (0..text.len() + 3).chain(far).collect();
    let range = |start| places.iter().map(move |end| Query::Parts(TextRange { start, end: *end }));
    places.iter().map(|offset| Query::Caret(*offset)).chain(places.iter().flat_map(|start| range(*start))).collect()
}

/// The rows that a query lists, in a buffer that is long enough. All other buffers are as a parse leaves them.
fn listed(query: Query, setting: u32, text: &[u8], rows: &[u32]) -> Vec<u32> {
    let (mut asked, mut parsed) = (with_list(ROOM, 99), with_list(ROOM, 99));
    let answer = call_query(query, setting, text, rows, &mut asked);
    assert_eq!(numbers(&answer.answer), numbers(&call(SOURCE_FILE, setting, text, rows, &mut parsed)));
    assert_eq!(answer.answer.number, 0);
    assert!(asked.list[answer.list_count..].iter().all(|n| *n == 0), "zeros after the list");
    let list = asked.list[..answer.list_count].to_vec();
    assert!(list.is_sorted_by(|a, b| a < b) && list.iter().all(|row| (*row as usize) < answer.answer.tree_count));
    let parent = |row: u32| asked.trees[5 * row as usize + 4];
    assert!(match query {
        Query::Caret(_) => list.windows(2).all(|two| parent(two[1]) == two[0]),
        Query::Parts(_) => list.iter().all(|part| parent(*part) == 0),
    });
    assert_eq!((asked.events, asked.trees, asked.errors), (parsed.events, parsed.trees, parsed.errors));
    assert_eq!((asked.reports, asked.pool), (parsed.reports, parsed.pool));
    list
}

#[test]
fn the_list_is_the_same_in_either_setting() {
    for text in TEXTS {
        let rows = rows_of(text);
        for query in queries(text) {
            let list = listed(query, OLD, text, &rows);
            for strict in [1, 7, u32::MAX] {
                assert_eq!(listed(query, strict, text, &rows), list, "{query:?}");
            }
        }
    }
}

#[test]
fn a_list_fits_or_is_refused_and_all_is_cleared() {
    for text in TEXTS {
        let rows = rows_of(text);
        for query in queries(text) {
            let list = listed(query, OLD, text, &rows);
            for length in 0..list.len() + 3 {
                let mut buffers = with_list(ROOM, length);
                let answer = call_query(query, OLD, text, &rows, &mut buffers);
                if length < list.len() {
                    assert_eq!((numbers(&answer.answer), answer.list_count), ([8, 0, 0, 0, 0, 0], 0), "{query:?}");
                    assert!(buffers.all_hold(0), "{query:?}");
                } else {
                    assert_eq!((answer.answer.number, answer.list_count), (0, list.len()), "{query:?}");
                    assert_eq!(buffers.list, [list.as_slice(), &vec![0; length - list.len()]].concat());
                }
            }
        }
    }
}

#[test]
fn a_leaf_owns_its_first_byte_and_not_its_end() {
    let at = |text: &[u8], offset| listed(Query::Caret(offset), OLD, text, &rows_of(text));
    // the root, the blank 1, and the property 2 with its Name 3 and `;` 4
    let chains = [&[0, 1][..], &[0, 2, 3], &[0, 2, 4], &[0, 2, 4], &[], &[]];
    for (offset, chain) in chains.into_iter().enumerate() {
        assert_eq!(at(b" a;", offset), chain, "{offset}");
    }
    assert_eq!([at(b"", 0), at(b"", 1)], [vec![0], vec![]]);
    assert_eq!(at(b"/delete-node/", 13), [0, 1, 2], "row 3 has no byte");
    for far in [(1 << 32) + 1, (1 << 32) + 3, (1 << 63) + 1, usize::MAX] {
        assert!(at(b" a;", far).is_empty(), "all 64 bits of {far} are looked at");
    }
}

#[test]
fn parts_share_a_byte_with_the_range() {
    let parts = |start, end| listed(Query::Parts(TextRange { start, end }), OLD, b"ab; c;", &rows_of(b"ab; c;"));
    // the properties 1 and 5, and the blank 4
    assert_eq!([parts(0, 6), parts(0, usize::MAX)], [[1, 4, 5], [1, 4, 5]]);
    assert_eq!([parts(3, 4), parts(0, 1), parts(5, 6)], [[4], [1], [5]]);
    assert_eq!([parts(2, 4), parts(3, 5)], [[1, 4], [4, 5]]);
    // empty, reversed inside one part and beyond, past the text
    assert_eq!([parts(1, 1), parts(3, 3), parts(2, 1), parts(usize::MAX, 0), parts(6, 9)], [[]; 5]);
}

#[test]
fn a_query_with_bad_rows_leaves_every_buffer() {
    let long = [27, 1].repeat(65_537);
    let cases: [(&[u32], u32, usize); 7] = [
        (&long, 2, 0),
        (&[99, 0, 27], 3, 1),
        (&[29, 1, 27, 1], 4, 0),
        (&[27, 1, 26, 0], 11, 1),
        (&[27, 1, 27, 0, 26, 1], 12, 1),
        (&[27, 1, 27, u32::MAX, 27, 2], 13, 1),
        (&[27, 1], 13, 1),
    ];
    for (rows, number, place) in cases {
        for (query, list) in [(Query::Caret(0), 0), (Query::Caret(9), 5), (Query::Parts((0..2).into()), 1)] {
            let mut buffers = with_list(ROOM, list);
            let answer = call_query(query, OLD, b"ab", rows, &mut buffers);
            assert_eq!(numbers(&answer.answer), [number as usize, place, 0, 0, 0, 0]);
            assert_eq!(answer.list_count, 0);
            assert!(buffers.all_hold(LENT), "{number}");
        }
    }
}

/// Number and place of a query with room for so many numbers of events, trees, errors and reports, which is refused.
/// Every buffer is then zero.
fn refused(query: Query, text: &[u8], room: [usize; 4], list: usize) -> [usize; 2] {
    let rows = rows_of(text);
    let mut buffers = with_list(ROOM, list);
    let [events, trees, errors, reports] = room;
    buffers.events.truncate(events);
    buffers.trees.truncate(trees);
    buffers.errors.truncate(errors);
    buffers.reports.truncate(reports);
    let answer = call_query(query, 1, text, &rows, &mut buffers);
    assert!(buffers.all_hold(0) && answer.list_count == 0 && answer.answer.number > 0);
    let Answer { number, place, .. } = answer.answer;
    [number as usize, place]
}

#[test]
fn the_parse_is_refused_before_the_list_and_all_is_cleared() {
    let past = Query::Caret(99); // which lists nothing
    for (query, list) in [(past, 9), (Query::Caret(0), 9), (Query::Caret(0), 0), (Query::Parts((0..9).into()), 0)] {
        let room = |events, trees, errors, reports| refused(query, b"\\;1:;", [events, trees, errors, reports], list);
        assert_eq!(room(2, ROOM, ROOM, ROOM)[0], 6);
        assert_eq!(room(ROOM, ROOM, ROOM, 8)[0], 7);
        assert_eq!([room(ROOM, 14, ROOM, ROOM), room(ROOM, ROOM, 2, ROOM)], [[8, 0], [8, 0]]);
    }
    // 7 of the strict setting, for a report of the label, comes before the list's 8
    assert_eq!(refused(Query::Caret(0), b"1a:c{};", [ROOM, ROOM, ROOM, 8], 1), [7, 0]);
    let deep = [b"a=<".as_slice(), &b"(".repeat(64)].concat();
    assert_eq!(refused(past, &deep, [ROOM; 4], 2)[0], 5);
}
