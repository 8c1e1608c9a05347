//! The index against a plain reading of the text, byte by byte and character by character.

use super::*;

/// The line of each offset and of the text's end, by a walk that looks at each byte.
fn lines_by_walking(text: &[u8], ends: LineEnds) -> Vec<usize> {
    let mut line = 0;
    let mut lines = vec![0];
    for (offset, byte) in text.iter().enumerate() {
        let lone_cr = *byte == b'\r' && text.get(offset + 1) != Some(&b'\n');
        if *byte == b'\n' || (lone_cr && ends == LineEnds::LfOrCr) {
            line += 1;
        }
        lines.push(line);
    }
    lines
}

/// The characters of a text with their offsets, as `from_utf8` takes them one by one; a bad byte is one of one byte.
fn characters_by_trying(text: &[u8]) -> Vec<(usize, usize, usize)> {
    let mut found = Vec::new();
    let mut start = 0;
    while start < text.len() {
        let good = (1..=4).find_map(|n| {
            let one = std::str::from_utf8(text.get(start..start + n)?).ok()?;
            Some((n, one.encode_utf16().count()))
        });
        let (bytes, utf16) = good.unwrap_or((1, 1));
        found.push((start, bytes, utf16));
        start += bytes;
    }
    found
}

fn check(text: &[u8], ends: LineEnds) {
    let index = LineIndex::with_ends(text, ends);
    let lines = lines_by_walking(text, ends);
    assert_eq!(index.line_count(), lines[text.len()] + 1);
    let characters = characters_by_trying(text);
    for offset in 0..=text.len() {
        let line = lines[offset];
        assert_eq!(index.line_of(offset), Some(line), "{offset} of {text:?}");
        let line_start = lines.iter().position(|other| *other == line).unwrap();
        // the characters that begin in the line and end at the offset or before it
        let is_before = |start: usize, bytes: usize| start >= line_start && start + bytes <= offset;
        let before: Vec<_> = characters.iter().filter(|(start, bytes, _)| is_before(*start, *bytes)).collect();
        // an offset inside a character stands for the character's start
        let inside = characters.iter().find(|(start, bytes, _)| *start < offset && offset < start + bytes);
        let back = inside.map_or(offset, |(start, ..)| *start);
        let units = [
            (Columns::Bytes, offset - line_start, offset),
            (Columns::Characters, before.len(), back),
            (Columns::Utf16, before.iter().map(|(_, _, utf16)| utf16).sum(), back),
        ];
        for (columns, column, back) in units {
            let position = Position { line, column };
            assert_eq!(index.position(offset, columns), Some(position), "{offset} of {text:?}, {columns:?}");
            assert_eq!(index.offset(position, columns), Some(back), "{position:?} of {text:?}, {columns:?}");
        }
    }
    check_ranges(text, &index, &lines);
}

/// The lines side by side are the text, and no line without its end has a line end at its end.
fn check_ranges(text: &[u8], index: &LineIndex, lines: &[usize]) {
    let mut start = 0;
    for line in 0..index.line_count() {
        let (whole, range) = (index.whole_line_range(line).unwrap(), index.line_range(line).unwrap());
        assert_eq!((whole.start, range.start), (start, start));
        let end = &text[range.end..whole.end];
        let ends: [&[u8]; 3] = [b"\n", b"\r\n", b"\r"];
        assert_eq!(ends.contains(&end), line + 1 < index.line_count(), "{end:?} of {text:?}");
        assert!(!(end == b"\n" && text[range.byte_range()].ends_with(b"\r")), "{text:?}");
        assert!(whole.byte_range().all(|offset| lines[offset] == line));
        start = whole.end;
        let past = |columns| index.offset(Position { line, column: whole.len() + 1 }, columns);
        assert_eq!([Columns::Bytes, Columns::Characters, Columns::Utf16].map(past), [None; 3], "{line} of {text:?}");
    }
    assert_eq!(start, text.len());
    assert_eq!(index.line_range(index.line_count()), None);
    assert_eq!(index.line_of(text.len() + 1), None);
    assert_eq!(index.position(usize::MAX, Columns::Utf16), None);
    assert_eq!(index.offset(Position { line: 0, column: usize::MAX }, Columns::Utf16), None);
}

#[test]
fn every_short_text_is_read_as_it_stands() {
    let pieces: [&[u8]; 7] = [b"a", b"\n", b"\r", "é".as_bytes(), "😀".as_bytes(), b"\xff", b"\xe2\x82"];
    let mut texts = vec![Vec::new()];
    for _ in 0..5 {
        for text in &texts {
            check(text, LineEnds::Lf);
            check(text, LineEnds::LfOrCr);
        }
        texts = texts.iter().flat_map(|text| pieces.map(|piece| [text, piece].concat())).collect();
    }
}

#[test]
fn the_project_s_sources_are_read_as_they_stand() {
    let mut count = 0;
    for folder in ["examples", "examples/c", "tests/oracle/snippets", "tests/fuzz/seeds"] {
        let path = format!("{}/../../{folder}", env!("CARGO_MANIFEST_DIR"));
        for file in std::fs::read_dir(path).unwrap() {
            let path = file.unwrap().path();
            if path.extension().is_some_and(|extension| extension == "dts") {
                let text = std::fs::read(path).unwrap();
                let text = &text[..text.len().min(1500)];
                check(text, LineEnds::Lf);
                let crlf = String::from_utf8_lossy(text).replace('\n', "\r\n");
                check(crlf.as_bytes(), LineEnds::LfOrCr);
                check(crlf.replace('\n', "").as_bytes(), LineEnds::LfOrCr);
                count += 1;
            }
        }
    }
    assert!(count >= 20, "{count}");
}

#[test]
fn positions_are_shown_from_one() {
    assert_eq!(LineIndex::new(b"").position(0, Columns::Bytes).unwrap().to_string(), "1:1");
    assert_eq!(LineIndex::new(b"a\nb").position(2, Columns::Bytes).unwrap().to_string(), "2:1");
}
