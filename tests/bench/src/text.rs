//! Texts for the call that reads the tokens itself. The lengths are in bytes.

/// A text of at most n bytes that might cost more than others; none has a directive of the preprocessor.
pub fn costly(family: &str, n: usize) -> Option<String> {
    let padded = format!("#{},", " ".repeat(1000));
    let open = ";".repeat(n / 2) + "/*";
    let (head, piece, tail) = match family {
        // one token: a block comment, of whose bytes each might end it, a line comment, a string, a char literal of
        // escapes, a bytestring, a name, blanks
        "comment" => ("/*", "/", "*/"),
        "line" => ("//", "x", ""),
        "string" => ("\"", "x", "\""),
        "escapes" => ("'", "\\'", "'"),
        "bytestring" => ("[", "00 ", "]"),
        "hashes" => ("", "#", ""),
        "lineends" => ("", "\\\n", ""),
        // a number and a name
        "hex" => ("", "0x", ""),
        // many tokens, and a comment that does not end
        "open" => (open.as_str(), "/", ""),
        // a # that starts a token is looked at for a directive, past the blanks after it
        "hash" => ("", "# ", ""),
        "padded" => ("", padded.as_str(), ""),
        // what is read is longer than the token: / and 1lu and 0, and errors
        "slashes" => ("", "/delete-propert", ""),
        "suffixes" => ("", "1lul,", ""),
        "zeros" => ("", "0x,", ""),
        "backslashes" => ("", "\\", ""),
        "returns" => ("", "\\\r", ""),
        _ => return None,
    };
    let times = n.saturating_sub(head.len() + tail.len()) / piece.len();
    Some(format!("{head}{}{tail}", piece.repeat(times)))
}

/// A board file without its directives, which are lines of their own; other lines are indented where they start with #.
pub fn without_directives(board: &str) -> String {
    board.split_inclusive('\n').filter(|line| !line.starts_with('#')).collect()
}

/// Every text that repeats so many of these bytes, once: its start is the least that it could have.
pub fn repeats(count: usize, n: usize) -> impl Iterator<Item = (String, String)> {
    const BYTES: &[u8] = b"\n\r \"#&'*,-/016;<=[\\abeilux";
    (0..BYTES.len().pow(count as u32)).filter_map(move |number| {
        let digit = |i: u32| BYTES[number / BYTES.len().pow(i) % BYTES.len()] as char;
        let piece: Vec<char> = (0..count as u32).map(digit).collect();
        let turned = |i: usize| [&piece[i..], &piece[..i]].concat();
        let least = (1..count).all(|i| piece < turned(i));
        let piece: String = piece.iter().collect();
        least.then(|| (piece.clone(), piece.repeat(n / count)))
    })
}
