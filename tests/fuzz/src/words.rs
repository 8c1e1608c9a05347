//! The lists in the Rust's own texts. The unchanged Rust drops repeats when it writes message 1, so that its text has
//! the words of each expectation once: those of the codes in the pool.
use dt_parser_layout::{
    BUFFERS, COL_REPORT_MESSAGE, COL_REPORT_POOL_COUNT, COL_REPORT_POOL_FIRST, EXPECTED_PREPROCESSOR_DIRECTIVE,
    MESSAGE_EXPECTED, POOL, REPORTS, ROW_REPORT,
};
use oracle::parsed::Report;
use oracle::token;
use std::fmt::Write;

/// Of the expectations that are not a token's kind (errors.rs, `impl Display for Expected`).
const OTHERS: [&str; 8] = [
    "preprocessor directive",
    "preprocessor `defined` operator",
    "value",
    "cell",
    "label name",
    "infix operator",
    "prefix operator",
    "end of input",
];

fn write_words(code: u32, out: &mut String) {
    match code.checked_sub(EXPECTED_PREPROCESSOR_DIRECTIVE) {
        Some(other) => out.push_str(OTHERS[other as usize]),
        None => write!(out, "{}", token::kinds()[code as usize]).expect("a string"),
    }
}

/// What a message begins with that lists these: `Expected A, B or C, but `.
fn beginning(codes: &[u32]) -> String {
    let mut out = "Expected ".to_string();
    for (i, &code) in codes.iter().enumerate() {
        match codes.len() - i {
            _ if i == 0 => {}
            1 => out.push_str(" or "),
            _ => out.push_str(", "),
        }
        write_words(code, &mut out)
    }
    out + ", but "
}

/// Whether each text of a list has the words of the row's part of the pool.
pub fn agree(reports: &[Report], rows: &[Vec<u32>; BUFFERS]) -> bool {
    let listed = |row: &[u32]| {
        let first = row[COL_REPORT_POOL_FIRST] as usize;
        beginning(&rows[POOL][first..first + row[COL_REPORT_POOL_COUNT] as usize])
    };
    reports
        .iter()
        .zip(rows[REPORTS].chunks_exact(ROW_REPORT))
        .all(|(report, row)| row[COL_REPORT_MESSAGE] != MESSAGE_EXPECTED || report.message.starts_with(&listed(row)))
}

#[cfg(test)]
mod tests {
    use super::beginning;

    #[test]
    fn lists() {
        assert_eq!(beginning(&[11]), "Expected ‘#endif‘ preprocessor directive, but ");
        assert_eq!(beginning(&[2, 29]), "Expected ‘,’ or ‘;’, but ");
        assert_eq!(beginning(&[103, 19, 101]), "Expected value, ‘/include/‘ or preprocessor directive, but ")
    }
}
