//! Request 6/14 of document 02, each expectation once, as a plain reading of its words. The patched copy records what
//! the Rust pushed, with repeats; here, and nowhere else in the oracle, they are dropped.

/// "A pending expectation that is already there isn't pushed again; first arrivals keep their order." What is pending
/// once these were pushed, one after the other.
pub fn once(pushed: &[u32]) -> Vec<u32> {
    let mut pending = Vec::new();
    for code in pushed {
        if !pending.contains(code) {
            pending.push(*code)
        }
    }
    pending
}

#[cfg(test)]
mod tests {
    use super::once;
    use crate::doc01::{Run, for_reports};
    use crate::token::rows;
    use dt_parser_layout::{COL_REPORT_POOL_COUNT, COL_REPORT_POOL_FIRST, POOL, REPORTS, ROW_REPORT};

    #[test]
    fn first_arrivals_keep_their_order() {
        assert_eq!(once(&[]), []);
        // document 02's own list: `;`, `;`, `,`
        assert_eq!(once(&[29, 29, 2]), [29, 2]);
        assert_eq!(once(&[2, 29, 2]), [2, 29]);
        // Name, Ident and LabelName are three; 101 is not 37, which is its low six bits
        assert_eq!(once(&[26, 27, 105, 37, 101, 105, 26]), [26, 27, 105, 37, 101])
    }

    /// What the Rust pushed at each report of a text, and the lists of the rows.
    fn lists(entry: u32, text: &str) -> Vec<(Vec<u32>, Vec<u32>)> {
        let (toks, text) = rows(&crate::case::Case::Text(text.into()));
        let mut run = Run::default();
        assert!(run.of(entry, &toks, &text, false).is_ok());
        let mut pushed = vec![];
        for_reports(|recorded| pushed.push(recorded.pending.clone()));
        let listed = run.rows[REPORTS].chunks_exact(ROW_REPORT).map(|row| {
            let first = row[COL_REPORT_POOL_FIRST] as usize;
            run.rows[POOL][first..first + row[COL_REPORT_POOL_COUNT] as usize].to_vec()
        });
        pushed.into_iter().zip(listed).collect()
    }

    /// Row and pool have the shortened list, and the record all that was pushed.
    #[test]
    fn a_list_with_a_repeat() {
        assert_eq!(lists(1, "#else"), [(vec![], vec![]), (vec![11, 11], vec![11])]);
        // of a message that lists nothing the record has what is pending too: `/dts-v1/ }`
        assert_eq!(lists(1, "/dts-v1/ }"), [(vec![29], vec![29]), (vec![29], vec![])])
    }
}
