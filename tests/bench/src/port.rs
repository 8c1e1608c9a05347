//! The static library in one of its settings, with lent buffers that just suffice.
use crate::input::Input;
use dt_parser_ffi::{Answer, Counts, Lent, ListAnswer, Query, TextAnswer};
use dt_parser_layout::{
    ACCEPTED, BUFFERS, ENTRY_SOURCE_FILE, ERRORS, EVENTS, Lengths, POOL, REFUSAL_NO_EVENT_ROOM, REFUSAL_NO_REPORT_ROOM,
    REFUSAL_NO_TREE_ROOM, REPORTS, ROW_EVENT, SETTING_OLD, TREES,
};

pub struct Port {
    setting: u32,
    buffers: [Vec<u32>; BUFFERS],
}

impl Port {
    pub fn with(setting: u32, lengths: Lengths) -> Port {
        Port { setting, buffers: lengths.map(|n| vec![0x5A5A5A5A; n]) }
    }

    /// The fewest numbers of each buffer with which the input is accepted.
    pub fn fitting(setting: u32, input: &Input) -> Port {
        let mut lengths = [64; BUFFERS];
        let answer = loop {
            let answer = Port::with(setting, lengths).parse(input);
            let short: &[usize] = match answer.number {
                ACCEPTED => break answer,
                REFUSAL_NO_EVENT_ROOM => &[EVENTS],
                REFUSAL_NO_REPORT_ROOM => &[REPORTS, POOL],
                REFUSAL_NO_TREE_ROOM => &[TREES, ERRORS],
                _ => panic!("{}: {answer:?}", input.name),
            };
            short.iter().for_each(|&i| lengths[i] *= 2)
        };
        // an answer does not say how many events there were
        let most = lengths[EVENTS] / ROW_EVENT;
        lengths = answer.used();
        let (mut refused, mut accepted) = (0, most);
        while refused < accepted {
            let events = (refused + accepted) / 2;
            lengths[EVENTS] = ROW_EVENT * events;
            match Port::with(setting, lengths).parse(input).number {
                ACCEPTED => accepted = events,
                _ => refused = events + 1,
            }
        }
        lengths[EVENTS] = ROW_EVENT * accepted;
        Port::with(setting, lengths)
    }

    pub fn lengths(&self) -> Lengths {
        self.buffers.each_ref().map(Vec::len)
    }

    pub fn bytes(&self) -> usize {
        4 * self.lengths().iter().sum::<usize>()
    }

    pub fn parse(&mut self, input: &Input) -> Answer {
        dt_parser_ffi::parse(input.entry, self.setting, input.text.as_bytes(), &input.tokens, &mut self.buffers)
    }
}

/// The call that reads the tokens itself.
pub struct TextPort {
    tokens: Vec<u32>,
    port: Port,
}

impl TextPort {
    /// So many numbers for the tokens, and the buffers of their parse.
    pub fn with(tokens: usize, lengths: Lengths) -> TextPort {
        TextPort { tokens: vec![0x5A5A5A5A; tokens], port: Port::with(SETTING_OLD, lengths) }
    }

    /// Ends after the first pass of lexing, which only counts: there is no room for a token.
    pub fn first_pass() -> TextPort {
        TextPort::with(0, [0; BUFFERS])
    }

    /// Ends after both passes of lexing: there is just room for the tokens, and none for their parse.
    pub fn lexing(input: &Input) -> TextPort {
        TextPort::with(input.tokens.len(), [0; BUFFERS])
    }

    /// Accepts the text, in the fewest numbers.
    pub fn fitting(input: &Input) -> TextPort {
        let port = Port::fitting(SETTING_OLD, input);
        TextPort { tokens: vec![0x5A5A5A5A; input.tokens.len()], port }
    }

    pub fn tokens(&self) -> &[u32] {
        &self.tokens
    }

    pub fn parse(&mut self, input: &Input) -> TextAnswer {
        let lent = |b: &mut Vec<u32>| Lent { numbers: b.as_mut_ptr(), len: b.len() };
        let (tokens, buffers) = (lent(&mut self.tokens), self.port.buffers.each_mut().map(lent));
        // Safety: six vectors of those lengths, borrowed alone
        unsafe { dt_parser_ffi::parse_text_lent(input.entry, SETTING_OLD, input.text.as_bytes(), tokens, buffers) }
    }
}

/// The calls that ask for rows of a source file.
pub struct QueryPort {
    list: Vec<u32>,
    pub port: Port,
}

impl QueryPort {
    /// So many numbers for the list, and the buffers of the parse.
    pub fn with(list: usize, lengths: Lengths) -> QueryPort {
        QueryPort { list: vec![0x5A5A5A5A; list], port: Port::with(SETTING_OLD, lengths) }
    }

    pub fn ask(&mut self, query: Query, input: &Input) -> ListAnswer {
        assert_eq!(input.entry, ENTRY_SOURCE_FILE, "{}: no source file", input.name);
        let lent = |b: &mut Vec<u32>| Lent { numbers: b.as_mut_ptr(), len: b.len() };
        let (list, buffers) = (lent(&mut self.list), self.port.buffers.each_mut().map(lent));
        let bytes = input.text.as_bytes();
        // Safety: six vectors of those lengths, borrowed alone
        unsafe { dt_parser_ffi::query_lent(query, SETTING_OLD, bytes, &input.tokens, buffers, list) }
    }
}
