//! A small reader of JSON, which knows nothing of how dtparse writes it.

#[derive(Debug, Clone, PartialEq)]
pub enum Json {
    Null,
    Word(bool),
    Number(usize),
    Text(String),
    List(Vec<Json>),
    Object(Vec<(String, Json)>),
}

/// Reads JSON, and nothing that is not: no comma too many, no bare control character, no key twice.
pub struct Reader<'t> {
    rest: &'t str,
}

impl Reader<'_> {
    pub fn read(text: &str) -> Json {
        let mut reader = Reader { rest: text };
        let value = reader.value();
        assert_eq!(reader.rest.trim_start(), "", "after the document");
        value
    }

    fn take(&mut self, sign: &str) -> bool {
        self.rest = self.rest.trim_start_matches([' ', '\n', '\r', '\t']);
        let after = self.rest.strip_prefix(sign);
        self.rest = after.unwrap_or(self.rest);
        after.is_some()
    }

    fn value(&mut self) -> Json {
        match self {
            _ if self.take("null") => Json::Null,
            _ if self.take("true") => Json::Word(true),
            _ if self.take("false") => Json::Word(false),
            _ if self.take("[") => Json::List(self.parts("]", Self::value)),
            _ if self.take("{") => {
                let fields = self.parts("}", Self::field);
                let keys: std::collections::HashSet<&String> = fields.iter().map(|(key, _)| key).collect();
                assert_eq!(keys.len(), fields.len(), "a key twice");
                Json::Object(fields)
            }
            _ if self.take("\"") => Json::Text(self.text()),
            _ => self.number(),
        }
    }

    fn parts<T>(&mut self, end: &str, mut part: impl FnMut(&mut Self) -> T) -> Vec<T> {
        let mut parts = Vec::new();
        while !self.take(end) {
            assert!(parts.is_empty() || self.take(","), "no comma at {:.40}", self.rest);
            parts.push(part(self));
        }
        parts
    }

    fn field(&mut self) -> (String, Json) {
        assert!(self.take("\""), "no key at {:.40}", self.rest);
        let key = self.text();
        assert!(self.take(":"), "no colon at {:.40}", self.rest);
        (key, self.value())
    }

    fn number(&mut self) -> Json {
        let end = self.rest.find(|c: char| !c.is_ascii_digit()).unwrap_or(self.rest.len());
        let (digits, rest) = self.rest.split_at(end);
        assert!(digits == "0" || !digits.starts_with('0'), "{digits}");
        self.rest = rest;
        Json::Number(digits.parse().unwrap_or_else(|_| panic!("no value at {rest:.40}")))
    }

    /// A string, after its first quote.
    fn text(&mut self) -> String {
        let mut out = String::new();
        let mut characters = self.rest.chars();
        loop {
            match characters.next().expect("a string's end") {
                '"' => break,
                '\\' => out.push(match characters.next().unwrap() {
                    sign @ ('"' | '\\' | '/') => sign,
                    'n' => '\n',
                    'r' => '\r',
                    't' => '\t',
                    'u' => {
                        let digits: String = characters.by_ref().take(4).collect();
                        char::from_u32(u32::from_str_radix(&digits, 16).unwrap()).expect("no surrogate")
                    }
                    other => panic!("\\{other}"),
                }),
                control if control < ' ' => panic!("{control:?} in a string"),
                other => out.push(other),
            }
        }
        self.rest = characters.as_str();
        out
    }
}

impl Json {
    /// What stands at a path: keys, and numbers of a list's parts.
    pub fn at(&self, path: &str) -> &Self {
        path.split('.').fold(self, |value, step| match value {
            Self::Object(fields) => {
                let found = fields.iter().find(|(key, _)| key == step);
                found.map(|(_, value)| value).unwrap_or_else(|| panic!("{step} of {path}"))
            }
            Self::List(parts) => &parts[step.parse::<usize>().unwrap()],
            other => panic!("{step} of {path} in {other:?}"),
        })
    }

    pub fn number(&self, path: &str) -> usize {
        match self.at(path) {
            Self::Number(number) => *number,
            other => panic!("{path}: {other:?}"),
        }
    }

    pub fn text(&self, path: &str) -> &str {
        match self.at(path) {
            Self::Text(text) => text,
            other => panic!("{path}: {other:?}"),
        }
    }

    pub fn list(&self, path: &str) -> &[Self] {
        match self.at(path) {
            Self::List(parts) => parts,
            other => panic!("{path}: {other:?}"),
        }
    }
}
