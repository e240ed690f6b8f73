//! The depth count of rule 10 and the grammar of RFC 8259 (rule 11), as a tree.

/// A JSON value. Strings and numbers are as the text spells them.
#[derive(Debug, PartialEq, Eq)]
pub enum Json {
    Null,
    Bool(bool),
    Number(Vec<u8>),
    String(Vec<u8>),
    Array(Vec<Json>),
    Object(Vec<(Vec<u8>, Json)>),
}

impl Json {
    /// The value of an object's first member of that name, which has no escape in it.
    pub fn member(&self, name: &str) -> Option<&Json> {
        match self {
            Json::Object(members) => members.iter().find(|(key, _)| key == name.as_bytes()).map(|(_, value)| value),
            _ => None,
        }
    }

    /// The value is this string, spelled plainly.
    pub fn is_string(&self, plain: &str) -> bool {
        matches!(self, Json::String(text) if text == plain.as_bytes())
    }
}

/// The greatest depth count over the whole text.
pub fn depth(text: &[u8]) -> usize {
    let (mut depth, mut greatest) = (0usize, 0);
    let (mut in_string, mut hidden) = (false, false);
    for &byte in text {
        if in_string {
            match byte {
                _ if hidden => hidden = false,
                b'\\' => hidden = true,
                b'"' => in_string = false,
                _ => {}
            }
        } else {
            match byte {
                b'"' => in_string = true,
                b'{' | b'[' => depth += 1,
                b'}' | b']' => depth = depth.saturating_sub(1),
                _ => {}
            }
        }
        greatest = greatest.max(depth);
    }
    greatest
}

/// The text's value, where it is a JSON text whose value is an object.
pub fn parse_object(text: &[u8]) -> Option<Json> {
    let mut parser = Parser { text, at: 0 };
    parser.space();
    let value = parser.value()?;
    parser.space();
    (parser.at == text.len() && matches!(value, Json::Object(_))).then_some(value)
}

/// A place in the text. Each method reads one rule of the grammar and answers None where it does not stand there.
struct Parser<'a> {
    text: &'a [u8],
    at: usize,
}

impl Parser<'_> {
    fn peek(&self) -> Option<u8> {
        self.text.get(self.at).copied()
    }

    /// Takes this byte if it is next.
    fn take(&mut self, byte: u8) -> bool {
        let found = self.peek() == Some(byte);
        self.at += usize::from(found);
        found
    }

    /// ws = *( %x20 / %x09 / %x0A / %x0D )
    fn space(&mut self) {
        while matches!(self.peek(), Some(b' ' | b'\t' | b'\n' | b'\r')) {
            self.at += 1;
        }
    }

    /// value = false / null / true / object / array / number / string
    fn value(&mut self) -> Option<Json> {
        match self.peek()? {
            b'{' => self.object(),
            b'[' => self.array(),
            b'"' => self.string().map(Json::String),
            b'-' | b'0'..=b'9' => self.number(),
            b't' => self.literal("true", Json::Bool(true)),
            b'f' => self.literal("false", Json::Bool(false)),
            b'n' => self.literal("null", Json::Null),
            _ => None,
        }
    }

    fn literal(&mut self, spelling: &str, value: Json) -> Option<Json> {
        self.text[self.at..].starts_with(spelling.as_bytes()).then(|| self.at += spelling.len())?;
        Some(value)
    }

    /// object = begin-object [ member *( value-separator member ) ] end-object
    fn object(&mut self) -> Option<Json> {
        self.take(b'{').then_some(())?;
        let mut members = Vec::new();
        self.space();
        if self.take(b'}') {
            return Some(Json::Object(members));
        }
        loop {
            self.space();
            let name = self.string()?;
            self.space();
            self.take(b':').then_some(())?;
            self.space();
            members.push((name, self.value()?));
            self.space();
            if !self.take(b',') {
                return self.take(b'}').then_some(Json::Object(members));
            }
        }
    }

    /// array = begin-array [ value *( value-separator value ) ] end-array
    fn array(&mut self) -> Option<Json> {
        self.take(b'[').then_some(())?;
        let mut values = Vec::new();
        self.space();
        if self.take(b']') {
            return Some(Json::Array(values));
        }
        loop {
            self.space();
            values.push(self.value()?);
            self.space();
            if !self.take(b',') {
                return self.take(b']').then_some(Json::Array(values));
            }
        }
    }

    /// string = quotation-mark *char quotation-mark; what stands between the marks, as it is spelled.
    fn string(&mut self) -> Option<Vec<u8>> {
        self.take(b'"').then_some(())?;
        let start = self.at;
        loop {
            match self.peek()? {
                b'"' => break,
                b'\\' => self.escape()?,
                0x00..=0x1F => return None,
                _ => self.at += 1,
            }
        }
        let text = self.text[start..self.at].to_vec();
        self.at += 1;
        Some(text)
    }

    /// A backslash and what may follow it.
    fn escape(&mut self) -> Option<()> {
        let length = match self.text.get(self.at + 1)? {
            b'"' | b'\\' | b'/' | b'b' | b'f' | b'n' | b'r' | b't' => 2,
            b'u' => {
                let digits = self.text.get(self.at + 2..self.at + 6)?;
                digits.iter().all(u8::is_ascii_hexdigit).then_some(6)?
            }
            _ => return None,
        };
        self.at += length;
        Some(())
    }

    /// number = [ minus ] int [ frac ] [ exp ]
    fn number(&mut self) -> Option<Json> {
        let start = self.at;
        self.take(b'-');
        if !self.take(b'0') {
            self.digits()?;
        }
        if self.take(b'.') {
            self.digits()?;
        }
        if matches!(self.peek(), Some(b'e' | b'E')) {
            self.at += 1;
            if matches!(self.peek(), Some(b'+' | b'-')) {
                self.at += 1;
            }
            self.digits()?;
        }
        Some(Json::Number(self.text[start..self.at].to_vec()))
    }

    /// 1*DIGIT
    fn digits(&mut self) -> Option<()> {
        let start = self.at;
        while matches!(self.peek(), Some(b'0'..=b'9')) {
            self.at += 1;
        }
        (self.at > start).then_some(())
    }
}
