//! JSON, read from front to back with no tree of values.

use std::borrow::Cow;

pub type Read<T> = Result<T, String>;

pub struct Json<'a> {
    text: &'a str,
    at: usize,
}

impl<'a> Json<'a> {
    pub fn new(text: &'a str) -> Json<'a> {
        Json { text, at: 0 }
    }

    fn wrong<T>(&self, wanted: &str) -> Read<T> {
        Err(format!("at byte {}: {wanted} is wanted", self.at))
    }

    /// The next byte that is no white space.
    fn peek(&mut self) -> Option<u8> {
        let bytes = self.text.as_bytes();
        while let Some(&byte) = bytes.get(self.at) {
            if !matches!(byte, b' ' | b'\n' | b'\r' | b'\t') {
                return Some(byte);
            }
            self.at += 1;
        }
        None
    }

    fn is_next(&mut self, byte: u8) -> bool {
        let is_next = self.peek() == Some(byte);
        self.at += is_next as usize;
        is_next
    }

    fn expect(&mut self, byte: u8) -> Read<()> {
        if self.is_next(byte) { Ok(()) } else { self.wrong(&format!("'{}'", byte as char)) }
    }

    pub fn end(&mut self) -> Read<()> {
        if self.peek().is_none() { Ok(()) } else { self.wrong("the end") }
    }

    /// Calls `field` with the name of each field, before its value, which it reads or skips.
    pub fn object(&mut self, mut field: impl FnMut(&mut Json<'a>, &str) -> Read<()>) -> Read<()> {
        self.expect(b'{')?;
        if self.is_next(b'}') {
            return Ok(());
        }
        loop {
            let name = self.string()?;
            self.expect(b':')?;
            field(self, &name)?;
            if !self.is_next(b',') {
                return self.expect(b'}');
            }
        }
    }

    pub fn list<T>(&mut self, mut element: impl FnMut(&mut Json<'a>) -> Read<T>) -> Read<Vec<T>> {
        let mut elements = Vec::new();
        self.expect(b'[')?;
        if self.is_next(b']') {
            return Ok(elements);
        }
        loop {
            elements.push(element(self)?);
            if !self.is_next(b',') {
                self.expect(b']')?;
                return Ok(elements);
            }
        }
    }

    pub fn number(&mut self) -> Read<u32> {
        self.peek();
        let digits = self.text[self.at..].bytes().take_while(u8::is_ascii_digit).count();
        let number = self.text[self.at..self.at + digits].parse();
        self.at += digits;
        number.or_else(|_| self.wrong("a number below 2^32"))
    }

    pub fn truth(&mut self) -> Read<bool> {
        self.peek();
        for (word, value) in [("true", true), ("false", false)] {
            if self.text[self.at..].starts_with(word) {
                self.at += word.len();
                return Ok(value);
            }
        }
        self.wrong("true or false")
    }

    pub fn string(&mut self) -> Read<Cow<'a, str>> {
        self.expect(b'"')?;
        let rest = &self.text[self.at..];
        match rest.bytes().position(|byte| byte == b'"' || byte == b'\\') {
            Some(length) if rest.as_bytes()[length] == b'"' => {
                self.at += length + 1;
                Ok(Cow::Borrowed(&rest[..length]))
            }
            _ => self.escaped().map(Cow::Owned),
        }
    }

    /// The rest of a string that has escapes.
    fn escaped(&mut self) -> Read<String> {
        let mut string = String::new();
        let mut chars = self.text[self.at..].char_indices();
        while let Some((place, char)) = chars.next() {
            match char {
                '"' => {
                    self.at += place + 1;
                    return Ok(string);
                }
                '\\' => match chars.next() {
                    Some((_, 'u')) => {
                        let digits: String = chars.by_ref().take(4).map(|(_, digit)| digit).collect();
                        let code = u32::from_str_radix(&digits, 16).ok();
                        string.push(code.and_then(char::from_u32).unwrap_or(char::REPLACEMENT_CHARACTER));
                    }
                    Some((_, letter)) => string.push(unescaped(letter)),
                    None => break,
                },
                _ => string.push(char),
            }
        }
        self.wrong("the end of a string")
    }

    /// Passes over a value of any kind.
    pub fn skip(&mut self) -> Read<()> {
        match self.peek() {
            Some(b'{') => self.object(|json, _| json.skip()),
            Some(b'[') => self.list(Json::skip).map(|_| ()),
            Some(b'"') => self.string().map(|_| ()),
            _ => {
                let is_part = |byte: &u8| byte.is_ascii_alphanumeric() || b"+-.".contains(byte);
                let length = self.text[self.at..].bytes().take_while(is_part).count();
                self.at += length;
                if length > 0 { Ok(()) } else { self.wrong("a value") }
            }
        }
    }
}

fn unescaped(letter: char) -> char {
    match letter {
        'b' => '\u{8}',
        'f' => '\u{c}',
        'n' => '\n',
        'r' => '\r',
        't' => '\t',
        other => other,
    }
}
