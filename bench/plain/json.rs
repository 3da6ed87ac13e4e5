//! JSON texts, borrowed from the input where they have no escapes. Deep nesting and doubles are read loosely: no measured input has them.

use std::borrow::Cow;

pub enum Json<'a> {
    Null,
    Truth(bool),
    Number(u64),
    Other,
    Text(Cow<'a, str>),
    List(Vec<Json<'a>>),
    Object(Vec<(Cow<'a, str>, Json<'a>)>),
}

impl<'a> Json<'a> {
    pub fn text(&self) -> Option<&str> {
        match self {
            Json::Text(text) => Some(text),
            _ => None,
        }
    }

    pub fn number(&self) -> Option<u64> {
        match self {
            Json::Number(number) => Some(*number),
            _ => None,
        }
    }

    pub fn list(&self) -> Option<&[Json<'a>]> {
        match self {
            Json::List(items) => Some(items),
            _ => None,
        }
    }
}

/// The members of the object that a body is.
pub fn members(bytes: &[u8]) -> Option<Vec<(Cow<'_, str>, Json<'_>)>> {
    let text = std::str::from_utf8(bytes).ok()?;
    let mut reader = Reader { text, bytes, at: 0 };
    let value = reader.value()?;
    reader.space();
    match value {
        Json::Object(members) if reader.at == bytes.len() => Some(members),
        _ => None,
    }
}

struct Reader<'a> {
    text: &'a str,
    bytes: &'a [u8],
    at: usize,
}

impl<'a> Reader<'a> {
    fn space(&mut self) {
        while matches!(self.bytes.get(self.at), Some(b' ' | b'\n' | b'\r' | b'\t')) {
            self.at += 1;
        }
    }

    fn next(&mut self) -> Option<u8> {
        self.space();
        let byte = *self.bytes.get(self.at)?;
        self.at += 1;
        Some(byte)
    }

    fn word(&mut self, rest: &str, value: Json<'a>) -> Option<Json<'a>> {
        let found = self.bytes.get(self.at..self.at + rest.len())? == rest.as_bytes();
        self.at += rest.len();
        found.then_some(value)
    }

    fn value(&mut self) -> Option<Json<'a>> {
        match self.next()? {
            b'n' => self.word("ull", Json::Null),
            b't' => self.word("rue", Json::Truth(true)),
            b'f' => self.word("alse", Json::Truth(false)),
            b'"' => self.rest_of_text().map(Json::Text),
            b'[' => self.rest_of_list(),
            b'{' => self.rest_of_object(),
            digit @ (b'0'..=b'9' | b'-') => self.rest_of_number(digit),
            _ => None,
        }
    }

    fn rest_of_number(&mut self, first: u8) -> Option<Json<'a>> {
        let mut number = Some(u64::from(first.wrapping_sub(b'0')));
        let mut whole = first != b'-';
        while let Some(byte @ (b'0'..=b'9' | b'.' | b'e' | b'E' | b'+' | b'-')) = self.bytes.get(self.at) {
            whole &= byte.is_ascii_digit();
            number = number.and_then(|it| it.checked_mul(10)?.checked_add(u64::from(byte.wrapping_sub(b'0'))));
            self.at += 1;
        }
        Some(number.filter(|_| whole).map_or(Json::Other, Json::Number))
    }

    fn rest_of_text(&mut self) -> Option<Cow<'a, str>> {
        let start = self.at;
        loop {
            match *self.bytes.get(self.at)? {
                b'"' => break,
                b'\\' => return self.rest_with_escapes(start),
                0..=31 => return None,
                _ => self.at += 1,
            }
        }
        self.at += 1;
        Some(Cow::Borrowed(&self.text[start..self.at - 1]))
    }

    fn rest_with_escapes(&mut self, start: usize) -> Option<Cow<'a, str>> {
        let mut text = self.bytes[start..self.at].to_vec();
        loop {
            let byte = *self.bytes.get(self.at)?;
            self.at += 1;
            match byte {
                b'"' => return String::from_utf8(text).ok().map(Cow::Owned),
                b'\\' => self.escape(&mut text)?,
                0..=31 => return None,
                _ => text.push(byte),
            }
        }
    }

    fn escape(&mut self, text: &mut Vec<u8>) -> Option<()> {
        let byte = *self.bytes.get(self.at)?;
        self.at += 1;
        let plain = match byte {
            b'"' | b'\\' | b'/' => byte,
            b'b' => 8,
            b'f' => 12,
            b'n' => b'\n',
            b'r' => b'\r',
            b't' => b'\t',
            b'u' => {
                let unit = u32::from_str_radix(self.text.get(self.at..self.at + 4)?, 16).ok()?;
                self.at += 4;
                text.extend_from_slice(char::from_u32(unit)?.encode_utf8(&mut [0; 4]).as_bytes());
                return Some(());
            }
            _ => return None,
        };
        text.push(plain);
        Some(())
    }

    fn rest_of_list(&mut self) -> Option<Json<'a>> {
        let mut items = Vec::new();
        self.space();
        if self.bytes.get(self.at) == Some(&b']') {
            self.at += 1;
            return Some(Json::List(items));
        }
        loop {
            items.push(self.value()?);
            match self.next()? {
                b',' => {}
                b']' => return Some(Json::List(items)),
                _ => return None,
            }
        }
    }

    fn rest_of_object(&mut self) -> Option<Json<'a>> {
        let mut members = Vec::new();
        self.space();
        if self.bytes.get(self.at) == Some(&b'}') {
            self.at += 1;
            return Some(Json::Object(members));
        }
        loop {
            if self.next()? != b'"' {
                return None;
            }
            let key = self.rest_of_text()?;
            if self.next()? != b':' {
                return None;
            }
            members.push((key, self.value()?));
            match self.next()? {
                b',' => {}
                b'}' => return Some(Json::Object(members)),
                _ => return None,
            }
        }
    }
}
