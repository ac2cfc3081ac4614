//! A reader of JSON, just good enough for `data/published_examples.json`: whole numbers only, and no `\u` in strings.

#[derive(Clone, Debug, PartialEq)]
pub enum Json {
    Null,
    Bool(bool),
    Number(i64),
    Text(String),
    List(Vec<Json>),
    Object(Vec<(String, Json)>),
}

impl Json {
    /// The entry of an object. Panics if there is none: a test should stop there.
    pub fn get(&self, name: &str) -> &Json {
        match self {
            Json::Object(entries) => match entries.iter().find(|(key, _)| key == name) {
                Some((_, value)) => value,
                None => panic!("no {name} in {self:?}"),
            },
            _ => panic!("no object: {self:?}"),
        }
    }

    pub fn list(&self) -> &[Json] {
        match self {
            Json::List(entries) => entries,
            _ => panic!("no list: {self:?}"),
        }
    }

    pub fn text(&self) -> &str {
        match self {
            Json::Text(text) => text,
            _ => panic!("no text: {self:?}"),
        }
    }

    pub fn number(&self) -> i64 {
        match self {
            Json::Number(number) => *number,
            _ => panic!("no number: {self:?}"),
        }
    }

    pub fn numbers(&self) -> Vec<u32> {
        self.list().iter().map(|entry| u32::try_from(entry.number()).expect("a u32")).collect()
    }

    pub fn is_null(&self) -> bool {
        *self == Json::Null
    }
}

/// Reads a whole text.
pub fn read(text: &str) -> Result<Json, String> {
    let mut reader = Reader { text: text.as_bytes(), at: 0 };
    let value = reader.value()?;
    reader.blanks();
    if reader.at == reader.text.len() {
        Ok(value)
    } else {
        Err(reader.wrong("the end"))
    }
}

struct Reader<'a> {
    text: &'a [u8],
    at: usize,
}

impl Reader<'_> {
    fn wrong(&self, wanted: &str) -> String {
        format!("{wanted} wanted at byte {}", self.at)
    }

    fn blanks(&mut self) {
        while self.text.get(self.at).is_some_and(u8::is_ascii_whitespace) {
            self.at += 1;
        }
    }

    /// Goes over the word if it stands here.
    fn skip(&mut self, word: &str) -> bool {
        self.blanks();
        let here = self.text[self.at..].starts_with(word.as_bytes());
        if here {
            self.at += word.len();
        }
        here
    }

    fn value(&mut self) -> Result<Json, String> {
        self.blanks();
        for (word, value) in [("null", Json::Null), ("true", Json::Bool(true)), ("false", Json::Bool(false))] {
            if self.skip(word) {
                return Ok(value);
            }
        }
        match self.text.get(self.at) {
            Some(b'"') => Ok(Json::Text(self.string()?)),
            Some(b'[') => self.entries('[', ']', Reader::value).map(Json::List),
            Some(b'{') => self.entries('{', '}', Reader::pair).map(Json::Object),
            _ => self.whole_number(),
        }
    }

    fn entries<T>(
        &mut self,
        open: char,
        close: char,
        entry: fn(&mut Self) -> Result<T, String>,
    ) -> Result<Vec<T>, String> {
        let mut entries = vec![];
        self.skip(&open.to_string());
        if self.skip(&close.to_string()) {
            return Ok(entries);
        }
        loop {
            entries.push(entry(self)?);
            if self.skip(&close.to_string()) {
                return Ok(entries);
            }
            if !self.skip(",") {
                return Err(self.wrong("a comma"));
            }
        }
    }

    fn pair(&mut self) -> Result<(String, Json), String> {
        self.blanks();
        let name = self.string()?;
        if !self.skip(":") {
            return Err(self.wrong("a colon"));
        }
        Ok((name, self.value()?))
    }

    fn string(&mut self) -> Result<String, String> {
        if !self.skip("\"") {
            return Err(self.wrong("a string"));
        }
        let mut bytes = vec![];
        loop {
            let byte = *self.text.get(self.at).ok_or_else(|| self.wrong("a quote"))?;
            self.at += 1;
            match byte {
                b'"' => return String::from_utf8(bytes).map_err(|wrong| wrong.to_string()),
                b'\\' => {
                    let escaped = *self.text.get(self.at).ok_or_else(|| self.wrong("an escape"))?;
                    self.at += 1;
                    bytes.push(match escaped {
                        b'n' => b'\n',
                        b't' => b'\t',
                        b'"' | b'\\' | b'/' => escaped,
                        _ => return Err(self.wrong("a known escape")),
                    });
                }
                _ => bytes.push(byte),
            }
        }
    }

    fn whole_number(&mut self) -> Result<Json, String> {
        let start = self.at;
        while self.text.get(self.at).is_some_and(|byte| byte.is_ascii_digit() || *byte == b'-') {
            self.at += 1;
        }
        let digits = std::str::from_utf8(&self.text[start..self.at]).map_err(|wrong| wrong.to_string())?;
        digits.parse().map(Json::Number).map_err(|_| self.wrong("a value"))
    }
}

#[cfg(test)]
mod tests {
    use super::*;

    #[test]
    fn values() {
        let text = r#" {"a": [1, -2, null, true, false], "b": "x\"y", "c": {}, "d": []} "#;
        let value = read(text).unwrap();
        assert_eq!(value.get("a").list()[1].number(), -2);
        assert!(value.get("a").list()[2].is_null());
        assert_eq!(value.get("b").text(), "x\"y");
        assert_eq!(*value.get("c"), Json::Object(vec![]));
        assert_eq!(*value.get("d"), Json::List(vec![]));
        for wrong in ["", "[1", "[1 2]", "{1: 2}", "\"", "1 2", "nul"] {
            assert!(read(wrong).is_err(), "{wrong}");
        }
    }
}
