//! JSON, as far as the tests of `couplingnut report --json` read it.

use std::collections::BTreeMap;
use std::iter::Peekable;
use std::str::Chars;

#[derive(Clone, Debug, PartialEq)]
pub enum Json {
    Null,
    Bool(bool),
    Number(f64),
    Text(String),
    List(Vec<Json>),
    Object(BTreeMap<String, Json>),
}

impl Json {
    /// The value of a text that is nothing else.
    pub fn parse(text: &str) -> Json {
        let mut reader = Reader { rest: text.trim().chars().peekable() };
        let value = reader.value();
        assert_eq!(reader.rest.next(), None, "words after the value");
        value
    }

    /// A part of an object, which has to be there.
    pub fn at(&self, name: &str) -> &Json {
        match self {
            Json::Object(parts) => parts.get(name).unwrap_or_else(|| panic!("there is no {name}")),
            other => panic!("{name} of {other:?}"),
        }
    }

    pub fn list(&self) -> &[Json] {
        match self {
            Json::List(items) => items,
            other => panic!("no list: {other:?}"),
        }
    }

    pub fn text(&self) -> &str {
        match self {
            Json::Text(text) => text,
            other => panic!("no text: {other:?}"),
        }
    }

    pub fn number(&self) -> usize {
        match self {
            Json::Number(number) => *number as usize,
            other => panic!("no number: {other:?}"),
        }
    }
}

struct Reader<'a> {
    rest: Peekable<Chars<'a>>,
}

impl Reader<'_> {
    fn skip(&mut self) {
        while self.rest.next_if(|letter| letter.is_whitespace()).is_some() {}
    }

    fn expect(&mut self, letter: char) {
        self.skip();
        assert_eq!(self.rest.next(), Some(letter));
    }

    fn next_is(&mut self, letter: char) -> bool {
        self.skip();
        self.rest.next_if_eq(&letter).is_some()
    }

    fn value(&mut self) -> Json {
        self.skip();
        match self.rest.peek().expect("a value") {
            '"' => Json::Text(self.text()),
            '[' => self.list(),
            '{' => self.object(),
            _ => self.word(),
        }
    }

    fn text(&mut self) -> String {
        self.expect('"');
        let mut text = String::new();
        loop {
            match self.rest.next().expect("the end of a text") {
                '"' => return text,
                '\\' => text.push(self.escaped()),
                letter => text.push(letter),
            }
        }
    }

    fn escaped(&mut self) -> char {
        match self.rest.next().expect("an escaped letter") {
            'n' => '\n',
            't' => '\t',
            'u' => {
                let digits: String = (0..4).filter_map(|_| self.rest.next()).collect();
                let code = u32::from_str_radix(&digits, 16).expect("four digits");
                char::from_u32(code).expect("a letter")
            }
            letter => letter,
        }
    }

    fn list(&mut self) -> Json {
        self.expect('[');
        let mut items = Vec::new();
        while !self.next_is(']') {
            items.push(self.value());
            self.next_is(',');
        }
        Json::List(items)
    }

    fn object(&mut self) -> Json {
        self.expect('{');
        let mut parts = BTreeMap::new();
        while !self.next_is('}') {
            self.skip();
            let name = self.text();
            self.expect(':');
            parts.insert(name, self.value());
            self.next_is(',');
        }
        Json::Object(parts)
    }

    fn word(&mut self) -> Json {
        let mut word = String::new();
        while let Some(letter) = self.rest.next_if(|letter| !",]} \n".contains(*letter)) {
            word.push(letter);
        }
        match word.as_str() {
            "null" => Json::Null,
            "true" => Json::Bool(true),
            "false" => Json::Bool(false),
            number => Json::Number(number.parse().expect("a number")),
        }
    }
}
