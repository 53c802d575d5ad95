//! A parser of JSON, strict enough to find what is none.

use std::collections::BTreeMap;

#[derive(Debug, PartialEq, Clone)]
pub enum Value {
    Null,
    Bool(bool),
    Number(f64),
    Text(String),
    List(Vec<Value>),
    Object(BTreeMap<String, Value>),
}

impl Value {
    /// One object in one line.
    pub fn of_line(line: &str) -> Value {
        assert!(line.ends_with('\n') && line.matches('\n').count() == 1, "not one line: {line}");
        let mut parser = Parser(line.trim_end_matches('\n').chars().collect(), 0);
        let value = parser.value();
        assert_eq!(parser.1, parser.0.len(), "more than one value: {line}");
        value
    }

    pub fn get(&self, name: &str) -> &Value {
        match self {
            Value::Object(fields) => {
                fields.get(name).unwrap_or_else(|| panic!("no {name} in {self:?}"))
            }
            _ => panic!("no object: {self:?}"),
        }
    }

    pub fn has(&self, name: &str) -> bool {
        matches!(self, Value::Object(fields) if fields.contains_key(name))
    }

    pub fn number(&self, name: &str) -> f64 {
        match self.get(name) {
            Value::Number(number) => *number,
            other => panic!("{name} is {other:?}"),
        }
    }

    pub fn text(&self, name: &str) -> &str {
        match self.get(name) {
            Value::Text(text) => text,
            other => panic!("{name} is {other:?}"),
        }
    }

    pub fn list(&self, name: &str) -> &[Value] {
        match self.get(name) {
            Value::List(items) => items,
            other => panic!("{name} is {other:?}"),
        }
    }
}

struct Parser(Vec<char>, usize);

impl Parser {
    fn peek(&self) -> char {
        *self.0.get(self.1).expect("the text ends")
    }

    fn next(&mut self) -> char {
        self.1 += 1;
        self.0[self.1 - 1]
    }

    fn expect(&mut self, text: &str) {
        for c in text.chars() {
            assert_eq!(self.next(), c);
        }
    }

    fn value(&mut self) -> Value {
        match self.peek() {
            'n' => {
                self.expect("null");
                Value::Null
            }
            't' => {
                self.expect("true");
                Value::Bool(true)
            }
            'f' => {
                self.expect("false");
                Value::Bool(false)
            }
            '"' => Value::Text(self.text()),
            '[' => self.list(),
            '{' => self.object(),
            _ => self.number(),
        }
    }

    fn number(&mut self) -> Value {
        let start = self.1;
        while self.1 < self.0.len() && "+-.0123456789eE".contains(self.peek()) {
            self.1 += 1;
        }
        let digits: String = self.0[start..self.1].iter().collect();
        Value::Number(digits.parse().unwrap())
    }

    fn text(&mut self) -> String {
        self.expect("\"");
        let mut text = String::new();
        loop {
            match self.next() {
                '"' => return text,
                '\\' => text.push(self.escape()),
                c => {
                    assert!(!c.is_control(), "a control character within a text");
                    text.push(c);
                }
            }
        }
    }

    fn escape(&mut self) -> char {
        match self.next() {
            'n' => '\n',
            'u' => {
                let digits: String = (0..4).map(|_| self.next()).collect();
                char::from_u32(u32::from_str_radix(&digits, 16).unwrap()).unwrap()
            }
            c @ ('"' | '\\') => c,
            c => panic!("an escape '{c}'"),
        }
    }

    fn list(&mut self) -> Value {
        self.expect("[");
        let mut items = vec![];
        while self.peek() != ']' {
            if !items.is_empty() {
                self.expect(",");
            }
            items.push(self.value());
        }
        self.expect("]");
        Value::List(items)
    }

    fn object(&mut self) -> Value {
        self.expect("{");
        let mut fields = BTreeMap::new();
        while self.peek() != '}' {
            if !fields.is_empty() {
                self.expect(",");
            }
            let name = self.text();
            self.expect(":");
            let value = self.value();
            assert!(fields.insert(name, value).is_none(), "a name twice");
        }
        self.expect("}");
        Value::Object(fields)
    }
}
