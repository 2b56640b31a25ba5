//! A small reader of JSON, strict as RFC 8259 has it, for what the program writes.

/// A value; a number is kept as it was written.
#[derive(Clone, Debug, PartialEq)]
pub enum Value {
    Null,
    Number(String),
    Text(String),
    List(Vec<Value>),
    Object(Vec<(String, Value)>),
}

impl Value {
    /// The value of a field that is there once.
    pub fn field(&self, name: &str) -> &Value {
        let Value::Object(fields) = self else {
            panic!("no object: {self:?}")
        };
        let those: Vec<&Value> = fields
            .iter()
            .filter(|f| f.0 == name)
            .map(|f| &f.1)
            .collect();
        assert_eq!(those.len(), 1, "fields {name} in {self:?}");
        those[0]
    }

    pub fn has(&self, name: &str) -> bool {
        matches!(self, Value::Object(fields) if fields.iter().any(|field| field.0 == name))
    }
}

/// The one value that a text consists of.
pub fn value_of(text: &str) -> Value {
    let mut reader = Reader(text.chars().collect(), 0);
    let value = reader.value();
    assert_eq!(
        reader.1,
        reader.0.len(),
        "something after the value: {text}"
    );
    value
}

struct Reader(Vec<char>, usize);

impl Reader {
    fn peek(&self) -> char {
        self.0[self.1]
    }

    fn next(&mut self) -> char {
        self.1 += 1;
        self.0[self.1 - 1]
    }

    fn value(&mut self) -> Value {
        match self.peek() {
            '{' => Value::Object(self.listed('}', |reader| {
                let name = reader.text();
                assert_eq!(reader.next(), ':');
                (name, reader.value())
            })),
            '[' => Value::List(self.listed(']', Reader::value)),
            '"' => Value::Text(self.text()),
            'n' => {
                let word: String = (0..4).map(|_| self.next()).collect();
                assert_eq!(word, "null");
                Value::Null
            }
            _ => self.number(),
        }
    }

    fn listed<T>(&mut self, end: char, mut item: impl FnMut(&mut Reader) -> T) -> Vec<T> {
        let mut items = Vec::new();
        self.next();
        if self.peek() == end {
            self.next();
            return items;
        }
        loop {
            items.push(item(self));
            match self.next() {
                ',' => {}
                last => {
                    assert_eq!(last, end);
                    return items;
                }
            }
        }
    }

    fn number(&mut self) -> Value {
        let mut digits = String::new();
        while self.1 < self.0.len() && self.peek().is_ascii_digit() {
            digits.push(self.next());
        }
        assert!(!digits.is_empty() && (digits == "0" || !digits.starts_with('0')));
        Value::Number(digits)
    }

    fn text(&mut self) -> String {
        assert_eq!(self.next(), '"');
        let mut text = String::new();
        loop {
            match self.next() {
                '"' => return text,
                '\\' => text.push(match self.next() {
                    same @ ('"' | '\\' | '/') => same,
                    'u' => {
                        let digits: String = (0..4).map(|_| self.next()).collect();
                        char::from_u32(u32::from_str_radix(&digits, 16).unwrap()).unwrap()
                    }
                    other => panic!("escape {other:?}"),
                }),
                plain => {
                    assert!(plain >= ' ', "a control character as it is");
                    text.push(plain);
                }
            }
        }
    }
}
