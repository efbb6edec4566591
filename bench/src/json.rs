//! As much of JSON as files of cases have: whole numbers, texts without escapes, lists, objects.

use std::collections::BTreeMap;

#[derive(Clone, Debug, PartialEq, Eq)]
pub enum Json {
    Number(u64),
    Text(String),
    List(Vec<Json>),
    Object(BTreeMap<String, Json>),
}

impl Json {
    /// What a text holds, or nothing where it is no JSON of this kind.
    pub fn parse(text: &str) -> Option<Json> {
        let mut parser = Parser { rest: text };
        let value = parser.value()?;
        parser.rest.trim_start().is_empty().then_some(value)
    }

    /// The value under a name of an object.
    pub fn get(&self, name: &str) -> Option<&Json> {
        match self {
            Json::Object(fields) => fields.get(name),
            _ => None,
        }
    }

    pub fn text(&self) -> Option<&str> {
        match self {
            Json::Text(text) => Some(text),
            _ => None,
        }
    }

    pub fn number<T: TryFrom<u64>>(&self) -> Option<T> {
        match self {
            Json::Number(number) => T::try_from(*number).ok(),
            _ => None,
        }
    }

    /// A list, each element by the same reading.
    pub fn list<T>(&self, each: impl Fn(&Json) -> Option<T>) -> Option<Vec<T>> {
        match self {
            Json::List(items) => items.iter().map(each).collect(),
            _ => None,
        }
    }

    pub fn numbers<T: TryFrom<u64>>(&self) -> Option<Vec<T>> {
        self.list(Json::number)
    }
}

struct Parser<'a> {
    rest: &'a str,
}

impl Parser<'_> {
    /// Passes over blanks and then this character, where it is the next.
    fn pass(&mut self, wanted: char) -> bool {
        let rest = self.rest.trim_start().strip_prefix(wanted);
        self.rest = rest.unwrap_or(self.rest);
        rest.is_some()
    }

    fn value(&mut self) -> Option<Json> {
        if self.pass('[') {
            return Some(Json::List(self.items(']', Parser::value)?));
        }
        if self.pass('{') {
            let fields = self.items('}', Parser::field)?;
            return Some(Json::Object(fields.into_iter().collect()));
        }
        if self.pass('"') {
            return Some(Json::Text(self.rest_of_text()?));
        }
        let text = self.rest.trim_start();
        let end = text.find(|c: char| !c.is_ascii_digit());
        let (digits, rest) = text.split_at(end.unwrap_or(text.len()));
        self.rest = rest;
        digits.parse().ok().map(Json::Number)
    }

    /// What stands up to a closing bracket, divided by commas.
    fn items<T>(&mut self, close: char, item: fn(&mut Self) -> Option<T>) -> Option<Vec<T>> {
        let mut items = Vec::new();
        if self.pass(close) {
            return Some(items);
        }
        loop {
            items.push(item(self)?);
            if self.pass(close) {
                return Some(items);
            }
            self.pass(',').then_some(())?;
        }
    }

    fn field(&mut self) -> Option<(String, Json)> {
        self.pass('"').then_some(())?;
        let name = self.rest_of_text()?;
        self.pass(':').then_some(())?;
        Some((name, self.value()?))
    }

    fn rest_of_text(&mut self) -> Option<String> {
        let (text, rest) = self.rest.split_once('"')?;
        self.rest = rest;
        (!text.contains('\\')).then(|| text.into())
    }
}
