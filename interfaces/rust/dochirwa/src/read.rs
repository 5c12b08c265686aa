//! Reads what the engine writes: the headers of items, and the few members of payloads that say what is lost with them.

use std::iter::Peekable;
use std::str::Chars;

/// A value of JSON, as far as it is of use here.
#[derive(Debug, PartialEq)]
pub(crate) enum Json {
    Number(u64),
    Text(String),
    List(Vec<Json>),
    Object(Vec<(String, Json)>),
    /// Null, a flag, or a number with a sign, a fraction or an exponent.
    Other,
}

impl Json {
    /// The value of a text; none where it isn't JSON.
    pub(crate) fn read(text: &str) -> Option<Json> {
        let mut reader = Reader(text.chars().peekable());
        let value = reader.value()?;
        reader.skip_spaces();
        reader.0.next().is_none().then_some(value)
    }

    pub(crate) fn get(&self, name: &str) -> Option<&Json> {
        match self {
            Json::Object(members) => members.iter().find(|it| it.0 == name).map(|it| &it.1),
            _ => None,
        }
    }

    pub(crate) fn number(&self, name: &str) -> Option<u64> {
        match self.get(name)? {
            Json::Number(number) => Some(*number),
            _ => None,
        }
    }

    pub(crate) fn text(&self, name: &str) -> Option<&str> {
        match self.get(name)? {
            Json::Text(text) => Some(text),
            _ => None,
        }
    }

    pub(crate) fn list(&self, name: &str) -> &[Json] {
        match self.get(name) {
            Some(Json::List(items)) => items,
            _ => &[],
        }
    }
}

struct Reader<'a>(Peekable<Chars<'a>>);

impl Reader<'_> {
    fn skip_spaces(&mut self) {
        while self.0.next_if(|it| it.is_ascii_whitespace()).is_some() {}
    }

    /// Takes a character, after spaces.
    fn take(&mut self, wanted: char) -> Option<()> {
        self.skip_spaces();
        self.0.next_if_eq(&wanted).map(drop)
    }

    fn value(&mut self) -> Option<Json> {
        self.skip_spaces();
        match *self.0.peek()? {
            '"' => self.text().map(Json::Text),
            '[' => self.between(['[', ']'], Reader::value).map(Json::List),
            '{' => self.between(['{', '}'], Reader::member).map(Json::Object),
            _ => self.word(),
        }
    }

    fn word(&mut self) -> Option<Json> {
        let mut word = String::new();
        while let Some(it) = self.0.next_if(|it| it.is_ascii_alphanumeric() || "+-.".contains(*it)) {
            word.push(it);
        }
        (!word.is_empty()).then(|| word.parse().map_or(Json::Other, Json::Number))
    }

    fn member(&mut self) -> Option<(String, Json)> {
        self.skip_spaces();
        let name = self.text()?;
        self.take(':')?;
        Some((name, self.value()?))
    }

    /// Items between brackets, with commas.
    fn between<T>(&mut self, [open, close]: [char; 2], item: impl Fn(&mut Self) -> Option<T>) -> Option<Vec<T>> {
        self.take(open)?;
        let mut items = Vec::new();
        if self.take(close).is_some() {
            return Some(items);
        }
        loop {
            items.push(item(self)?);
            if self.take(close).is_some() {
                return Some(items);
            }
            self.take(',')?;
        }
    }

    fn text(&mut self) -> Option<String> {
        self.0.next_if_eq(&'"')?;
        let mut text = String::new();
        loop {
            match self.0.next()? {
                '"' => return Some(text),
                '\\' => text.push(self.escaped()?),
                it => text.push(it),
            }
        }
    }

    /// What an escape stands for. Halves of pairs, which no name has that is looked for, are replaced.
    fn escaped(&mut self) -> Option<char> {
        Some(match self.0.next()? {
            'b' => '\u{8}',
            'f' => '\u{c}',
            'n' => '\n',
            'r' => '\r',
            't' => '\t',
            'u' => {
                let digits: String = self.0.by_ref().take(4).collect();
                char::from_u32(u32::from_str_radix(&digits, 16).ok()?).unwrap_or(char::REPLACEMENT_CHARACTER)
            }
            it => it,
        })
    }
}

/// An item of an envelope.
#[derive(Debug)]
pub struct Item<'a> {
    header: Json,
    whole: &'a [u8],
    payload: &'a [u8],
}

impl<'a> Item<'a> {
    /// The item that a text begins with, and what follows it.
    fn read(text: &'a [u8]) -> Option<(Item<'a>, &'a [u8])> {
        let end = text.iter().position(|it| *it == b'\n')?;
        let header = Json::read(std::str::from_utf8(&text[..end]).ok()?)?;
        let after = end + 1 + usize::try_from(header.number("length")?).ok()?;
        let item = Item { header, whole: text.get(..after)?, payload: text.get(end + 1..after)? };
        Some((item, text[after..].strip_prefix(b"\n").unwrap_or(&text[after..])))
    }

    /// What the item is, such as event, transaction or log.
    pub fn ty(&self) -> &str {
        self.header.text("type").unwrap_or("")
    }

    /// The bytes of the item, which are JSON unless it is an attachment.
    pub fn payload(&self) -> &'a [u8] {
        self.payload
    }

    /// How many things it holds, if it holds several of a kind.
    pub(crate) fn count(&self) -> u64 {
        self.header.number("item_count").unwrap_or(1)
    }

    /// The item with its header.
    pub(crate) fn whole(&self) -> &'a [u8] {
        self.whole
    }

    pub(crate) fn json(&self) -> Json {
        std::str::from_utf8(self.payload).ok().and_then(Json::read).unwrap_or(Json::Other)
    }
}

/// The items of an envelope, up to one that can't be read.
pub(crate) fn items(envelope: &[u8]) -> impl Iterator<Item = Item<'_>> {
    let end = envelope.iter().position(|it| *it == b'\n').map_or(envelope.len(), |it| it + 1);
    let mut rest = &envelope[end..];
    std::iter::from_fn(move || {
        let (item, after) = Item::read(rest)?;
        rest = after;
        Some(item)
    })
}

#[cfg(test)]
mod tests {
    use super::{items, Json};

    #[test]
    fn json_is_read() {
        let json = Json::read(" {\"a\\u0022\": [1, -2, 1.5, null, true, {}, [ ]], \"b\":\"c\\n\" } ").unwrap();
        let list = vec![
            Json::Number(1),
            Json::Other,
            Json::Other,
            Json::Other,
            Json::Other,
            Json::Object(vec![]),
            Json::List(vec![]),
        ];
        assert_eq!(json, Json::Object(vec![("a\"".into(), Json::List(list)), ("b".into(), Json::Text("c\n".into()))]));
        for text in ["", "{", "[1,]", "{\"a\"}", "\"a", "1 2"] {
            assert_eq!(Json::read(text), None, "{text}");
        }
    }

    #[test]
    fn items_are_read_by_their_length() {
        let envelope = b"{}\n{\"type\":\"attachment\",\"length\":3,\"filename\":\"\\\"type\\\":\\\"event\\\"\"}\n\n\n\n\n{\"type\":\"log\",\"item_count\":2,\"length\":2}\n{}\n";
        let found: Vec<_> = items(envelope).map(|it| (it.ty().to_string(), it.payload(), it.count())).collect();
        assert_eq!(
            found,
            [("attachment".to_string(), b"\n\n\n".as_slice(), 1), ("log".to_string(), b"{}".as_slice(), 2)]
        );
        assert_eq!(items(b"{}\n{\"type\":\"event\",\"length\":9}\n{}").count(), 0);
    }
}
