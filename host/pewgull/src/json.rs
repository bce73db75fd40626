//! JSON objects of whole numbers, words and lists of such objects.

/// A value of an object.
pub enum Value {
    Number(u64),
    Text(String),
    /// Objects, in their order
    List(Vec<Vec<Member>>),
}

/// A key and its value.
pub type Member = (String, Value);

/// A member whose value is a whole number.
pub fn number(key: &str, value: impl Into<u64>) -> Member {
    (key.to_string(), Value::Number(value.into()))
}

/// A member whose value is text.
pub fn text(key: &str, value: &str) -> Member {
    (key.to_string(), Value::Text(value.to_string()))
}

/// One object on a line.
pub fn object(members: &[Member]) -> String {
    braced(members) + "\n"
}

fn braced(members: &[Member]) -> String {
    let members: Vec<String> = members
        .iter()
        .map(|(key, value)| format!("{}: {}", quoted(key), written(value)))
        .collect();
    format!("{{{}}}", members.join(", "))
}

fn written(value: &Value) -> String {
    match value {
        Value::Number(number) => number.to_string(),
        Value::Text(text) => quoted(text),
        Value::List(objects) => {
            let objects: Vec<String> = objects.iter().map(|object| braced(object)).collect();
            format!("[{}]", objects.join(", "))
        }
    }
}

/// The labels and numbers of a listing.
pub fn members(listing: &str) -> Vec<Member> {
    listing
        .lines()
        .filter_map(|line| line.split_once(' '))
        .filter_map(|(label, number)| {
            let number = number.parse().ok()?;
            Some((label.to_string(), Value::Number(number)))
        })
        .collect()
}

fn quoted(text: &str) -> String {
    let mut out = String::from("\"");
    for c in text.chars() {
        match c {
            '"' => out.push_str("\\\""),
            '\\' => out.push_str("\\\\"),
            '\n' => out.push_str("\\n"),
            c if c.is_control() => out.push_str(&format!("\\u{:04x}", u32::from(c))),
            c => out.push(c),
        }
    }
    out.push('"');
    out
}

#[cfg(test)]
mod tests {
    use super::*;

    #[test]
    fn a_listing_becomes_an_object() {
        let object = object(&members("fraction 300\nreturn 75\n"));
        assert_eq!(object, "{\"fraction\": 300, \"return\": 75}\n");
    }

    #[test]
    fn a_list_of_objects() {
        let line = |line: u32| vec![number("line", line), text("word", "w")];
        let list = |lines| object(&[("lines".to_string(), Value::List(lines))]);
        let expected = "{\"lines\": [{\"line\": 1, \"word\": \"w\"}, \
            {\"line\": 2, \"word\": \"w\"}]}\n";
        assert_eq!(list(vec![line(1), line(2)]), expected);
        assert_eq!(list(Vec::new()), "{\"lines\": []}\n");
    }

    #[test]
    fn text_is_quoted() {
        assert_eq!(
            quoted("a\"b\\c\n\u{1b}\u{e4}"),
            "\"a\\\"b\\\\c\\n\\u001b\u{e4}\""
        );
    }
}
