//! As much of JSON as the lines of the vectors have. The crate has no dependencies, and so its tests have none.

pub enum Json {
    Text(String),
    Number(u64),
    List(Vec<Json>),
    Object(Vec<(String, Json)>),
}

impl Json {
    pub fn of(line: &str) -> Json {
        let mut rest = line.chars().peekable();
        let value = value(&mut rest);
        assert!(rest.next().is_none(), "something behind the value");
        value
    }

    pub fn text(&self) -> &str {
        match self {
            Json::Text(text) => text,
            _ => panic!("no text"),
        }
    }

    pub fn number(&self) -> u64 {
        match self {
            Json::Number(number) => *number,
            _ => panic!("no number"),
        }
    }

    pub fn items(&self) -> &[Json] {
        match self {
            Json::List(items) => items,
            _ => panic!("no list"),
        }
    }

    pub fn get(&self, name: &str) -> Option<&Json> {
        match self {
            Json::Object(members) => members.iter().find(|member| member.0 == name).map(|member| &member.1),
            _ => panic!("no object"),
        }
    }
}

type Rest<'a> = std::iter::Peekable<std::str::Chars<'a>>;

/// Takes a character, and the blanks behind it, if it comes next.
fn takes(rest: &mut Rest, wanted: char) -> bool {
    let found = rest.next_if_eq(&wanted).is_some();
    while found && rest.next_if_eq(&' ').is_some() {}
    found
}

fn value(rest: &mut Rest) -> Json {
    match rest.peek() {
        Some('"') => Json::Text(text(rest)),
        Some('[') => {
            takes(rest, '[');
            Json::List(parts(rest, ']', value))
        }
        Some('{') => {
            takes(rest, '{');
            let member = |rest: &mut Rest| {
                let name = text(rest);
                assert!(takes(rest, ':'));
                (name, value(rest))
            };
            Json::Object(parts(rest, '}', member))
        }
        _ => {
            let digits: String = std::iter::from_fn(|| rest.next_if(char::is_ascii_digit)).collect();
            Json::Number(digits.parse().expect("a number"))
        }
    }
}

fn parts<T>(rest: &mut Rest, end: char, part: impl Fn(&mut Rest) -> T) -> Vec<T> {
    let mut found = Vec::new();
    while !takes(rest, end) {
        found.push(part(rest));
        takes(rest, ',');
    }
    found
}

fn text(rest: &mut Rest) -> String {
    let mut units = Vec::new();
    assert_eq!(rest.next(), Some('"'));
    loop {
        let letter = rest.next().expect("the end of a text");
        let meant = match letter {
            '"' => break,
            '\\' => match rest.next().expect("an escape") {
                'u' => {
                    let digits: String = rest.take(4).collect();
                    units.push(u16::from_str_radix(&digits, 16).expect("four digits"));
                    continue;
                }
                'n' => '\n',
                't' => '\t',
                'r' => '\r',
                'b' => '\u{8}',
                'f' => '\u{c}',
                itself => itself,
            },
            itself => itself,
        };
        units.extend_from_slice(meant.encode_utf16(&mut [0; 2]));
    }
    String::from_utf16(&units).expect("a text of characters")
}
