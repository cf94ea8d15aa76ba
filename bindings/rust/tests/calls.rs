use std::thread;
use yamlcanon::{canonical, events, release, same, sha256, show, to_json, version, JsonError, Kind, Limits, Side, FORM};

/// Block mappings, each with a tag and an anchor on lines of their own.
fn blocks(levels: usize) -> String {
    let mut text = String::new();
    for level in 0..levels {
        let dent = " ".repeat(level);
        text += &format!("{dent}a:\n{dent} !x\n{dent} &y\n");
    }
    text + &" ".repeat(levels) + "x"
}

/// Flow mappings in one another: what takes the most stack.
fn flow_mappings(levels: usize) -> String {
    "{a: ".repeat(levels) + "x" + &"}".repeat(levels)
}

#[test]
fn texts() {
    assert_eq!(canonical(b"{b: 0x1, a: [~]}").unwrap(), b"--- {\"a\" : [!!null \"null\"], \"b\" : !!int \"1\"}\n");
    assert_eq!(canonical(b"").unwrap(), b"");
    assert_eq!(events(b"a").unwrap(), b"+STR\n+DOC\n=VAL :a\n-DOC\n-STR\n");
}

#[test]
fn a_text_longer_than_the_first_room() {
    let many = "- \n".repeat(10_000);
    let text = canonical(many.as_bytes()).unwrap();
    assert!(text.len() > 2 * many.len() + 64);
    assert_eq!(canonical(&text).unwrap(), text);
}

#[test]
fn same_and_refused() {
    assert!(same(b"a: 0x3", b"{a: 3}").unwrap());
    assert!(!same(b"a: 0x3", b"{a: 4}").unwrap());
    let fault = same(b"a", b"{1: a, 0x1: b}").unwrap_err();
    assert_eq!((fault.number, fault.name(), fault.side), (19, "EqualKeys", Some(Side::Right)));
    assert_eq!(fault.to_string(), "right: 19 EqualKeys in node 4, entries 0 and 1");
    assert_eq!(canonical(b"- a\n\t- b").unwrap_err().to_string(), "5 Tab at byte 4");
}

/// An input for each kind of error that needs no long one, in order of the numbers.
const REFUSED: [(Kind, &[u8]); 15] = [
    (Kind::NotUtf8, b"\xff"),
    (Kind::NotPrintable, b"a\0"),
    (Kind::Syntax, b"[a"),
    (Kind::Tab, b"a:\tb"),
    (Kind::BadEscape, b"\"\\q\""),
    (Kind::BadDirective, b"%YAML 1.3\n---\n"),
    (Kind::UnknownHandle, b"!e!x v"),
    (Kind::BadTag, b"!!%ff x"),
    (Kind::UndefinedAlias, b"[*x]"),
    (Kind::CyclicAlias, b"&a [*a]"),
    (Kind::WrongKind, b"!!seq x"),
    (Kind::BadContent, b"!!int x"),
    (Kind::IntRange, b"0xffffffffffffffffffffffffffffffff"),
    (Kind::FloatRange, b"1e-1000001"),
    (Kind::EqualKeys, b"{1: a, 0x1: b}"),
];

#[test]
fn each_kind_has_its_number_and_name() {
    let mut cases: Vec<(Kind, Vec<u8>)> = REFUSED.iter().map(|&(kind, input)| (kind, input.to_vec())).collect();
    cases.push((Kind::TooLong, vec![b'a'; 67_108_865]));
    cases.push((Kind::KeyTooLong, [vec![b'a'; 1025], b": b".to_vec()].concat()));
    cases.push((Kind::TooDeep, vec![b'['; 1025]));
    cases.push((Kind::TooHigh, [b"- ".repeat(1024), b"x".to_vec()].concat()));
    cases.push((Kind::TextTooLong, vec![b'a'; 67_108_860]));
    cases.sort();
    for (number, (kind, input)) in (1..).zip(&cases) {
        // The text of a long input that is accepted would not be readable.
        let fault = canonical(input).err().expect("it is rejected");
        assert_eq!((fault.kind(), fault.number, fault.kind() as u32), (*kind, number, number));
        assert_eq!(fault.name(), format!("{kind:?}"));
    }
    assert_eq!((cases.len(), Kind::OutOfMemory as u32), (20, 21));
}

#[test]
fn a_refusal_is_shown_by_name() {
    let fault = canonical(b"{1: a, 0x1: b}").unwrap_err();
    assert_eq!(format!("{fault:?}"), "Refused { number: 19, name: \"EqualKeys\", side: None, place: 4, entries: (0, 1) }");
}

#[test]
fn lines_and_columns() {
    // Each of these is rejected at its last byte, which is a tab.
    let cases: [(&[u8], (usize, usize)); 6] = [
        (b"a:\t", (1, 3)),
        (b"a: b\nc:\t", (2, 3)),
        (b"a: b\r\nc:\t", (2, 3)),
        (b"a: b\rc:\t", (2, 3)),
        ("\u{e9}\u{2028}\u{1f600}:\t".as_bytes(), (1, 5)),
        ("\u{feff}a: b\n\u{e9}:\t".as_bytes(), (2, 3)),
    ];
    for (input, place) in cases {
        let input = [input, b"x\n"].concat();
        let fault = canonical(&input).err().expect("it is rejected");
        assert_eq!((fault.kind(), fault.position(&input)), (Kind::Tab, Some(place)), "{input:?}");
        assert_eq!(fault.position(b""), None);
    }
    assert_eq!(canonical(&[b'a'; 67_108_860]).err().expect("its text is too long").position(b"a"), None);
}

#[test]
fn lines_and_columns_of_events_documents_and_keys() {
    let high = "--- a\n---\n".to_string() + &"- ".repeat(1024) + "x";
    let deep = "[".repeat(1000) + "{a: 1, 'a': 2}" + &"]".repeat(1000);
    let cases: [(Kind, &str, (usize, usize)); 9] = [
        (Kind::UndefinedAlias, "a: 1\nb: *x\n", (2, 4)),
        (Kind::CyclicAlias, "a: &a\n  b: [*a]", (2, 7)),
        (Kind::WrongKind, "a: 1\nb: !!seq x", (2, 4)),
        (Kind::BadContent, "a: 1\r\nb: &x !!int x", (2, 7)),
        (Kind::IntRange, "\u{feff}0xffffffffffffffffffffffffffffffff", (1, 1)),
        (Kind::FloatRange, "\u{e9}: [\u{e9}, 1e-1000001]", (1, 8)),
        (Kind::TooHigh, &high, (3, 1)),
        (Kind::EqualKeys, "- {b: 1}\n- a: 1\n  b: 2\n  a: 3", (4, 3)),
        (Kind::EqualKeys, &deep, (1, 1008)),
    ];
    for (kind, input, place) in cases {
        let input = input.as_bytes();
        let fault = canonical(input).unwrap_err();
        assert_eq!((fault.kind(), fault.position(input)), (kind, Some(place)));
        assert_eq!(to_json(input).unwrap_err().position(input), Some(place));
        assert_eq!((fault.position(b""), Limits::memory(1000).position(&fault, input)), (None, None));
    }
}

#[test]
fn lines_and_columns_of_what_json_cannot_express() {
    let deep = "[".repeat(1000) + "{~: b}" + &"]".repeat(1000);
    let cases: [(&str, (usize, usize)); 4] = [
        ("a: 1\nb: .inf\nc: .nan", (2, 4)),
        ("a: 1\n80: x", (2, 1)),
        ("a\n--- [b, !x c]", (2, 9)),
        (&deep, (1, 1002)),
    ];
    for (input, place) in cases {
        let input = input.as_bytes();
        assert_eq!(to_json(input).unwrap_err().position(input), Some(place));
        assert_eq!(Limits::memory(1000).json_position(input), None);
    }
    assert_eq!(Limits::default().json_position(b"a"), None);
}

#[test]
fn which_library_it_is() {
    assert_eq!((FORM, version(), release()), (1, 101, env!("CARGO_PKG_VERSION")));
}

#[test]
fn digests() {
    let many = "- \n".repeat(10_000);
    let text = canonical(many.as_bytes()).unwrap();
    assert_eq!(sha256(many.as_bytes()).unwrap(), sha256(&text).unwrap());
    assert_ne!(sha256(b"a: 3").unwrap(), sha256(b"a: '3'").unwrap());
    // The SHA-256 of no bytes, which is the text of a stream without documents.
    assert_eq!(sha256(b"").unwrap()[..4], [0xe3, 0xb0, 0xc4, 0x42]);
    for (kind, input) in REFUSED {
        assert_eq!(sha256(input).unwrap_err(), canonical(input).unwrap_err(), "{kind:?}");
    }
}

#[test]
fn readable_texts() {
    let many = "- \n".repeat(10_000);
    for input in [b"".as_slice(), b"{b: 0x1, a: [~]}", many.as_bytes(), flow_mappings(1023).as_bytes(), blocks(1023).as_bytes()] {
        let text = show(input).unwrap();
        assert!(same(input, &text).unwrap());
        assert_eq!(show(&text).unwrap(), text);
        assert_eq!(show(&canonical(input).unwrap()).unwrap(), text);
    }
    for (kind, input) in REFUSED {
        let fault = canonical(input).unwrap_err();
        assert_eq!(show(input).unwrap_err(), fault, "{kind:?}");
        assert_eq!(to_json(input).unwrap_err(), JsonError::Refused(fault), "{kind:?}");
    }
}

#[test]
fn json() {
    assert_eq!(to_json(b"").unwrap(), b"");
    assert_eq!(to_json("é: [\"\\r\", 1e3, yes]".as_bytes()).unwrap(), "{\"é\": [\"\\r\", 1000.0, \"yes\"]}\n".as_bytes());
    for input in [b"{1: a}".as_slice(), b"{[a]: b}", b"- .inf", b"- -.inf", b"- .nan", b"- !x a", b"a\n--- {!x b: c}"] {
        assert_eq!(to_json(input), Err(JsonError::NoJson));
    }
    assert_eq!(to_json(b"{1: a}").unwrap_err().to_string(), "JSON cannot express this stream");
    assert_eq!(to_json(b"[a").unwrap_err().to_string(), "4 Syntax at byte 2");
}

#[test]
fn limits_of_memory() {
    let many = "- a\n".repeat(10_000).into_bytes();
    let (small, none) = (Limits::memory(10_000), Limits::default());
    let kinds = || {
        [
            small.canonical(&many).unwrap_err().kind(),
            small.events(&many).unwrap_err().kind(),
            small.show(&many).unwrap_err().kind(),
            small.same(&many, &many).unwrap_err().kind(),
            small.sha256(&many).unwrap_err().kind(),
        ]
    };
    assert_eq!(kinds(), [Kind::OutOfMemory; 5]);
    assert!(matches!(small.to_json(&many), Err(JsonError::Refused(fault)) if fault.kind() == Kind::OutOfMemory));
    assert_eq!(none.canonical(&many), canonical(&many));
    assert!(none.same(&many, &many).unwrap());
    assert_eq!(small.canonical(&many).unwrap_err().to_string(), "21 OutOfMemory");
    assert_eq!(small.same(&many, b"").unwrap_err().to_string(), "21 OutOfMemory");
    // A call that is handed to another thread keeps its limit.
    let there = thread::scope(|scope| thread::Builder::new().stack_size(128 << 10).spawn_scoped(scope, kinds).unwrap().join().unwrap());
    assert_eq!(there, [Kind::OutOfMemory; 5]);
}

#[test]
fn deep_inputs_on_threads_with_a_small_stack() {
    for stack in [128 << 10, 512 << 10, 2 << 20] {
        let on = |work: fn()| thread::Builder::new().stack_size(stack).spawn(work).unwrap().join().unwrap();
        on(|| {
            for level in ["[", "{a: ", "{? [", "- "] {
                assert!(canonical(level.repeat(2000).as_bytes()).is_err());
            }
        });
        on(|| assert!(canonical(flow_mappings(1023).as_bytes()).is_ok()));
        on(|| assert!(canonical(blocks(1023).as_bytes()).is_ok()));
        on(|| assert!(show(blocks(1023).as_bytes()).is_ok()));
        on(|| assert!(to_json(flow_mappings(1023).as_bytes()).is_ok()));
        on(|| assert!(same(blocks(1023).as_bytes(), blocks(1023).as_bytes()).unwrap()));
        on(|| {
            let equal = "[".repeat(1000) + "{a: 1, 'a': 2}" + &"]".repeat(1000);
            let fault = canonical(equal.as_bytes()).unwrap_err();
            assert_eq!(fault.position(equal.as_bytes()), Some((1, 1008)));
        });
    }
}
