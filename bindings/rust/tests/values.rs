use yamlcanon::{values, Kind, Limits, Value, ValueKind};

/// A value as a text: contents with the first letter of their kind, sequences and mappings in brackets.
fn shown(value: Value<'_>) -> String {
    match value.kind() {
        ValueKind::Sequence => format!("[{}]", value.items().map(shown).collect::<Vec<_>>().join(" ")),
        ValueKind::Mapping => {
            format!("{{{}}}", value.entries().map(|(key, one)| shown(key) + ":" + &shown(one)).collect::<Vec<_>>().join(" "))
        }
        kind => format!("{}{}", &format!("{kind:?}")[..1], value.content()),
    }
}

fn all(input: &[u8]) -> Vec<String> {
    values(input).unwrap().documents().map(shown).collect()
}

#[test]
fn each_kind() {
    assert_eq!(all(b"[~, TRUE, 0x10, 1.50, a, !t b]\n--- {b: [], a: {}}\n"), ["[Nnull Btrue I16 F1.5 Sa Tb]", "{Sa:{} Sb:[]}"]);
    assert!(all(b"").is_empty());
}

#[test]
fn equal_nodes_are_one_value() {
    let made = values(b"- &x [q]\n- *x\n- [q]\n").unwrap();
    assert_eq!(made.count(), 3);
    let numbers: Vec<_> = made.documents().flat_map(Value::items).map(Value::number).collect();
    assert_eq!(numbers, [1, 1, 1]);
    assert_eq!(made.documents().next().unwrap().items().next().unwrap().tag(), "tag:yaml.org,2002:seq");
}

#[test]
fn rejections_and_limits() {
    assert_eq!(values(b"{1: a, 0x1: b}").unwrap_err().kind(), Kind::EqualKeys);
    assert_eq!(Limits::memory(1000).values(b"a").unwrap_err().kind(), Kind::OutOfMemory);
}

#[test]
fn more_values_than_the_first_room_holds() {
    let input = (0..10_000).map(|number| format!("- {number}\n")).collect::<String>();
    let made = values(input.as_bytes()).unwrap();
    assert_eq!(made.count(), 10_001);
    assert_eq!(made.documents().next().unwrap().items().map(|item| item.content().parse::<i128>().unwrap()).sum::<i128>(), 49_995_000);
}

#[test]
fn on_a_small_stack() {
    let input = "{a: ".repeat(1023) + "x" + &"}".repeat(1023);
    let count = std::thread::Builder::new().stack_size(128 << 10).spawn(move || values(input.as_bytes()).unwrap().count());
    assert_eq!(count.unwrap().join().unwrap(), 1025);
}
