use yamlcanon::{canonical, diff, Kind, Limits, Side};

fn text(left: &[u8], right: &[u8], lines: usize) -> String {
    String::from_utf8(diff(left, right, lines).unwrap()).unwrap()
}

#[test]
fn lines() {
    let (left, right) = (b"a: 1\nb: [x]\n", b"a: 2\nc: ~\nb: []\n");
    let all = text(left, right, 1000);
    assert_eq!(all.lines().count(), 3);
    assert!(all.lines().zip([r#""path":".a""#, r#""path":".b[0]""#, r#""path":".c""#]).all(|(line, path)| line.contains(path)));
    assert_eq!(text(left, right, 3), all);
    let first = all.split_inclusive('\n').next().unwrap();
    let rest = r#"{"differences":2,"kind":"more","moves":0,"whole":true}"#;
    assert_eq!(text(left, right, 1), format!("{first}{rest}\n"));
    assert_eq!(text(left, right, 0), "");
}

#[test]
fn what_means_the_same_has_no_line() {
    for input in [&b""[..], b"a: &x [0x10]\nb: *x\n", b"--- a\n--- b\n"] {
        assert_eq!(text(input, &canonical(input).unwrap(), 1000), "");
    }
}

#[test]
fn rejections_and_limits() {
    let fault = diff(b"a", b"a:\tb", 1).unwrap_err();
    assert_eq!((fault.kind(), fault.side, fault.to_string().as_str()), (Kind::Tab, Some(Side::Right), "right: 5 Tab at byte 2"));
    assert_eq!(diff(b"a:\tb", b"[", 0).unwrap_err().side, Some(Side::Left));
    assert_eq!(Limits::memory(1000).diff(b"a: b", b"a: c", 1).unwrap_err().kind(), Kind::OutOfMemory);
}

#[test]
fn more_than_the_first_room_holds() {
    assert!(text(&b"- a\n".repeat(900), &b"- b\n".repeat(900), 10_000).lines().count() >= 900);
}

#[test]
fn on_a_small_stack() {
    let nested = |end: &str| "{a: ".repeat(1023) + end + &"}".repeat(1023);
    let (left, right) = (nested("x"), nested("y"));
    let there = std::thread::Builder::new().stack_size(128 << 10).spawn(move || text(left.as_bytes(), right.as_bytes(), 10).lines().count());
    assert_eq!(there.unwrap().join().unwrap(), 1);
}
