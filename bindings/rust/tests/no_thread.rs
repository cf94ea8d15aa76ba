//! Where no thread can be had for a call that needs more stack than there is. Alone in its process, whose memory is bounded.
use std::{fs, sync::mpsc, thread};
use yamlcanon::{canonical, diff, same, sha256, show, to_json, values, JsonError, Kind, Refused};

const RLIMIT_AS: i32 = 9;

#[repr(C)]
#[derive(Clone, Copy)]
struct Limit {
    now: u64,
    most: u64,
}

extern "C" {
    fn getrlimit(what: i32, limit: *mut Limit) -> i32;
    fn setrlimit(what: i32, limit: *const Limit) -> i32;
}

/// How many bytes of addresses the process has.
fn size() -> u64 {
    let told = fs::read_to_string("/proc/self/statm").unwrap();
    told.split(' ').next().unwrap().parse::<u64>().unwrap() * 4096
}

fn kinds(input: &[u8]) -> Vec<Option<Kind>> {
    let of = |refused: Refused| refused.kind();
    let json = match to_json(input) {
        Err(JsonError::Refused(refused)) => Some(refused.kind()),
        _ => None,
    };
    vec![
        canonical(input).err().map(of),
        sha256(input).err().map(of),
        show(input).err().map(of),
        same(input, input).err().map(of),
        diff(input, input, 9).err().map(of),
        values(input).err().map(of),
        json,
    ]
}

/// The process gets 4 MiB more than it has: less than the stack of a thread for a call. Gives the limit that it had.
fn bound() -> Limit {
    let mut before = Limit { now: 0, most: 0 };
    // SAFETY: both take a struct rlimit.
    unsafe {
        assert_eq!(getrlimit(RLIMIT_AS, &mut before), 0);
        assert_eq!(setrlimit(RLIMIT_AS, &Limit { now: size() + (4 << 20), ..before }), 0);
    }
    before
}

#[test]
fn memory_is_lacking_where_no_thread_can_be_had() {
    let (go, may_go) = mpsc::channel();
    let (told, answers) = mpsc::channel();
    let caller = thread::Builder::new().stack_size(256 << 10).spawn(move || {
        let deep = "[".repeat(1000) + &"]".repeat(1000);
        for () in may_go {
            told.send(kinds(deep.as_bytes())).unwrap();
        }
    });
    let ask = || {
        go.send(()).unwrap();
        answers.recv().unwrap()
    };
    // No call is made before this, since the system would keep its thread's stack.
    let before = bound();
    let within = ask();
    // SAFETY: as above.
    unsafe { assert_eq!(setrlimit(RLIMIT_AS, &before), 0) };
    assert_eq!(within, vec![Some(Kind::OutOfMemory); 7]);
    assert_eq!(ask(), vec![None; 7]);
    drop(go);
    caller.unwrap().join().unwrap();
}
