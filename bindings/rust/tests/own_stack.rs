//! A call on a stack that the program made by itself, as one of coroutines.
#![cfg(all(target_os = "linux", target_env = "gnu", target_arch = "x86_64"))]
use std::{cell::Cell, os::raw::c_void, thread};
use yamlcanon::canonical;

/// glibc's ucontext_t of x86-64, of which this knows where the stack and the next context stand.
#[repr(C, align(16))]
struct Context([u64; 128]);
const LINK: usize = 1;
const STACK_AT: usize = 2;
const STACK_SIZE: usize = 4;

extern "C" {
    fn getcontext(context: *mut Context) -> i32;
    fn makecontext(context: *mut Context, run: extern "C" fn(), count: i32, ...);
    fn swapcontext(before: *mut Context, next: *const Context) -> i32;
}

thread_local!(static LENGTH: Cell<usize> = const { Cell::new(0) });

extern "C" fn run() {
    let deep = "{a: ".repeat(1023) + "x" + &"}".repeat(1023);
    LENGTH.with(|length| length.set(canonical(deep.as_bytes()).map_or(0, |text| text.len())));
}

/// The length of the text that a call on this stack gives.
fn on_stack(stack: &mut [u8]) -> usize {
    let (mut own, mut other) = (Box::new(Context([0; 128])), Box::new(Context([0; 128])));
    // SAFETY: the contexts and the stack live until the other context has ended, which goes on here.
    unsafe {
        assert_eq!(getcontext(&mut *other), 0);
        other.0[LINK] = &mut *own as *mut Context as u64;
        other.0[STACK_AT] = stack.as_mut_ptr().cast::<c_void>() as u64;
        other.0[STACK_SIZE] = stack.len() as u64;
        makecontext(&mut *other, run, 0);
        assert_eq!(swapcontext(&mut *own, &*other), 0);
    }
    LENGTH.with(Cell::get)
}

// A stack, and what lies below it, where a call that takes too much of the stack would write.
const STACK: usize = 256 << 10;
const BELOW: usize = 4 << 20;
// The canonical text has `{"a" : ` and `}` for each level, and `--- "x"` with a line feed once.
const TEXT: usize = 8 * 1023 + 8;

#[test]
fn a_deep_input_on_stacks_below_and_above_the_thread_s() {
    let mut rooms = vec![vec![0; BELOW + STACK]];
    for _ in 0..4 {
        // The stack of the next thread lies below the rooms that are there, and above the next one.
        rooms = thread::spawn(move || {
            rooms.push(vec![0; BELOW + STACK]);
            let untouched = vec![0; BELOW];
            for room in &mut rooms {
                assert_eq!(on_stack(&mut room[BELOW..]), TEXT);
                assert!(room[..BELOW] == untouched[..], "the call has left its stack");
            }
            rooms
        })
        .join()
        .unwrap();
    }
}
