//! The canonical text of YAML 1.2 streams, and whether two streams mean the same: safe calls over libyamlcanon.
//!
//! ```
//! let text = yamlcanon::canonical(b"{b: 0x1, a: [~]}")?;
//! assert_eq!(text, b"--- {\"a\" : [!!null \"null\"], \"b\" : !!int \"1\"}\n");
//! assert!(yamlcanon::same(b"a: 0x3", b"{a: 3}")?);
//! assert_eq!(yamlcanon::sha256(b"a: 0x3")?, yamlcanon::sha256(b"{a: 3}")?);
//! # Ok::<(), yamlcanon::Refused>(())
//! ```
//!
//! [`Limits`] has the same calls under a limit of memory. A call may be made on any thread. Where the thread has less stack left than an
//! input of this length may take, which is 1,792 KiB at most, the call is made on a thread of its own with 8 MiB.
#![warn(missing_docs)]

use std::ffi::CStr;
use std::os::raw::c_char;
use std::{error, fmt, thread};

mod differences;
pub use differences::diff;
mod json;
pub use json::JsonError;
mod values;
pub use values::{values, Value, ValueKind, Values};

/// The form of the texts that [`canonical`] gives: yamlcanon-form-1. A library of another form has another name, and is not linked.
pub const FORM: u32 = 1;

/// The version of the library that is linked: 101 for 1.1. One of an older interface lacks calls, and is not linked.
pub fn version() -> u32 {
    // SAFETY: it takes nothing.
    unsafe { yamlcanon_version() }
}

/// The release of the library that is linked.
///
/// ```
/// assert!(yamlcanon::release().starts_with("1."));
/// ```
pub fn release() -> &'static str {
    // SAFETY: the text is ended by a null byte, and is never freed or changed.
    unsafe { CStr::from_ptr(yamlcanon_release()) }.to_str().unwrap_or("")
}

// What a call on n bytes takes of the stack at most: a byte opens one level of nesting at most, up to 1,024.
const STACK_BASE: usize = 256 << 10;
const STACK_LEVEL: usize = 1536;
const MOST_LEVELS: usize = 1024;
const STACK_GIVEN: usize = 8 << 20;

// The last error at a byte.
const LAST_OF_BYTES: u32 = BadTag as u32;

// The room that is enough for each message: YAMLCANON_MESSAGE.
const MESSAGE: usize = 128;

/// The kinds of errors. The numbers and names are those that the program prints.
///
/// ```
/// use yamlcanon::{canonical, Kind};
/// let fault = canonical(b"{1: a, 0x1: b}").unwrap_err();
/// assert_eq!(fault.kind(), Kind::EqualKeys);
/// assert_eq!(fault.kind() as u32, 19);
/// ```
#[derive(Clone, Copy, Debug, PartialEq, Eq, PartialOrd, Ord, Hash)]
#[allow(missing_docs)] // docs/using/YAML.md says what each means
#[non_exhaustive]
pub enum Kind {
    /// A number that this crate does not know.
    Other = 0,
    TooLong,
    NotUtf8,
    NotPrintable,
    Syntax,
    Tab,
    KeyTooLong,
    TooDeep,
    BadEscape,
    BadDirective,
    UnknownHandle,
    BadTag,
    UndefinedAlias,
    CyclicAlias,
    WrongKind,
    BadContent,
    IntRange,
    FloatRange,
    TooHigh,
    EqualKeys,
    TextTooLong,
    /// Memory was refused. This says nothing of the input.
    OutOfMemory,
}

use Kind::*;

// Each kind at the place of its number.
const KINDS: [Kind; 22] = [
    Other, TooLong, NotUtf8, NotPrintable, Syntax, Tab, KeyTooLong, TooDeep, BadEscape, BadDirective, UnknownHandle, BadTag,
    UndefinedAlias, CyclicAlias, WrongKind, BadContent, IntRange, FloatRange, TooHigh, EqualKeys, TextTooLong, OutOfMemory,
];

/// Which of two inputs.
#[derive(Clone, Copy, Debug, PartialEq, Eq)]
pub enum Side {
    /// The first.
    Left,
    /// The second.
    Right,
}

/// Why an input is rejected. Its text is the message that the program prints.
///
/// ```
/// use yamlcanon::{same, Kind, Side};
/// let fault = same(b"port: 80", b"port: 80\nhost:\tweb\n").unwrap_err();
/// assert_eq!((fault.kind(), fault.side, fault.place), (Kind::Tab, Some(Side::Right), 14));
/// assert_eq!(fault.to_string(), "right: 5 Tab at byte 14");
/// ```
#[derive(Clone, Copy, PartialEq, Eq)]
#[non_exhaustive]
pub struct Refused {
    /// 1 to 21, as in yamlcanon.h. 21, OutOfMemory, says nothing of the input.
    pub number: u32,
    /// The input that is rejected, where there are two.
    pub side: Option<Side>,
    /// A byte offset for 2 to 11, an event for 12 to 17, a document for 18, a node for 19; else 0.
    pub place: u64,
    /// The two entries of 19, EqualKeys; else 0.
    pub entries: (u64, u64),
    name: [u8; 16],
}

impl Refused {
    /// Which kind of error it is.
    pub fn kind(&self) -> Kind {
        KINDS.get(self.number as usize).copied().unwrap_or(Other)
    }

    /// The line and the column, both from 1, of the place in the input that is rejected, as `yamlreview faults` prints them: of the byte,
    /// of the event's text, of the document's root, or of the second of two equal keys. 1, 20 and 21 have none. A line ends with a line
    /// feed, a carriage return, or both (YAML 1.2.2, 5.4). A column counts characters. A byte order mark has none. For 12 to 19 the input
    /// is read again.
    ///
    /// ```
    /// let input = b"port: 80\nhost:\tweb\n";
    /// let fault = yamlcanon::canonical(input).unwrap_err();
    /// assert_eq!(fault.position(input), Some((2, 6)));
    /// let input = b"a: 1\na: 2\n";
    /// let fault = yamlcanon::canonical(input).unwrap_err();
    /// assert_eq!(fault.position(input), Some((2, 1)));
    /// ```
    pub fn position(&self, input: &[u8]) -> Option<(usize, usize)> {
        Limits::default().position(self, input)
    }

    /// The numbers as the library tells them.
    fn told(&self) -> Fault {
        let side = u32::from(self.side == Some(Side::Right));
        Fault { number: self.number, side, place: self.place, first: self.entries.0, second: self.entries.1, name: self.name }
    }

    /// The fault's name, as `EqualKeys`.
    pub fn name(&self) -> &str {
        let end = self.name.iter().position(|&byte| byte == 0).unwrap_or(16);
        std::str::from_utf8(&self.name[..end]).unwrap_or("")
    }
}

impl fmt::Debug for Refused {
    fn fmt(&self, f: &mut fmt::Formatter<'_>) -> fmt::Result {
        let mut told = f.debug_struct("Refused");
        told.field("number", &self.number).field("name", &self.name()).field("side", &self.side);
        told.field("place", &self.place).field("entries", &self.entries).finish()
    }
}

impl fmt::Display for Refused {
    fn fmt(&self, f: &mut fmt::Formatter<'_>) -> fmt::Result {
        match self.side.filter(|_| self.kind() != OutOfMemory) {
            Some(Side::Left) => write!(f, "left: ")?,
            Some(Side::Right) => write!(f, "right: ")?,
            None => {}
        }
        let (mut room, mut len) = ([0; MESSAGE], 0);
        // SAFETY: the room is as long as it is said to be, and is enough for each message.
        match unsafe { yamlcanon_message(&self.told(), room.as_mut_ptr().cast(), room.len(), &mut len) } {
            0 => f.write_str(std::str::from_utf8(&room[..len]).unwrap_or("")),
            _ => write!(f, "{} {}", self.number, self.name()),
        }
    }
}

impl error::Error for Refused {}

#[repr(C)]
#[derive(Default)]
struct Fault {
    number: u32,
    side: u32,
    place: u64,
    first: u64,
    second: u64,
    name: [u8; 16],
}

impl From<Fault> for Refused {
    fn from(fault: Fault) -> Refused {
        fault.refused(false)
    }
}

impl From<Fault> for Unwritten {
    fn from(fault: Fault) -> Unwritten {
        Unwritten { status: 2, fault }
    }
}

impl Fault {
    fn refused(self, of_two: bool) -> Refused {
        let side = if self.side == 0 { Side::Left } else { Side::Right };
        Refused {
            number: self.number,
            side: of_two.then_some(side),
            place: self.place,
            entries: (self.first, self.second),
            name: self.name,
        }
    }
}

type TextCall = unsafe extern "C" fn(*const u8, usize, *mut u8, usize, *mut usize, *mut Fault, usize) -> u32;

extern "C" {
    fn yamlcanon_version() -> u32;
    fn yamlcanon_release() -> *const c_char;
    fn yamlcanon_message(fault: *const Fault, out: *mut c_char, cap: usize, len: *mut usize) -> u32;
    fn yamlcanon_position_within(
        input: *const u8,
        n: usize,
        fault: *const Fault,
        line: *mut usize,
        column: *mut usize,
        memory: usize,
    ) -> u32;
    fn yamlcanon_json_position_within(input: *const u8, n: usize, line: *mut usize, column: *mut usize, memory: usize) -> u32;
    fn yamlcanon_canonical_within(
        input: *const u8,
        n: usize,
        out: *mut u8,
        cap: usize,
        len: *mut usize,
        fault: *mut Fault,
        memory: usize,
    ) -> u32;
    fn yamlcanon_events_within(
        input: *const u8,
        n: usize,
        out: *mut u8,
        cap: usize,
        len: *mut usize,
        fault: *mut Fault,
        memory: usize,
    ) -> u32;
    fn yamlcanon_show_within(
        input: *const u8,
        n: usize,
        out: *mut u8,
        cap: usize,
        len: *mut usize,
        fault: *mut Fault,
        memory: usize,
    ) -> u32;
    fn yamlcanon_json_within(
        input: *const u8,
        n: usize,
        out: *mut u8,
        cap: usize,
        len: *mut usize,
        fault: *mut Fault,
        memory: usize,
    ) -> u32;
    fn yamlcanon_same_within(
        left: *const u8,
        left_n: usize,
        right: *const u8,
        right_n: usize,
        fault: *mut Fault,
        memory: usize,
    ) -> u32;
    fn yamlcanon_sha256_within(input: *const u8, n: usize, out: *mut [u8; 32], fault: *mut Fault, memory: usize) -> u32;
}

/// How many bytes of this thread's stack are left, or 0 where that is not known, as on a stack that a program made by itself.
#[cfg(all(target_os = "linux", target_env = "gnu"))]
fn stack_left() -> usize {
    use std::os::raw::{c_int, c_void};
    #[repr(C, align(16))]
    struct Attributes([u8; 256]);
    extern "C" {
        fn pthread_self() -> usize;
        fn pthread_getattr_np(thread: usize, attributes: *mut Attributes) -> c_int;
        fn pthread_attr_getstack(attributes: *const Attributes, at: *mut *mut c_void, size: *mut usize) -> c_int;
        fn pthread_attr_destroy(attributes: *mut Attributes) -> c_int;
    }
    thread_local!(static STACK: std::ops::Range<usize> = {
        let (mut attributes, mut at, mut size) = (Attributes([0; 256]), std::ptr::null_mut(), 0);
        // SAFETY: 256 bytes hold a pthread_attr_t (56 here), which is made before it is read.
        unsafe {
            if pthread_getattr_np(pthread_self(), &mut attributes) != 0 {
                return 0..0;
            }
            pthread_attr_getstack(&attributes, &mut at, &mut size);
            pthread_attr_destroy(&mut attributes);
        }
        at as usize..at as usize + size
    });
    let local = 0u8;
    let here = &local as *const u8 as usize;
    STACK.with(|stack| if stack.contains(&here) { here - stack.start } else { 0 })
}

#[cfg(not(all(target_os = "linux", target_env = "gnu")))]
fn stack_left() -> usize {
    0
}

/// Does some work on inputs of at most so many bytes where there is stack enough for it. If no thread can be had, memory is lacking.
fn with_stack<T: Send, E: Send + From<Fault>>(size: usize, work: impl FnOnce() -> Result<T, E> + Send) -> Result<T, E> {
    if stack_left() >= STACK_BASE + STACK_LEVEL * size.min(MOST_LEVELS) {
        return work();
    }
    thread::scope(|scope| match thread::Builder::new().stack_size(STACK_GIVEN).spawn_scoped(scope, work) {
        Ok(there) => there.join().expect("the call does not unwind"),
        Err(_) => Err(Fault { number: OutOfMemory as u32, name: *b"OutOfMemory\0\0\0\0\0", ..Fault::default() }.into()),
    })
}

fn text(call: TextCall, input: &[u8], memory: usize) -> Result<Vec<u8>, Refused> {
    written(call, input, memory).map_err(|unwritten| unwritten.fault.refused(false))
}

/// Why a call writes nothing: its status, and the fault that it tells if that is 2.
struct Unwritten {
    status: u32,
    fault: Fault,
}

fn written(call: TextCall, input: &[u8], memory: usize) -> Result<Vec<u8>, Unwritten> {
    with_stack(input.len(), || {
        let mut out = vec![0; input.len() * 2 + 64];
        loop {
            let (mut len, mut fault) = (0, Fault::default());
            // SAFETY: the slices' pointers are not null, lie apart, and are lent for the call.
            match unsafe { call(input.as_ptr(), input.len(), out.as_mut_ptr(), out.len(), &mut len, &mut fault, memory) } {
                0 => {
                    out.truncate(len);
                    return Ok(out);
                }
                3 => out = vec![0; len],
                status => return Err(Unwritten { status, fault }),
            }
        }
    })
}

/// The calls under a limit.
///
/// ```
/// use yamlcanon::{Kind, Limits};
/// let limits = Limits::memory(1 << 20);
/// assert!(limits.same(b"a: 0x3", b"{a: 3}")?);
/// let fault = Limits::memory(1000).canonical(b"a: 3").unwrap_err();
/// assert_eq!(fault.kind(), Kind::OutOfMemory);
/// # Ok::<(), yamlcanon::Refused>(())
/// ```
#[derive(Clone, Copy, Debug, Default, PartialEq, Eq)]
#[non_exhaustive]
pub struct Limits {
    /// What a call may hold at once, in bytes, with 16 more for each block that it asks for; 0 is no limit. The answer is not counted.
    pub memory: usize,
}

impl Limits {
    /// So many bytes of memory, and no other limit.
    pub fn memory(bytes: usize) -> Limits {
        Limits { memory: bytes }
    }

    /// [`canonical`] under this limit.
    pub fn canonical(self, input: &[u8]) -> Result<Vec<u8>, Refused> {
        text(yamlcanon_canonical_within, input, self.memory)
    }

    /// [`events`] under this limit.
    pub fn events(self, input: &[u8]) -> Result<Vec<u8>, Refused> {
        text(yamlcanon_events_within, input, self.memory)
    }

    /// [`show`] under this limit.
    pub fn show(self, input: &[u8]) -> Result<Vec<u8>, Refused> {
        text(yamlcanon_show_within, input, self.memory)
    }

    /// [`to_json`] under this limit.
    pub fn to_json(self, input: &[u8]) -> Result<Vec<u8>, JsonError> {
        written(yamlcanon_json_within, input, self.memory).map_err(JsonError::of)
    }

    /// [`same`] under this limit.
    pub fn same(self, left: &[u8], right: &[u8]) -> Result<bool, Refused> {
        with_stack(left.len().max(right.len()), || {
            let mut fault = Fault::default();
            // SAFETY: as above; the two inputs are only read.
            match unsafe { yamlcanon_same_within(left.as_ptr(), left.len(), right.as_ptr(), right.len(), &mut fault, self.memory) } {
                0 => Ok(true),
                1 => Ok(false),
                _ => Err(fault.refused(true)),
            }
        })
    }

    /// [`sha256`] under this limit.
    pub fn sha256(self, input: &[u8]) -> Result<[u8; 32], Refused> {
        with_stack(input.len(), || {
            let (mut digest, mut fault) = ([0; 32], Fault::default());
            // SAFETY: as above; the digest has 32 bytes.
            match unsafe { yamlcanon_sha256_within(input.as_ptr(), input.len(), &mut digest, &mut fault, self.memory) } {
                0 => Ok(digest),
                _ => Err(fault.refused(false)),
            }
        })
    }

    /// [`Refused::position`] under this limit. There is none if it does not allow to find it.
    pub fn position(self, refused: &Refused, input: &[u8]) -> Option<(usize, usize)> {
        let (fault, memory) = (refused.told(), self.memory);
        let size = if fault.number > LAST_OF_BYTES { input.len() } else { 0 };
        placed(size, |line, column| {
            // SAFETY: the slice is lent for the call; its pointer is not null.
            unsafe { yamlcanon_position_within(input.as_ptr(), input.len(), &fault, line, column, memory) }
        })
    }

    /// The line and the column of the first node that JSON cannot express. There is none if this limit does not allow to find it.
    pub fn json_position(self, input: &[u8]) -> Option<(usize, usize)> {
        placed(input.len(), |line, column| {
            // SAFETY: as above.
            unsafe { yamlcanon_json_position_within(input.as_ptr(), input.len(), line, column, self.memory) }
        })
    }
}

/// What a call tells of lines and columns that reads so many bytes again. One that reads none takes little stack.
fn placed(size: usize, call: impl FnOnce(&mut usize, &mut usize) -> u32 + Send) -> Option<(usize, usize)> {
    let work = || {
        let (mut line, mut column) = (0, 0);
        match call(&mut line, &mut column) {
            0 => Ok((line, column)),
            _ => Err(Refused::from(Fault::default())),
        }
    };
    if size == 0 { work() } else { with_stack(size, work) }.ok()
}

/// The canonical text of a stream's bytes. It is UTF-8, and empty for a stream without documents.
///
/// ```
/// let text = yamlcanon::canonical(b"b: 0x10\na: &x [y]\nc: *x\n")?;
/// assert_eq!(text, b"--- {\"a\" : &a1 [\"y\"], \"b\" : !!int \"16\", \"c\" : *a1}\n");
/// # Ok::<(), yamlcanon::Refused>(())
/// ```
pub fn canonical(input: &[u8]) -> Result<Vec<u8>, Refused> {
    Limits::default().canonical(input)
}

/// The events of a stream's bytes, in the notation of yaml-test-suite.
///
/// ```
/// assert_eq!(yamlcanon::events(b"- a")?, b"+STR\n+DOC\n+SEQ\n=VAL :a\n-SEQ\n-DOC\n-STR\n");
/// # Ok::<(), yamlcanon::Refused>(())
/// ```
pub fn events(input: &[u8]) -> Result<Vec<u8>, Refused> {
    Limits::default().events(input)
}

/// The stream as readable YAML, as `yamlreview show` writes it: block style, a line for each entry and item, aliases written out. It is
/// checked to mean what the stream means before it is returned. 20, TextTooLong, means that this text would have more than 67,108,864
/// bytes.
///
/// ```
/// let text = yamlcanon::show(b"{b: 0x10, a: &x [yes], c: *x}")?;
/// assert_eq!(text, b"---\na:\n  - \"yes\"\nb: 16\nc:\n  - \"yes\"\n");
/// # Ok::<(), yamlcanon::Refused>(())
/// ```
pub fn show(input: &[u8]) -> Result<Vec<u8>, Refused> {
    Limits::default().show(input)
}

/// The stream as JSON (RFC 8259), a line for each document, checked to mean what the stream means.
///
/// ```
/// use yamlcanon::{to_json, JsonError};
/// assert_eq!(to_json(b"b: 0x10\na: [~, .5]\n--- x")?, b"{\"a\": [null, 0.5], \"b\": 16}\n\"x\"\n");
/// assert_eq!(to_json(b"{80: web}"), Err(JsonError::NoJson));
/// # Ok::<(), JsonError>(())
/// ```
pub fn to_json(input: &[u8]) -> Result<Vec<u8>, JsonError> {
    Limits::default().to_json(input)
}

/// Whether two streams mean the same.
///
/// ```
/// assert!(yamlcanon::same(b"a: 0x3", b"{a: 3}")?);
/// assert!(!yamlcanon::same(b"a: 3", b"a: '3'")?);
/// # Ok::<(), yamlcanon::Refused>(())
/// ```
pub fn same(left: &[u8], right: &[u8]) -> Result<bool, Refused> {
    Limits::default().same(left, right)
}

/// The SHA-256 of the canonical text: what means the same has the same.
///
/// ```
/// let digest = yamlcanon::sha256(b"{a: 3}")?;
/// assert_eq!(digest, yamlcanon::sha256(b"a: 0x3 # three")?);
/// assert_eq!(digest[..4], [0x5d, 0xd5, 0x63, 0xd9]);
/// # Ok::<(), yamlcanon::Refused>(())
/// ```
pub fn sha256(input: &[u8]) -> Result<[u8; 32], Refused> {
    Limits::default().sha256(input)
}
