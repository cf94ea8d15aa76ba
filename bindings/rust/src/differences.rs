//! Where two streams differ.
use crate::{with_stack, Fault, Limits, Refused};

extern "C" {
    fn yamlcanon_diff_within(
        left: *const u8,
        left_n: usize,
        right: *const u8,
        right_n: usize,
        lines: usize,
        out: *mut u8,
        cap: usize,
        len: *mut usize,
        fault: *mut Fault,
        memory: usize,
    ) -> u32;
}

// Enough for a few lines. Where it is not, the library says what is.
const ROOM: usize = 4096;

impl Limits {
    /// [`diff`] under this limit.
    pub fn diff(self, left: &[u8], right: &[u8], lines: usize) -> Result<Vec<u8>, Refused> {
        with_stack(left.len().max(right.len()), || {
            let mut out = vec![0; ROOM];
            loop {
                let (mut len, mut fault) = (0, Fault::default());
                // SAFETY: the slices' pointers are not null and are lent for the call; the room lies apart from the inputs.
                let status = unsafe {
                    let (left_at, right_at, out_at) = (left.as_ptr(), right.as_ptr(), out.as_mut_ptr());
                    let (left_n, right_n, cap) = (left.len(), right.len(), out.len());
                    yamlcanon_diff_within(left_at, left_n, right_at, right_n, lines, out_at, cap, &mut len, &mut fault, self.memory)
                };
                match status {
                    0 | 1 => {
                        out.truncate(len);
                        return Ok(out);
                    }
                    3 => out = vec![0; len],
                    _ => return Err(fault.refused(true)),
                }
            }
        })
    }
}

/// Where two streams differ, as `yamlreview diff --format=json` prints it: a JSON object on a line for each difference, at most so many
/// lines, and behind them one of the kind `more` if there are more, which says how many. It is empty if the streams mean the same.
///
/// ```
/// let told = yamlcanon::diff(b"replicas: 0x3", b"{replicas: 5}", 1000)?;
/// assert_eq!(
///     String::from_utf8(told).unwrap(),
///     concat!(
///         r#"{"kind":"changed","left":"!!int \"3\"","left_place":{"column":11,"line":1},"left_value":3,"path":".replicas","#,
///         r#""right":"!!int \"5\"","right_place":{"column":12,"line":1},"right_value":5,"#,
///         r#""steps":[{"left":0,"right":0},"replicas"]}"#,
///         "\n"
///     )
/// );
/// assert!(yamlcanon::diff(b"a: 3", b"{a: 0x3}", 1000)?.is_empty());
/// # Ok::<(), yamlcanon::Refused>(())
/// ```
pub fn diff(left: &[u8], right: &[u8], lines: usize) -> Result<Vec<u8>, Refused> {
    Limits::default().diff(left, right, lines)
}
