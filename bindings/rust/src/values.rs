//! The values of a stream, as cursors over the records that the library gives.
use crate::{with_stack, Fault, Limits, Refused};
use std::fmt;

#[repr(C)]
#[derive(Clone, Copy, Default)]
struct Record {
    kind: u32,
    tag_start: u32,
    tag_end: u32,
    start: u32,
    end: u32,
}

#[repr(C)]
struct Rooms {
    values: *mut Record,
    values_cap: usize,
    parts: *mut u32,
    parts_cap: usize,
    texts: *mut u8,
    texts_cap: usize,
}

#[repr(C)]
#[derive(Clone, Copy, Default)]
struct Lengths {
    values: usize,
    parts: usize,
    texts: usize,
    documents: usize,
}

extern "C" {
    fn yamlcanon_values_within(
        input: *const u8,
        n: usize,
        rooms: *const Rooms,
        lengths: *mut Lengths,
        fault: *mut Fault,
        memory: usize,
    ) -> u32;
}

/// What a value is.
#[derive(Clone, Copy, Debug, PartialEq, Eq)]
#[non_exhaustive]
pub enum ValueKind {
    /// `null`.
    Null,
    /// `true` or `false`.
    Bool,
    /// A whole number in decimal digits, which an `i128` holds.
    Int,
    /// A decimal as `1.5e+3`, or `.inf`, `-.inf`, `.nan`.
    Float,
    /// A string.
    Str,
    /// A scalar of another tag.
    Tagged,
    /// A sequence.
    Sequence,
    /// A mapping.
    Mapping,
}

const KINDS: [ValueKind; 8] = [
    ValueKind::Null, ValueKind::Bool, ValueKind::Int, ValueKind::Float, ValueKind::Str, ValueKind::Tagged, ValueKind::Sequence,
    ValueKind::Mapping,
];

/// The values of a stream. Equal nodes are one value, so aliases cost nothing.
///
/// ```
/// let values = yamlcanon::values(b"{b: 0x1, a: [~]}")?;
/// let document = values.documents().next().unwrap();
/// let entries: Vec<_> = document.entries().map(|(key, value)| (key.content(), value.kind())).collect();
/// assert_eq!(entries, [("a", yamlcanon::ValueKind::Sequence), ("b", yamlcanon::ValueKind::Int)]);
/// # Ok::<(), yamlcanon::Refused>(())
/// ```
pub struct Values {
    records: Vec<Record>,
    parts: Vec<u32>,
    texts: String,
    documents: usize,
}

impl Values {
    /// The documents, in order.
    pub fn documents(&self) -> impl Iterator<Item = Value<'_>> {
        self.parts[..self.documents].iter().map(|&number| Value { of: self, number })
    }

    /// How many different values there are.
    pub fn count(&self) -> usize {
        self.records.len()
    }
}

impl fmt::Debug for Values {
    fn fmt(&self, f: &mut fmt::Formatter<'_>) -> fmt::Result {
        f.debug_struct("Values").field("documents", &self.documents).field("count", &self.count()).finish()
    }
}

/// A value among those of a stream.
#[derive(Clone, Copy)]
pub struct Value<'v> {
    of: &'v Values,
    number: u32,
}

impl<'v> Value<'v> {
    fn record(self) -> Record {
        self.of.records[self.number as usize]
    }

    fn parts(self) -> &'v [u32] {
        let record = self.record();
        if record.kind < 6 {
            return &[];
        }
        &self.of.parts[record.start as usize..record.end as usize]
    }

    /// What it is.
    pub fn kind(self) -> ValueKind {
        KINDS[self.record().kind as usize]
    }

    /// Its tag, decoded, as `tag:yaml.org,2002:int`.
    pub fn tag(self) -> &'v str {
        let record = self.record();
        &self.of.texts[record.tag_start as usize..record.tag_end as usize]
    }

    /// The content of a scalar; of a sequence or a mapping nothing.
    pub fn content(self) -> &'v str {
        let record = self.record();
        if record.kind >= 6 {
            return "";
        }
        &self.of.texts[record.start as usize..record.end as usize]
    }

    /// The items of a sequence.
    pub fn items(self) -> impl Iterator<Item = Value<'v>> {
        let items = if self.record().kind == 6 { self.parts() } else { &[] };
        items.iter().map(move |&number| Value { number, ..self })
    }

    /// The keys and values of a mapping, in the order of the canonical text.
    pub fn entries(self) -> impl Iterator<Item = (Value<'v>, Value<'v>)> {
        let parts = if self.record().kind == 7 { self.parts() } else { &[] };
        parts.chunks_exact(2).map(move |pair| (Value { number: pair[0], ..self }, Value { number: pair[1], ..self }))
    }

    /// Its number: equal values of one stream have the same, and no other value has it.
    pub fn number(self) -> u32 {
        self.number
    }
}

impl fmt::Debug for Value<'_> {
    fn fmt(&self, f: &mut fmt::Formatter<'_>) -> fmt::Result {
        f.debug_struct("Value").field("kind", &self.kind()).field("tag", &self.tag()).field("content", &self.content()).finish()
    }
}

impl Limits {
    /// [`values`] under this limit.
    pub fn values(self, input: &[u8]) -> Result<Values, Refused> {
        with_stack(input.len(), || {
            let mut lengths = Lengths { values: input.len() / 8 + 64, parts: input.len() / 8 + 64, texts: input.len() + 1024, documents: 0 };
            loop {
                let mut fault = Fault::default();
                let mut records = vec![Record::default(); lengths.values];
                let (mut parts, mut texts) = (vec![0; lengths.parts], vec![0; lengths.texts]);
                let rooms = Rooms {
                    values: records.as_mut_ptr(),
                    values_cap: records.len(),
                    parts: parts.as_mut_ptr(),
                    parts_cap: parts.len(),
                    texts: texts.as_mut_ptr(),
                    texts_cap: texts.len(),
                };
                // SAFETY: the slices' pointers are not null, lie apart, and are lent for the call.
                match unsafe { yamlcanon_values_within(input.as_ptr(), input.len(), &rooms, &mut lengths, &mut fault, self.memory) } {
                    0 => {
                        records.truncate(lengths.values);
                        parts.truncate(lengths.parts);
                        texts.truncate(lengths.texts);
                        let texts = String::from_utf8(texts).expect("tags and contents are UTF-8");
                        return Ok(Values { records, parts, texts, documents: lengths.documents });
                    }
                    3 => {}
                    _ => return Err(fault.refused(false)),
                }
            }
        })
    }
}

/// The values of the documents of a stream's bytes. Contents are canonical, and the entries of a mapping are in the order of their keys.
///
/// A stream whose canonical text would be too long (20) has values; every other error is one of [`canonical`](crate::canonical).
pub fn values(input: &[u8]) -> Result<Values, Refused> {
    Limits::default().values(input)
}
