//! Every vector of the form has its texts or its error, also where memory is lacking. YAMLCANON_VECTORS may name the file.
mod json;
use json::Json;
use std::{env, fs};
use yamlcanon::{canonical, events, same, Kind, Limits, Refused};

/// An input, and what it gives: event text and canonical text, or the error's number and what it names.
struct Vector {
    name: String,
    input: Vec<u8>,
    events: Option<Vec<u8>>,
    text: Option<Vec<u8>>,
    refusal: Option<(u64, Vec<u64>)>,
}

fn of_base64(text: &str) -> Vec<u8> {
    let letters = b"ABCDEFGHIJKLMNOPQRSTUVWXYZabcdefghijklmnopqrstuvwxyz0123456789+/";
    let (mut out, mut bits, mut held) = (Vec::new(), 0u32, 0);
    for letter in text.bytes().filter(|&letter| letter != b'=') {
        bits = bits << 6 | letters.iter().position(|&it| it == letter).expect("a letter of base64") as u32;
        held += 6;
        if held >= 8 {
            held -= 8;
            out.push((bits >> held) as u8);
        }
    }
    out
}

/// What pieces stand for: texts, and lists of a text, what is between two of it, and how often it comes, an @ in it being its number.
fn joined(pieces: &Json) -> Vec<u8> {
    let mut out = String::new();
    for piece in pieces.items() {
        if let Json::Text(text) = piece {
            out.push_str(text);
            continue;
        }
        let told = piece.items();
        let (text, between, count) = (told[0].text(), told[1].text(), told[2].number());
        let all: Vec<_> = (0..count).map(|number| text.replace('@', &(100_000 + number).to_string())).collect();
        out.push_str(&all.join(between));
    }
    out.into_bytes()
}

fn vectors() -> Vec<Vector> {
    let path = env::var("YAMLCANON_VECTORS").unwrap_or_else(|_| "../../vectors/form-1.jsonl".into());
    // The crate alone has no vectors.
    let lines = fs::read_to_string(path).unwrap_or_default();
    let of_line = |line: &str| {
        let told = Json::of(line);
        let texts = |name: &str| told.get(name).map(|text| text.text().as_bytes().to_vec());
        let pieces = |name: &str| told.get(name).map(joined);
        Vector {
            name: told.get("name").unwrap().text().to_string(),
            input: told.get("input").map_or_else(|| pieces("input_pieces").unwrap(), |input| of_base64(input.text())),
            events: texts("events").or_else(|| pieces("events_pieces")),
            text: texts("text").or_else(|| pieces("text_pieces")),
            refusal: told.get("refusal").map(|refusal| {
                let place = refusal.get("place").unwrap().items().iter().map(Json::number).collect();
                (refusal.get("number").unwrap().number(), place)
            }),
        }
    };
    lines.lines().map(of_line).collect()
}

/// Whether an error is that of a vector.
fn is_its(fault: &Refused, vector: &Vector) -> bool {
    let (number, place) = vector.refusal.as_ref().expect("an error");
    let at = |which: usize| place.get(which).copied().unwrap_or(0);
    (u64::from(fault.number), fault.place, fault.entries) == (*number, at(0), (at(1), at(2)))
}

#[test]
fn each_vector_has_its_answers() {
    let all = vectors();
    assert!(all.is_empty() || all.len() > 700, "{} vectors", all.len());
    for vector in &all {
        match (canonical(&vector.input), &vector.text) {
            (Ok(got), Some(text)) => {
                assert!(got == *text, "{}: another text", vector.name);
                assert!(same(&vector.input, text).unwrap(), "{}: not the same as its text", vector.name);
            }
            (Err(fault), None) => assert!(is_its(&fault, vector), "{}: {fault}", vector.name),
            (got, _) => panic!("{}: {got:?}", vector.name),
        }
        match (events(&vector.input), &vector.events) {
            (Ok(got), Some(text)) => assert!(got == *text, "{}: other events", vector.name),
            (Err(fault), None) => assert!(is_its(&fault, vector), "{}: events: {fault}", vector.name),
            (got, _) => panic!("{}: {got:?}", vector.name),
        }
    }
}

#[test]
fn an_answer_is_whole_or_memory_is_lacking() {
    let short = |vector: &&Vector| vector.input.len() < 200 && vector.text.is_some();
    for vector in vectors().iter().filter(short).step_by(7) {
        let (mut memory, mut lacked) = (16, 0);
        loop {
            match Limits::memory(memory).canonical(&vector.input) {
                Ok(got) => break assert!(Some(got) == vector.text, "{}: another text within {memory}", vector.name),
                Err(fault) => assert_eq!(fault.kind(), Kind::OutOfMemory, "{}: within {memory}", vector.name),
            }
            lacked += 1;
            memory += 64;
        }
        assert!(lacked > 0 || vector.text.as_deref() == Some(b""), "{}: 16 bytes are enough", vector.name);
    }
}
