//! What a caller in Rust looks like: `cargo run --example group FILE..` groups files by what they mean.
use std::{collections::BTreeMap, env, fs, io};

fn main() -> io::Result<()> {
    let mut groups: BTreeMap<Vec<u8>, Vec<String>> = BTreeMap::new();
    for path in env::args().skip(1) {
        match yamlcanon::canonical(&fs::read(&path)?) {
            Ok(text) => groups.entry(text).or_default().push(path),
            Err(fault) => eprintln!("{path}: {fault}"),
        }
    }
    for paths in groups.values() {
        println!("{}", paths.join(" "));
    }
    Ok(())
}
