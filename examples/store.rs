//! Keeps configurations by what they mean: `store FOLDER FILE..`
//!
//! The canonical text of each file goes into FOLDER, under its SHA-256. Printed is of each file whether it is kept, means the same as an
//! earlier one, or is rejected, with line and column; and where what is kept differs from the first, a JSON object on a line for each
//! difference. Status 1 if a file is rejected.
use std::{env, error::Error, fs, path::Path, process::ExitCode};

struct Kept {
    path: String,
    data: Vec<u8>,
    digest: [u8; 32],
}

/// Keeps the text, or says of which other file it is a second spelling.
fn keep(folder: &Path, path: &str, data: &[u8], kept: &mut Vec<Kept>) -> Result<(), Box<dyn Error>> {
    let digest = yamlcanon::sha256(data)?;
    if let Some(other) = kept.iter().find(|other| other.digest == digest) {
        println!("{path} means the same as {}", other.path);
        return Ok(());
    }
    let hex: String = digest.iter().map(|byte| format!("{byte:02x}")).collect();
    fs::write(folder.join(format!("{hex}.yaml")), yamlcanon::canonical(data)?)?;
    println!("{path} is kept as {}", &hex[..12]);
    kept.push(Kept { path: path.to_string(), data: data.to_vec(), digest });
    let lines = yamlcanon::diff(&kept[0].data, data, 1000)?;
    print!("{}", String::from_utf8(lines)?);
    Ok(())
}

fn main() -> Result<ExitCode, Box<dyn Error>> {
    let mut words = env::args().skip(1);
    let folder = words.next().ok_or("usage: store FOLDER FILE..")?;
    let (mut kept, mut status) = (Vec::new(), 0);
    for path in words {
        let data = fs::read(&path)?;
        if let Err(error) = keep(Path::new(&folder), &path, &data, &mut kept) {
            // Every other error ends the program.
            let fault = error.downcast::<yamlcanon::Refused>()?;
            match fault.position(&data) {
                Some((line, column)) => println!("{path}:{line}:{column}: {fault}"),
                None => println!("{path}: {fault}"),
            }
            status = 1;
        }
    }
    Ok(ExitCode::from(status))
}
