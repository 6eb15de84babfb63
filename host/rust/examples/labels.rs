//! A station's labels in a file: puts one, prints all.
//!
//! labels FILE KEY TEXT         FILE is made where it does not exist
use std::env::args;
use std::path::Path;
use std::process::ExitCode;

use zitskvoze::{Error, Register};

fn keep(file: &str, key: u64, text: &str) -> Result<(), Error> {
    let mut labels = if Path::new(file).exists() { Register::open(file)? } else { Register::create(file, 64, Some(7), None)? };
    labels.put(key, text.as_bytes())?;
    for label in labels.iter()? {
        let (key, value) = label?;
        println!("{key} {}", value.escape_ascii());
    }
    Ok(())
}

fn main() -> ExitCode {
    zitskvoze::guard(c"labels");
    let words: Vec<String> = args().collect();
    let Some(([file, text], key)) = (words.len() == 4).then(|| ([&words[1], &words[3]], words[2].parse::<u64>())) else {
        eprintln!("usage: labels FILE KEY TEXT");
        return ExitCode::from(2);
    };
    let Ok(key) = key else {
        eprintln!("labels: {}: a key is a decimal number below 2^64", words[2]);
        return ExitCode::from(2);
    };
    match keep(file, key, text) {
        Ok(()) => ExitCode::SUCCESS,
        Err(error) => {
            eprintln!("labels: {file}: key {key}: {error}");
            ExitCode::from(if matches!(error, Error::Refused(_)) { 3 } else { 2 })
        }
    }
}
