//! Reads a document of JSON from standard input, and writes it: what example_document does by the
//! words `compact` and `indent`, over `serde_json::Value`.
use std::io::{Read, Write};

fn main() -> Result<(), Box<dyn std::error::Error>> {
    let mut text = String::new();
    std::io::stdin().read_to_string(&mut text)?;
    let document: serde_json::Value = serde_json::from_str(&text)?;
    let mut written = if std::env::args().nth(1).as_deref() == Some("indent") {
        serde_json::to_string_pretty(&document)?
    } else {
        serde_json::to_string(&document)?
    };
    written.push('\n');
    Ok(std::io::stdout().write_all(written.as_bytes())?)
}
