//! The listing of a TOML table as `nano_show toml` prints it. The crate has a float for each number, so
//! a number is the float's shortest text.

use crate::serde_json::SerJson;
use crate::toml::Toml;
use std::collections::HashMap;

type Table = HashMap<String, Toml>;

pub fn listing(table: &Table) -> String {
    lines("", table)
}

/// The lines of a table, each after these words.
fn lines(before: &str, table: &Table) -> String {
    let mut keys: Vec<&String> = table.keys().collect();
    keys.sort();
    let mut text = String::new();
    for key in keys {
        let quoted = key.serialize_json();
        text += &format!("{before}{quoted} = {}\n", listed(&table[key]));
        if let Toml::Array(tables) = &table[key] {
            for (place, element) in tables.iter().enumerate() {
                text += &lines(&format!("{quoted}[{place}] "), element);
            }
        }
    }
    text
}

fn listed(value: &Toml) -> String {
    match value {
        Toml::Str(text) => text.serialize_json(),
        Toml::Bool(truth) => truth.to_string(),
        Toml::Num(number) if number.is_nan() => {
            (if number.is_sign_negative() { "-nan" } else { "nan" }).to_string()
        }
        Toml::Num(number) => number.to_string(),
        Toml::Date(date) => format!("date {date}"),
        Toml::Array(tables) => format!("tables {}", tables.len()),
        Toml::SimpleArray(values) => {
            let values: Vec<String> = values.iter().map(listed).collect();
            format!("[{}]", values.join(", "))
        }
    }
}
