//! A row and its answer: what a value of a type is written as, or why there is none.

use crate::kinds::{ask_bytes, ask_kind};
use crate::listing::listing;
use crate::serde_bin::{DeBin, DeBinErr, SerBin};
use crate::serde_json::{DeJson, DeJsonErr, DeJsonState, DeJsonTok, SerJson};
use crate::serde_ron::{DeRon, DeRonErr, DeRonState, DeRonTok, SerRon};
use crate::toml::TomlParser;

/// A type with the three formats.
pub trait All: SerBin + DeBin + SerJson + DeJson + SerRon + DeRon {}

impl<T: SerBin + DeBin + SerJson + DeJson + SerRon + DeRon> All for T {}

/// The text or the bytes that are written, or the text of the error.
pub type Answer = Result<Vec<u8>, String>;

/// The answer to a row, in one line.
pub fn answer(row: &str) -> String {
    let fields: Vec<&str> = row.split('\t').collect();
    let (format, kind, input) = (fields[0], fields[1], unescape(fields[2]));
    let answer = match format {
        "run" => run(kind, &input),
        _ => of_kind(format, kind, &input),
    };
    let is_code = format == "bin" || format == "bin-whole" || format.ends_with("-bin");
    match answer {
        None => "unknown".to_string(),
        Some(Ok(code)) if is_code => format!("answered\t{}", pairs(&code)),
        Some(Ok(text)) => format!("answered\t{}", escape(&text)),
        Some(Err(text)) => format!("rejected\t{}", escape(text.as_bytes())),
    }
}

/// An input of a type in a format. An ordered map, which the crate does not have, is a hashed one.
fn of_kind(format: &str, kind: &str, input: &[u8]) -> Option<Answer> {
    let kind = kind.replace("BTreeMap<", "HashMap<");
    match ask_bytes(format, &kind, input) {
        Some(answer) => Some(answer),
        None => ask_kind(format, &kind, input),
    }
}

/// The words of `nano_show` that read an input.
fn run(words: &str, input: &[u8]) -> Option<Answer> {
    let answer = match words {
        "toml" => match std::str::from_utf8(input) {
            Ok(text) => TomlParser::parse(text)
                .map(|table| listing(&table).into_bytes())
                .map_err(|error| error.to_string()),
            Err(_) => Err("not UTF-8".to_string()),
        },
        _ => {
            let (format, word) = words.split_once(' ')?;
            let is_known = matches!(format.trim_end_matches("-whole"), "bin" | "json" | "ron");
            let answer = match is_known {
                true => of_kind(format, crate::kinds::kind_of_word(word)?, input)?,
                false => return None,
            };
            let is_code = format.starts_with("bin");
            answer.map(|text| if is_code { pairs(&text).into_bytes() } else { text })
                .map(|text| [text.as_slice(), b"\n"].concat())
        }
    };
    Some(answer.map_err(|text| format!("1: {text}")))
}

/// The answer to bytes of a type.
pub fn of_bytes<T: SerBin + DeBin>(format: &str, input: &[u8]) -> Option<Answer> {
    match format {
        "bin" => Some(bin::<T>(input, false).map(|value| value.serialize_bin())),
        "bin-whole" => Some(bin::<T>(input, true).map(|value| value.serialize_bin())),
        _ => None,
    }
}

/// The answer to an input of a type.
pub fn of_type<T: All>(format: &str, input: &[u8]) -> Option<Answer> {
    match format {
        "bin-json" => Some(bin::<T>(input, false).map(|value| value.serialize_json().into_bytes())),
        "bin-ron" => Some(bin::<T>(input, false).map(|value| value.serialize_ron().into_bytes())),
        "bin" | "bin-whole" => of_bytes::<T>(format, input),
        "json" | "json-whole" | "json-bin" | "ron" | "ron-whole" | "ron-bin" => {
            match std::str::from_utf8(input) {
                Ok(text) => of_text::<T>(format, text),
                Err(_) => Some(Err("not UTF-8".to_string())),
            }
        }
        _ => None,
    }
}

fn of_text<T: All>(format: &str, text: &str) -> Option<Answer> {
    let answer = match format {
        "json" => T::deserialize_json(text).map(|value| value.serialize_json().into_bytes()),
        "json-whole" => whole_json::<T>(text).map(|value| value.serialize_json().into_bytes()),
        "json-bin" => T::deserialize_json(text).map(|value| value.serialize_bin()),
        _ => return of_ron::<T>(format, text),
    };
    Some(answer.map_err(|error| error.to_string()))
}

fn of_ron<T: All>(format: &str, text: &str) -> Option<Answer> {
    let answer = match format {
        "ron" => T::deserialize_ron(text).map(|value| value.serialize_ron().into_bytes()),
        "ron-whole" => whole_ron::<T>(text).map(|value| value.serialize_ron().into_bytes()),
        "ron-bin" => T::deserialize_ron(text).map(|value| value.serialize_bin()),
        _ => return None,
    };
    Some(answer.map_err(|error| error.to_string()))
}

/// The value of bytes, to which nothing is added where they are whole.
fn bin<T: DeBin>(input: &[u8], is_whole: bool) -> Result<T, String> {
    let mut o = 0;
    let s = input.len();
    let read = match T::de_bin(&mut o, input) {
        Ok(_) if is_whole && o != s => Err(DeBinErr { o, l: 0, s }),
        read => read,
    };
    read.map_err(|error| error.to_string())
}

/// The crate has no reader of whole texts: what follows the value is looked at in its state.
fn whole_json<T: DeJson>(text: &str) -> Result<T, DeJsonErr> {
    let mut state = DeJsonState::default();
    let mut chars = text.chars();
    state.next(&mut chars);
    state.next_tok(&mut chars)?;
    let value = T::de_json(&mut state, &mut chars)?;
    match state.tok == DeJsonTok::Eof && !text.contains('\0') {
        true => Ok(value),
        false => Err(state.err_parse("end")),
    }
}

fn whole_ron<T: DeRon>(text: &str) -> Result<T, DeRonErr> {
    let mut state = DeRonState::default();
    let mut chars = text.chars();
    state.next(&mut chars);
    state.next_tok(&mut chars)?;
    let value = T::de_ron(&mut state, &mut chars)?;
    match state.tok == DeRonTok::Eof && !text.contains('\0') {
        true => Ok(value),
        false => Err(state.err_parse("end")),
    }
}

/// The bytes of a field, in which `%` stands before two hexadecimal digits.
fn unescape(field: &str) -> Vec<u8> {
    let mut bytes = Vec::new();
    let mut rest = field.as_bytes();
    while let [first, after @ ..] = rest {
        rest = after;
        if *first == b'%' {
            let digits = std::str::from_utf8(&rest[..2]).unwrap();
            bytes.push(u8::from_str_radix(digits, 16).unwrap());
            rest = &rest[2..];
        } else {
            bytes.push(*first);
        }
    }
    bytes
}

fn escape(bytes: &[u8]) -> String {
    let mut text = String::new();
    for byte in bytes {
        match byte {
            b'%' | 0..=0x1f | 0x7f..=0xff => text.push_str(&format!("%{byte:02X}")),
            _ => text.push(*byte as char),
        }
    }
    text
}

fn pairs(bytes: &[u8]) -> String {
    let pairs: Vec<String> = bytes.iter().map(|byte| format!("{byte:02x}")).collect();
    pairs.join(" ")
}
