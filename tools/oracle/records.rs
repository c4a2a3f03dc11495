//! The struct and the enum of `nanoserde::records`, over the crate's calls.

use crate::serde_bin::{DeBin, DeBinErr, SerBin};
use crate::serde_json::{DeJson, DeJsonState, DeJsonTok, SerJson, SerJsonState};
use crate::serde_ron::{DeRon, DeRonState, SerRon, SerRonState};
use crate::values::{json_fields, json_of, ron_fields, ron_of, to_json, to_ron, FromJson, FromRon};
use std::str::Chars;

pub struct Item {
    value: i32,
    note: Option<String>,
}

impl SerBin for Item {
    fn ser_bin(&self, output: &mut Vec<u8>) {
        self.value.ser_bin(output);
        self.note.ser_bin(output);
    }
}

impl DeBin for Item {
    fn de_bin(o: &mut usize, d: &[u8]) -> Result<Self, DeBinErr> {
        Ok(Item { value: DeBin::de_bin(o, d)?, note: DeBin::de_bin(o, d)? })
    }
}

impl SerJson for Item {
    fn ser_json(&self, d: usize, s: &mut SerJsonState) {
        let mut fields = vec![("value", to_json(&self.value))];
        fields.extend(self.note.iter().map(|note| ("note", to_json(note))));
        json_fields(d, s, fields)
    }
}

impl DeJson for Item {
    fn de_json(s: &mut DeJsonState, i: &mut Chars) -> FromJson<Self> {
        let (value, note) = json_of(s, i, ("value", "note"))?;
        Ok(Item { value: value.ok_or_else(|| s.err_nf("value"))?, note: note.unwrap_or(None) })
    }
}

impl SerRon for Item {
    fn ser_ron(&self, d: usize, s: &mut SerRonState) {
        let mut fields = vec![("value", to_ron(&self.value))];
        fields.extend(self.note.iter().map(|note| ("note", to_ron(note))));
        ron_fields(d, s, fields)
    }
}

impl DeRon for Item {
    fn de_ron(s: &mut DeRonState, i: &mut Chars) -> FromRon<Self> {
        let (value, note) = ron_of(s, i, ("value", "note"))?;
        Ok(Item { value: value.ok_or_else(|| s.err_nf("value"))?, note: note.unwrap_or(None) })
    }
}

pub enum Choice {
    A,
    B(i32, String),
    C { a: i32, b: String },
}

impl SerBin for Choice {
    fn ser_bin(&self, output: &mut Vec<u8>) {
        match self {
            Choice::A => 0u16.ser_bin(output),
            Choice::B(number, text) => {
                1u16.ser_bin(output);
                number.ser_bin(output);
                text.ser_bin(output);
            }
            Choice::C { a, b } => {
                2u16.ser_bin(output);
                a.ser_bin(output);
                b.ser_bin(output);
            }
        }
    }
}

impl DeBin for Choice {
    fn de_bin(o: &mut usize, d: &[u8]) -> Result<Self, DeBinErr> {
        let start = *o;
        match u16::de_bin(o, d)? {
            0 => Ok(Choice::A),
            1 => Ok(Choice::B(DeBin::de_bin(o, d)?, DeBin::de_bin(o, d)?)),
            2 => Ok(Choice::C { a: DeBin::de_bin(o, d)?, b: DeBin::de_bin(o, d)? }),
            _ => Err(DeBinErr { o: start, l: 0, s: d.len() }),
        }
    }
}

impl SerJson for Choice {
    fn ser_json(&self, d: usize, s: &mut SerJsonState) {
        match self {
            Choice::A => s.label("A"),
            Choice::B(number, text) => {
                s.out.push_str("{\"B\":[");
                number.ser_json(d, s);
                s.conl();
                text.ser_json(d, s);
                s.out.push_str("]}");
            }
            Choice::C { a, b } => {
                s.out.push_str("{\"C\":");
                json_fields(d, s, vec![("a", to_json(a)), ("b", to_json(b))]);
                s.out.push('}');
            }
        }
    }
}

impl DeJson for Choice {
    fn de_json(s: &mut DeJsonState, i: &mut Chars) -> FromJson<Self> {
        let name = s.strbuf.clone();
        match s.tok {
            DeJsonTok::Str => {
                s.next_tok(i)?;
                match name == "A" {
                    true => Ok(Choice::A),
                    false => Err(s.err_enum(&name)),
                }
            }
            DeJsonTok::CurlyOpen => {
                s.curly_open(i)?;
                let name = s.strbuf.clone();
                s.string(i)?;
                s.colon(i)?;
                let choice = json_content(s, i, &name)?;
                s.curly_close(i)?;
                Ok(choice)
            }
            _ => Err(s.err_token("String or {")),
        }
    }
}

fn json_content(s: &mut DeJsonState, i: &mut Chars, name: &str) -> FromJson<Choice> {
    match name {
        "B" => {
            let (number, text) = DeJson::de_json(s, i)?;
            Ok(Choice::B(number, text))
        }
        "C" => {
            let (a, b) = json_of(s, i, ("a", "b"))?;
            let a = a.ok_or_else(|| s.err_nf("a"))?;
            Ok(Choice::C { a, b: b.ok_or_else(|| s.err_nf("b"))? })
        }
        _ => Err(s.err_enum(name)),
    }
}

impl SerRon for Choice {
    fn ser_ron(&self, d: usize, s: &mut SerRonState) {
        match self {
            Choice::A => s.out.push('A'),
            Choice::B(number, text) => {
                s.out.push_str("B(");
                number.ser_ron(d, s);
                s.out.push_str(", ");
                text.ser_ron(d, s);
                s.out.push(')');
            }
            Choice::C { a, b } => {
                s.out.push('C');
                ron_fields(d, s, vec![("a", to_ron(a)), ("b", to_ron(b))]);
            }
        }
    }
}

impl DeRon for Choice {
    fn de_ron(s: &mut DeRonState, i: &mut Chars) -> FromRon<Self> {
        let name = s.identbuf.clone();
        s.ident(i)?;
        match name.as_str() {
            "A" => Ok(Choice::A),
            "B" => {
                let (number, text) = DeRon::de_ron(s, i)?;
                Ok(Choice::B(number, text))
            }
            "C" => {
                let (a, b) = ron_of(s, i, ("a", "b"))?;
                let a = a.ok_or_else(|| s.err_nf("a"))?;
                Ok(Choice::C { a, b: b.ok_or_else(|| s.err_nf("b"))? })
            }
            _ => Err(s.err_enum(&name)),
        }
    }
}
