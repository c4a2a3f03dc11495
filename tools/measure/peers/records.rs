// The records that are read and written: for serde by its derives, for the Rust crate by the impls
// that its derives write.
use crate::nano::*;
use serde::{Deserialize, Serialize};
use std::str::Chars;

#[derive(Serialize, Deserialize, PartialEq, Debug)]
pub struct Rec {
    pub value: i32,
    #[serde(default, skip_serializing_if = "Option::is_none")]
    pub note: Option<String>,
}
/// The same without skipping, for bincode, whose layout has no field names.
#[derive(Serialize, Deserialize, PartialEq, Debug)]
pub struct RecB {
    pub value: i32,
    pub note: Option<String>,
}

impl SerBin for Rec {
    fn ser_bin(&self, s: &mut Vec<u8>) {
        self.value.ser_bin(s);
        self.note.ser_bin(s);
    }
}
impl DeBin for Rec {
    fn de_bin(o: &mut usize, d: &[u8]) -> Result<Self, DeBinErr> {
        Ok(Rec { value: DeBin::de_bin(o, d)?, note: DeBin::de_bin(o, d)? })
    }
}
impl SerJson for Rec {
    fn ser_json(&self, d: usize, s: &mut SerJsonState) {
        s.st_pre();
        s.field(d + 1, "value");
        self.value.ser_json(d + 1, s);
        if let Some(n) = &self.note {
            s.conl();
            s.field(d + 1, "note");
            n.ser_json(d + 1, s);
        }
        s.st_post(d);
    }
}
impl DeJson for Rec {
    fn de_json(s: &mut DeJsonState, i: &mut Chars) -> Result<Self, DeJsonErr> {
        let mut value = None;
        let mut note = None;
        s.curly_open(i)?;
        while s.next_str().is_some() {
            match s.strbuf.as_str() {
                "value" => {
                    s.next_colon(i)?;
                    value = Some(DeJson::de_json(s, i)?);
                }
                "note" => {
                    s.next_colon(i)?;
                    note = DeJson::de_json(s, i)?;
                }
                _ => {
                    s.next_colon(i)?;
                    s.whole_field(i)?;
                }
            }
            s.eat_comma_curly(i)?;
        }
        s.curly_close(i)?;
        match value {
            Some(value) => Ok(Rec { value, note }),
            None => Err(s.err_nf("value")),
        }
    }
}
impl SerRon for Rec {
    fn ser_ron(&self, d: usize, s: &mut SerRonState) {
        s.st_pre();
        s.field(d + 1, "value");
        self.value.ser_ron(d + 1, s);
        s.conl();
        if let Some(n) = &self.note {
            s.field(d + 1, "note");
            n.ser_ron(d + 1, s);
            s.conl();
        }
        s.st_post(d);
    }
}
impl DeRon for Rec {
    fn de_ron(s: &mut DeRonState, i: &mut Chars) -> Result<Self, DeRonErr> {
        let mut value = None;
        let mut note = None;
        s.paren_open(i)?;
        while s.next_ident().is_some() {
            match s.identbuf.as_str() {
                "value" => {
                    s.next_colon(i)?;
                    value = Some(DeRon::de_ron(s, i)?);
                }
                "note" => {
                    s.next_colon(i)?;
                    note = DeRon::de_ron(s, i)?;
                }
                _ => return Err(s.err_exp(&s.identbuf)),
            }
            s.eat_comma_paren(i)?;
        }
        s.paren_close(i)?;
        match value {
            Some(value) => Ok(Rec { value, note }),
            None => Err(s.err_nf("value")),
        }
    }
}
