//! User-defined types over the crate's calls, as its derive macros lay them out. The content of a
//! variant without names is read by the crate's reader of tuples.

use crate::serde_bin::{DeBin, DeBinErr, SerBin};
use crate::serde_json::{DeJson, DeJsonErr, DeJsonState, SerJson, SerJsonState};
use crate::serde_ron::{DeRon, DeRonErr, DeRonState, SerRon, SerRonState};
use std::str::Chars;

pub type FromJson<T> = Result<T, DeJsonErr>;
pub type FromRon<T> = Result<T, DeRonErr>;

/// What is written between braces or parentheses: a name, and what writes its value.
pub type Fields<'a, S> = Vec<(&'a str, Box<dyn Fn(usize, &mut S) + 'a>)>;

pub fn json_fields(d: usize, s: &mut SerJsonState, fields: Fields<'_, SerJsonState>) {
    s.st_pre();
    for (place, (name, write)) in fields.iter().enumerate() {
        if place > 0 {
            s.conl();
        }
        s.field(d + 1, name);
        write(d + 1, s);
    }
    s.st_post(d);
}

pub fn ron_fields(d: usize, s: &mut SerRonState, fields: Fields<'_, SerRonState>) {
    s.st_pre();
    for (name, write) in fields {
        s.field(d + 1, name);
        write(d + 1, s);
        s.conl();
    }
    s.st_post(d);
}

pub fn to_json<T: SerJson>(value: &T) -> Box<dyn Fn(usize, &mut SerJsonState) + '_> {
    Box::new(move |d, s| value.ser_json(d, s))
}

pub fn to_ron<T: SerRon>(value: &T) -> Box<dyn Fn(usize, &mut SerRonState) + '_> {
    Box::new(move |d, s| value.ser_ron(d, s))
}

/// Reads the fields of these names into two places; another field is skipped.
pub fn json_of<A: DeJson, B: DeJson>(
    s: &mut DeJsonState,
    i: &mut Chars,
    (first, second): (&str, &str),
) -> FromJson<(Option<A>, Option<B>)> {
    let (mut a, mut b) = (None, None);
    s.curly_open(i)?;
    while s.next_str().is_some() {
        let name = s.strbuf.clone();
        s.next_colon(i)?;
        match name {
            _ if name == first => a = Some(DeJson::de_json(s, i)?),
            _ if name == second => b = Some(DeJson::de_json(s, i)?),
            _ => s.whole_field(i)?,
        }
        s.eat_comma_curly(i)?;
    }
    s.curly_close(i)?;
    Ok((a, b))
}

/// Reads the fields of these names into two places; another field is rejected.
pub fn ron_of<A: DeRon, B: DeRon>(
    s: &mut DeRonState,
    i: &mut Chars,
    (first, second): (&str, &str),
) -> FromRon<(Option<A>, Option<B>)> {
    let (mut a, mut b) = (None, None);
    s.paren_open(i)?;
    while s.next_ident().is_some() {
        let name = s.identbuf.clone();
        if name != first && name != second {
            return Err(s.err_exp(&name));
        }
        s.next_colon(i)?;
        match name == first {
            true => a = Some(DeRon::de_ron(s, i)?),
            false => b = Some(DeRon::de_ron(s, i)?),
        }
        s.eat_comma_paren(i)?;
    }
    s.paren_close(i)?;
    Ok((a, b))
}

/// A type that is what another one is: its formats are those of that one.
macro_rules! is_as {
    ($name:ident, $other:ty, $make:expr, $take:expr) => {
        impl SerBin for $name {
            fn ser_bin(&self, output: &mut Vec<u8>) {
                $take(self).ser_bin(output)
            }
        }
        impl DeBin for $name {
            fn de_bin(o: &mut usize, d: &[u8]) -> Result<Self, DeBinErr> {
                <$other>::de_bin(o, d).map($make)
            }
        }
        impl SerJson for $name {
            fn ser_json(&self, d: usize, s: &mut SerJsonState) {
                $take(self).ser_json(d, s)
            }
        }
        impl DeJson for $name {
            fn de_json(s: &mut DeJsonState, i: &mut Chars) -> FromJson<Self> {
                <$other>::de_json(s, i).map($make)
            }
        }
        impl SerRon for $name {
            fn ser_ron(&self, d: usize, s: &mut SerRonState) {
                $take(self).ser_ron(d, s)
            }
        }
        impl DeRon for $name {
            fn de_ron(s: &mut DeRonState, i: &mut Chars) -> FromRon<Self> {
                <$other>::de_ron(s, i).map($make)
            }
        }
    };
}

/// One part without a name, with `transparent`.
pub struct Plain(i32);
is_as!(Plain, i32, Plain, |plain: &Plain| plain.0);

/// One part without a name.
pub struct Test(i32);
is_as!(Test, [i32; 1], |parts: [i32; 1]| Test(parts[0]), |test: &Test| [test.0]);

pub struct Holder<T> {
    x: T,
}

impl<T: SerBin> SerBin for Holder<T> {
    fn ser_bin(&self, output: &mut Vec<u8>) {
        self.x.ser_bin(output)
    }
}

impl<T: DeBin> DeBin for Holder<T> {
    fn de_bin(o: &mut usize, d: &[u8]) -> Result<Self, DeBinErr> {
        Ok(Holder { x: DeBin::de_bin(o, d)? })
    }
}

impl<T: SerJson> SerJson for Holder<T> {
    fn ser_json(&self, d: usize, s: &mut SerJsonState) {
        json_fields(d, s, vec![("x", to_json(&self.x))])
    }
}

impl<T: DeJson> DeJson for Holder<T> {
    fn de_json(s: &mut DeJsonState, i: &mut Chars) -> FromJson<Self> {
        let (x, _) = json_of::<T, ()>(s, i, ("x", "x"))?;
        Ok(Holder { x: x.ok_or_else(|| s.err_nf("x"))? })
    }
}

impl<T: SerRon> SerRon for Holder<T> {
    fn ser_ron(&self, d: usize, s: &mut SerRonState) {
        ron_fields(d, s, vec![("x", to_ron(&self.x))])
    }
}

impl<T: DeRon> DeRon for Holder<T> {
    fn de_ron(s: &mut DeRonState, i: &mut Chars) -> FromRon<Self> {
        let (x, _) = ron_of::<T, ()>(s, i, ("x", "x"))?;
        Ok(Holder { x: x.ok_or_else(|| s.err_nf("x"))? })
    }
}
