//! The types that a row can name. The derive macros are another crate, so of user-defined types it
//! has those of values.rs and records.rs alone.

use crate::ordered::{HashMap, HashSet};
use crate::records::{Choice, Item};
use crate::rows::{of_bytes, of_type, Answer};
use crate::values::{Holder, Plain, Test};
use std::collections::{BTreeSet, LinkedList};

type Lists = (Vec<i32>, LinkedList<i32>, HashSet<i32>, BTreeSet<i32>);

type Pair = Option<([u32; 4], String)>;

/// A function that answers rows of the types, by the names that they have here.
macro_rules! kinds {
    ($function:ident, $of:ident, $($kind:ty),+ $(,)?) => {
        pub fn $function(format: &str, kind: &str, input: &[u8]) -> Option<Answer> {
            $(if kind == stringify!($kind) {
                return $of::<$kind>(format, input);
            })+
            None
        }
    };
}

// Integers that have bytes alone.
kinds! { ask_bytes, of_bytes, u128, i128, Vec<u128>, Vec<i128> }

kinds! { ask_number, of_type,
    u8, u16, u32, u64, usize, i8, i16, i32, i64, bool, (), String, Option<u8>, Option<u16>,
    Option<u32>, Option<u64>, Option<i8>, Option<i16>, Option<i32>, Option<i64>, Option<bool>,
    Option<()>, Option<String>, Option<usize>, Option<Option<u8>>,
}

kinds! { ask_list, of_type,
    Vec<u8>, Vec<u16>, Vec<u32>, Vec<u64>, Vec<usize>, Vec<i8>, Vec<i16>, Vec<i32>, Vec<i64>,
    Vec<bool>, Vec<()>, Vec<String>, Vec<Option<u8>>, Vec<Vec<u8>>, Vec<LinkedList<u8>>,
    Vec<BTreeSet<u8>>, LinkedList<u8>, LinkedList<String>, Box<u8>, Box<String>, [u8; 0], [u8; 2],
    [u16; 2], [String; 2], (u8, u8), (u8, String), (u8, bool, i16), (u8, bool, i16, String),
    (String, String), (String, String, String), (String, String, String, String),
}

kinds! { ask_map, of_type,
    HashSet<u8>, HashSet<i32>, HashSet<String>, HashSet<Option<u8>>, BTreeSet<u8>, BTreeSet<i32>,
    BTreeSet<String>, BTreeSet<Option<u8>>, HashMap<u8, u8>, HashMap<u8, bool>,
    HashMap<i16, String>, HashMap<u64, u8>, HashMap<i64, u8>, HashMap<String, i32>,
    HashMap<String, String>, HashMap<String, Vec<u8>>, Vec<HashMap<u8, u8>>,
    Vec<HashMap<String, i32>>,
}

kinds! { ask_user_type, of_type,
    Test, Plain, Item, Choice, Holder<Test>, Holder<Plain>, Holder<Item>, Holder<Choice>,
    Holder<HashMap<u8, u8>>, Holder<HashMap<String, i32>>, Holder<Pair>, Holder<Lists>,
    Holder<[u64; 100]>, Holder<Holder<Option<Test>>>, Holder<Holder<Option<Plain>>>,
    Holder<Holder<Option<Item>>>, Holder<Holder<Option<Choice>>>, Vec<Option<Holder<Test>>>,
    Vec<Option<Holder<Plain>>>, Vec<Option<Holder<Item>>>, Vec<Option<Holder<Choice>>>,
}

/// The answer to an input of a type, where the type is here and has the format.
pub fn ask_kind(format: &str, kind: &str, input: &[u8]) -> Option<Answer> {
    let functions = [ask_number, ask_list, ask_map, ask_user_type];
    functions.iter().find_map(|ask| ask(format, kind, input))
}

/// The type of a word of `nano_show`.
pub fn kind_of_word(word: &str) -> Option<&'static str> {
    match word {
        "u8" => Some("u8"),
        "u32" => Some("u32"),
        "u64" => Some("u64"),
        "i32" => Some("i32"),
        "i64" => Some("i64"),
        "bool" => Some("bool"),
        "string" => Some("String"),
        "bytes" => Some("Vec<u8>"),
        "set" => Some("HashSet<i32>"),
        "map" | "tree" => Some("HashMap<String, i32>"),
        "item" => Some("Item"),
        "choice" => Some("Choice"),
        _ => None,
    }
}
