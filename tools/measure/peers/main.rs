// The port and its peers in one process: nanoserde, serde_json, bincode, ron and toml, and for JSON that is
// read simdjson and RapidJSON, where they are installed.
//
//     peers --list                              the cases, FORMAT/KIND/PEER/OP, one a line
//     peers --runs N --sizes 1,10 [--filter TEXT]   MB/s of each case, the median of N runs in which
//                                               all peers take turns, by the thread's processor time
//     peers make FORMAT/KIND MEGABYTES FILE     writes an input
//     peers file FORMAT/KIND/PEER/OP FILE       reads it once within `measured_region`, for callgrind
//
// An OP is read (a value is read and dropped) or norm (it is also written, and that is dropped).
// Megabytes are 10^6 bytes of what the Rust crate writes. The format `indented` is JSON as
// `serde_json::to_string_pretty` writes it, and is only read. The kind `sorted` is a map that each peer
// writes with its keys in ascending order, as the port writes every map.
#![allow(warnings)]
extern crate alloc;
mod alone;
mod anchors;
mod data;
mod nano_serde_bin;
mod nano_serde_json;
mod nano_serde_ron;
mod nano_toml;
mod records;
mod nano {
    pub use crate::nano_serde_bin::*;
    pub use crate::nano_serde_json::*;
    pub use crate::nano_serde_ron::*;
    pub use crate::nano_toml::*;
}
use anchors::ANCHORS;
use data::*;
use nano::*;
use records::{Rec, RecB};
use serde::{de::DeserializeOwned, Serialize};
use std::collections::BTreeMap;
use std::hint::black_box;

mod port {
    extern "C" {
        fn nano_op(
            codec: u32,
            kind: u32,
            op: u32,
            input: *const u8,
            input_len: usize,
            output: *mut u8,
            output_len: usize,
        ) -> i64;
    }
    pub fn op(codec: u32, kind: u32, op: u32, input: &[u8], output: &mut [u8]) -> i64 {
        let (from, to) = (input.as_ptr(), output.as_mut_ptr());
        unsafe { nano_op(codec, kind, op, from, input.len(), to, output.len()) }
    }
}

#[inline(never)]
#[no_mangle]
pub extern "C" fn measured_region(f: &mut &mut dyn FnMut()) {
    f()
}

#[repr(C)]
struct Timespec {
    sec: i64,
    nsec: i64,
}

extern "C" {
    fn clock_gettime(clock: i32, time: *mut Timespec) -> i32;
}

/// The processor time of this thread, which is clock 3 on Linux.
fn seconds() -> f64 {
    let mut time = Timespec { sec: 0, nsec: 0 };
    unsafe { clock_gettime(3, &mut time) };
    time.sec as f64 + time.nsec as f64 * 1e-9
}

struct Race {
    runs: usize,
    filter: String,
    list: bool,
}

impl Race {
    /// Prints the speed of each peer at one case, or its name alone.
    fn run(&self, case: &str, op: &str, bytes: usize, peers: &mut [(&str, &mut dyn FnMut())]) {
        let wanted: Vec<bool> = peers
            .iter()
            .map(|(peer, _)| format!("{case}/{peer}/{op}").contains(&self.filter))
            .collect();
        if self.list {
            for (peer, _) in peers {
                println!("{case}/{peer}/{op}");
            }
            return;
        }
        let mut times = vec![Vec::new(); peers.len()];
        for run in 0..=self.runs {
            for (at, (_, work)) in peers.iter_mut().enumerate().filter(|(at, _)| wanted[*at]) {
                let start = seconds();
                work();
                if run > 0 {
                    times[at].push(seconds() - start);
                }
            }
        }
        if wanted.contains(&true) {
            print!("{:<22} {:>6.2}", format!("{case}/{op}"), bytes as f64 / 1e6);
            for ((peer, _), mut times) in peers.iter().zip(times) {
                times.sort_by(|a, b| a.partial_cmp(b).unwrap());
                match times.get(times.len() / 2) {
                    Some(time) => print!("  {:>10} {:>8.1}", peer, bytes as f64 / 1e6 / time.max(1e-9)),
                    None => print!("  {:>10} {:>8}", peer, "-"),
                }
            }
            println!();
        }
    }

    /// Whether the filter takes a case of a kind in a format.
    fn wants(&self, case: &str, peers: &[&str]) -> bool {
        let ops = ["read", "norm"];
        let names = peers.iter().flat_map(|peer| ops.map(|op| format!("{case}/{peer}/{op}")));
        self.list || names.into_iter().any(|name| name.contains(&self.filter))
    }
}

fn text(bytes: &[u8]) -> &str {
    std::str::from_utf8(bytes).unwrap()
}

fn ron_options() -> ron::Options {
    ron::Options::default().with_default_extension(ron::extensions::Extensions::IMPLICIT_SOME)
}

const FORMATS: [&str; 4] = ["bin", "json", "ron", "indented"];
const PEERS: [&str; 4] = ["bincode", "serde_json", "ron", "serde_json"];

/// The port's number of a format.
fn codec_of(format: &str) -> u32 {
    match format {
        "bin" => 0,
        "ron" => 2,
        _ => 1,
    }
}

/// What is read of a value.
fn input_of<T: SerBin + SerJson + SerRon + Serialize>(format: &str, value: &T) -> Vec<u8> {
    match format {
        "indented" => serde_json::to_vec_pretty(value).unwrap(),
        _ => encoded(format, value),
    }
}

/// What the Rust crate writes of a value.
fn encoded<T: SerBin + SerJson + SerRon>(format: &str, value: &T) -> Vec<u8> {
    match format {
        "bin" => value.serialize_bin(),
        "ron" => value.serialize_ron().into_bytes(),
        _ => value.serialize_json().into_bytes(),
    }
}

/// What it reads.
fn decoded<T: DeBin + DeJson + DeRon>(format: &str, input: &[u8]) -> T {
    match format {
        "bin" => T::deserialize_bin(input).unwrap(),
        "ron" => T::deserialize_ron(text(input)).unwrap(),
        _ => T::deserialize_json(text(input)).unwrap(),
    }
}

/// What the format's other crate reads, as a value or as what is written of it.
fn peer_work<T, B>(format: &str, write: bool, input: &[u8])
where
    T: Serialize + DeserializeOwned,
    B: Serialize + DeserializeOwned,
{
    let ron = ron_options();
    match (format, write) {
        ("bin", false) => drop(black_box(bincode::deserialize::<B>(input).unwrap())),
        ("bin", true) => {
            let value = bincode::deserialize::<B>(input).unwrap();
            drop(black_box(bincode::serialize(&value).unwrap()))
        }
        ("ron", false) => drop(black_box(ron.from_str::<T>(text(input)).unwrap())),
        ("ron", true) => {
            let value = ron.from_str::<T>(text(input)).unwrap();
            drop(black_box(ron.to_string(&value).unwrap()))
        }
        (_, false) => drop(black_box(serde_json::from_str::<T>(text(input)).unwrap())),
        (_, true) => {
            let value = serde_json::from_str::<T>(text(input)).unwrap();
            drop(black_box(serde_json::to_string(&value).unwrap()))
        }
    }
}

/// All peers at a kind of value in each format, after a look that they do the same.
fn case<T, B>(race: &Race, kind: u32, name: &str, target: usize, make: fn(usize) -> T)
where
    T: SerBin + DeBin + SerJson + DeJson + SerRon + DeRon,
    T: Serialize + DeserializeOwned + PartialEq,
    B: Serialize + DeserializeOwned,
{
    for (format, peer) in FORMATS.into_iter().zip(PEERS) {
        let (case, codec) = (format!("{format}/{name}"), codec_of(format));
        let names = [&["nanoserde", peer, "port"], ANCHORS].concat();
        if !race.wants(&case, &names) {
            continue;
        }
        let size = input_of(format, &make(1000)).len();
        let value = make(if race.list { 1 } else { 1000 * target / size });
        let input = input_of(format, &value);
        if !race.list {
            assert!(decoded::<T>(format, &input) == value);
            let normal = encoded(format, &value);
            let mut output = vec![0u8; normal.len() + 64];
            let written = port::op(codec, kind, 1, &input, &mut output);
            assert_eq!(written, normal.len() as i64, "{case}");
            // a map is written in ascending order by the port alone
            assert!(kind == 3 || output[..normal.len()] == normal[..]);
            if peer == "serde_json" {
                check_anchors(kind, &input);
            }
        }
        let ops = [("read", false), ("norm", true)];
        for (op, write) in ops.into_iter().take(if format == "indented" { 1 } else { 2 }) {
            let mut nanoserde = || {
                let value = decoded::<T>(format, &input);
                match write {
                    true => drop(black_box(encoded(format, &value))),
                    false => drop(black_box(value)),
                }
            };
            let mut other = || peer_work::<T, B>(format, write, &input);
            // op 2: what is written is dropped, as the peers drop it
            let number = 2 * write as u32;
            let mut port =
                || assert!(black_box(port::op(codec, kind, number, &input, &mut [])) >= 0);
            let mut peers: Vec<(&str, &mut dyn FnMut())> =
                vec![("nanoserde", &mut nanoserde), (peer, &mut other), ("port", &mut port)];
            let padded = anchors::padded(&input);
            let mut works: Vec<_> = ANCHORS
                .iter()
                .filter(|_| peer == "serde_json" && !write)
                .map(|anchor| (*anchor, || assert!(anchor_read(anchor, kind, &padded) >= 0)))
                .collect();
            peers.extend(works.iter_mut().map(|(anchor, work)| (*anchor, work as &mut dyn FnMut())));
            race.run(&case, op, input.len(), &mut peers);
        }
    }
}

/// The peers in C++ read an input, and refuse it with another character in the place of its first comma.
fn check_anchors(kind: u32, input: &[u8]) {
    for anchor in ANCHORS {
        let mut padded = anchors::padded(input);
        assert!(anchor_read(anchor, kind, &padded) > 0, "{anchor}");
        let comma = input.iter().position(|byte| *byte == b',').unwrap();
        padded[comma] = b';';
        assert_eq!(anchor_read(anchor, kind, &padded), -1, "{anchor}");
    }
}

/// What a peer in C++ says of an input that has room after it.
pub fn anchor_read(anchor: &str, kind: u32, padded: &[u8]) -> i64 {
    black_box(anchors::read(anchor, kind, padded, padded.len() - anchors::PADDING))
}

/// What the format's other crate reads and writes of a map, with its keys in ascending order.
fn sorted_work(format: &str, input: &[u8]) {
    let ron = ron_options();
    let map: Map = match format {
        "bin" => bincode::deserialize(input).unwrap(),
        "ron" => ron.from_str(text(input)).unwrap(),
        _ => serde_json::from_str(text(input)).unwrap(),
    };
    let sorted: BTreeMap<&String, &i32> = map.iter().collect();
    match format {
        "bin" => drop(black_box(bincode::serialize(&sorted).unwrap())),
        "ron" => drop(black_box(ron.to_string(&sorted).unwrap())),
        _ => drop(black_box(serde_json::to_string(&sorted).unwrap())),
    }
}

/// Maps that the peers, too, write in ascending order. They are raced alone, and not listed.
fn sorted_case(race: &Race, target: usize) {
    for (format, peer) in FORMATS.into_iter().zip(PEERS).take(3) {
        let case = format!("{format}/sorted");
        if race.list || !race.wants(&case, &[peer, "port"]) {
            continue;
        }
        let size = input_of(format, &mk_map(1000)).len();
        let input = input_of(format, &mk_map(1000 * target / size));
        let mut other = || sorted_work(format, &input);
        let mut port =
            || assert!(black_box(port::op(codec_of(format), 3, 2, &input, &mut [])) >= 0);
        let mut peers: [(&str, &mut dyn FnMut()); 2] = [(peer, &mut other), ("port", &mut port)];
        race.run(&case, "norm", input.len(), &mut peers);
    }
}

fn toml_case(race: &Race, target: usize) {
    if !race.wants("toml/file", &["nanoserde", "toml", "port"]) {
        return;
    }
    let input = mk_toml(target);
    let mut nanoserde = || drop(black_box(TomlParser::parse(&input).unwrap()));
    let mut other = || drop(black_box(toml::from_str::<toml::Value>(&input).unwrap()));
    let mut port = || assert!(black_box(port::op(3, 0, 0, input.as_bytes(), &mut [])) >= 0);
    let mut peers: [(&str, &mut dyn FnMut()); 3] =
        [("nanoserde", &mut nanoserde), ("toml", &mut other), ("port", &mut port)];
    race.run("toml/file", "read", input.len(), &mut peers);
}

fn main() {
    if alone::ran() {
        return;
    }
    let mut race = Race { runs: 9, filter: String::new(), list: false };
    let mut sizes = vec![1usize, 10];
    let mut words = std::env::args().skip(1);
    while let Some(word) = words.next() {
        match word.as_str() {
            "--runs" => race.runs = words.next().unwrap().parse().unwrap(),
            "--filter" => race.filter = words.next().unwrap(),
            "--sizes" => sizes = words.next().unwrap().split(',').map(|s| s.parse().unwrap()).collect(),
            "--list" => race.list = true,
            _ => panic!("unknown word {word}"),
        }
    }
    for megabytes in if race.list { vec![1] } else { sizes } {
        let target = megabytes * 1_000_000;
        case::<Vec<u8>, Vec<u8>>(&race, 0, "u8s", target, mk_u8);
        case::<Vec<u64>, Vec<u64>>(&race, 1, "u64s", target, mk_u64);
        case::<Vec<String>, Vec<String>>(&race, 2, "strings", target, mk_str);
        case::<Map, Map>(&race, 3, "map", target, mk_map);
        case::<Vec<Rec>, Vec<RecB>>(&race, 4, "records", target, mk_rec);
        sorted_case(&race, target);
        toml_case(&race, target);
    }
}
