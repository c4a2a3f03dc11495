// One case alone in its process.
use crate::anchors::{padded, ANCHORS};
use crate::data::*;
use crate::nano::*;
use crate::records::{Rec, RecB};
use crate::{anchor_read, codec_of, decoded, encoded, input_of, measured_region, peer_work, port, text};
use serde::{de::DeserializeOwned, Serialize};
use std::hint::black_box;

/// `make FORMAT/KIND MEGABYTES FILE` writes an input; `file FORMAT/KIND/PEER/OP FILE` reads it
/// once, within `measured_region`, in a process that holds nothing else. False: other words.
pub fn ran() -> bool {
    let words: Vec<String> = std::env::args().skip(1).collect();
    let words: Vec<&str> = words.iter().map(String::as_str).collect();
    match words[..] {
        ["make", name, megabytes, file] => {
            let target = megabytes.parse::<usize>().unwrap() * 1_000_000;
            std::fs::write(file, made(&parts(name), target)).unwrap();
        }
        ["file", name, file] => {
            let input = std::fs::read(file).unwrap();
            taken(&parts(name), &input);
        }
        _ => return false,
    }
    true
}

fn parts(name: &str) -> Vec<&str> {
    name.split('/').collect()
}

fn made(parts: &[&str], target: usize) -> Vec<u8> {
    match parts[1] {
        "u8s" => of_size(parts[0], target, mk_u8),
        "u64s" => of_size(parts[0], target, mk_u64),
        "strings" => of_size(parts[0], target, mk_str),
        "map" => of_size(parts[0], target, mk_map),
        "records" => of_size(parts[0], target, mk_rec),
        "file" => mk_toml(target).into_bytes(),
        other => panic!("no kind {other}"),
    }
}

fn of_size<T: SerBin + SerJson + SerRon + Serialize>(
    format: &str,
    target: usize,
    make: fn(usize) -> T,
) -> Vec<u8> {
    let size = input_of(format, &make(1000)).len();
    input_of(format, &make(1000 * target / size))
}

fn taken(parts: &[&str], input: &[u8]) {
    match parts[1] {
        "u8s" => case_alone::<Vec<u8>, Vec<u8>>(parts, 0, input),
        "u64s" => case_alone::<Vec<u64>, Vec<u64>>(parts, 1, input),
        "strings" => case_alone::<Vec<String>, Vec<String>>(parts, 2, input),
        "map" => case_alone::<Map, Map>(parts, 3, input),
        "records" => case_alone::<Vec<Rec>, Vec<RecB>>(parts, 4, input),
        "file" => toml_alone(parts[2], input),
        other => panic!("no kind {other}"),
    }
}

fn measured(work: &mut dyn FnMut()) {
    measured_region(&mut (work as &mut dyn FnMut()))
}

fn case_alone<T, B>(parts: &[&str], kind: u32, input: &[u8])
where
    T: SerBin + DeBin + SerJson + DeJson + SerRon + DeRon + Serialize + DeserializeOwned,
    B: Serialize + DeserializeOwned,
{
    let codec = codec_of(parts[0]);
    let write = parts[3] == "norm";
    match parts[2] {
        "nanoserde" => measured(&mut || {
            let value = decoded::<T>(parts[0], input);
            match write {
                true => drop(black_box(encoded(parts[0], &value))),
                false => drop(black_box(value)),
            }
        }),
        "port" => measured(&mut || {
            assert!(port::op(codec, kind, 2 * write as u32, input, &mut []) >= 0)
        }),
        anchor if ANCHORS.contains(&anchor) => {
            let padded = padded(input);
            measured(&mut || assert!(anchor_read(anchor, kind, &padded) >= 0))
        }
        _ => measured(&mut || peer_work::<T, B>(parts[0], write, input)),
    }
}

fn toml_alone(peer: &str, input: &[u8]) {
    match peer {
        "nanoserde" => measured(&mut || drop(black_box(TomlParser::parse(text(input)).unwrap()))),
        "port" => measured(&mut || assert!(port::op(3, 0, 0, input, &mut []) >= 0)),
        _ => measured(&mut || {
            drop(black_box(toml::from_str::<toml::Value>(text(input)).unwrap()))
        }),
    }
}
