// The peers in C++, simdjson and RapidJSON, as far as they were there when this was built: they read JSON
// into owned values, with texts on the heap as here.

/// What simdjson wants after the input.
pub const PADDING: usize = 64;

#[cfg(any(simdjson, rapidjson))]
extern "C" {
    #[cfg(simdjson)]
    fn read_by_simdjson(kind: i32, input: *const u8, length: usize, room: usize) -> i64;
    #[cfg(rapidjson)]
    fn read_by_rapidjson(kind: i32, input: *const u8, length: usize) -> i64;
}

/// Their names.
pub const ANCHORS: &[&str] = &[
    #[cfg(simdjson)]
    "simdjson",
    #[cfg(rapidjson)]
    "rapidjson",
];

/// An input with room after it.
pub fn padded(input: &[u8]) -> Vec<u8> {
    let mut padded = input.to_vec();
    padded.resize(input.len() + PADDING, 0);
    padded
}

/// Reads the first `length` bytes as a value of a kind, drops it, and returns how many items it had.
pub fn read(anchor: &str, kind: u32, padded: &[u8], length: usize) -> i64 {
    assert!(length + PADDING <= padded.len());
    match anchor {
        #[cfg(simdjson)]
        "simdjson" => unsafe {
            read_by_simdjson(kind as i32, padded.as_ptr(), length, padded.len())
        },
        #[cfg(rapidjson)]
        "rapidjson" => unsafe { read_by_rapidjson(kind as i32, padded.as_ptr(), length) },
        _ => panic!("no peer {anchor}"),
    }
}
