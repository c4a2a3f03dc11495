//! Tells what the Rust crate nanoserde does with each row of standard input: see build.sh.
//!
//! The rows are answered by a copy of this process. Where it ends before it answers a row, that row
//! is `stopped`, and another copy goes on after it.

extern crate alloc;

mod kinds;
mod listing;
mod ordered;
mod records;
mod rows;
mod values;

include!(env!("ORACLE_SOURCES"));

use std::alloc::{GlobalAlloc, Layout, System};
use std::io::{self, BufRead, BufReader, Read, Write};
use std::process::{Child, Command, Stdio};
use std::sync::atomic::{AtomicU64, Ordering};
use std::time::Duration;

/// The most bytes of one request for memory; a greater one ends the process, as on a small machine.
const MOST_BYTES: usize = 1 << 28;

/// The most rows that one copy of this process is sent.
const MOST_ROWS: usize = 200;

/// The most processor time of a row, in microseconds.
const MOST_TIME: i64 = 100_000;

/// The number of the row that is being answered.
static ROW: AtomicU64 = AtomicU64::new(0);

struct Limited;

unsafe impl GlobalAlloc for Limited {
    unsafe fn alloc(&self, layout: Layout) -> *mut u8 {
        match layout.size() > MOST_BYTES {
            true => std::ptr::null_mut(),
            false => System.alloc(layout),
        }
    }

    unsafe fn dealloc(&self, block: *mut u8, layout: Layout) {
        System.dealloc(block, layout)
    }
}

#[global_allocator]
static MEMORY: Limited = Limited;

extern "C" {
    /// The processor time of this process, in microseconds.
    fn clock() -> std::ffi::c_long;
}

/// Ends the process where a row takes too long.
fn watch() {
    let (mut row, mut start) = (0, 0);
    loop {
        std::thread::sleep(Duration::from_millis(10));
        let (now, time) = (ROW.load(Ordering::Relaxed), unsafe { clock() });
        if now != row {
            (row, start) = (now, time);
        } else if time - start > MOST_TIME && row % 2 == 1 {
            std::process::abort();
        }
    }
}

/// Answers the rows of standard input, each at once.
fn answer_rows() {
    std::panic::set_hook(Box::new(|_| {}));
    std::thread::spawn(watch);
    let mut output = io::stdout().lock();
    for line in io::stdin().lock().lines() {
        // An odd number stands for a row that is being answered.
        ROW.fetch_add(1, Ordering::Relaxed);
        let line = line.unwrap();
        let answer = std::panic::catch_unwind(|| rows::answer(&line));
        ROW.fetch_add(1, Ordering::Relaxed);
        let text = answer.unwrap_or_else(|_| "stopped".to_string());
        output.write_all((text + "\n").as_bytes()).unwrap();
    }
}

/// A copy of this process, to which the rows are sent.
fn copy_of_this(rows: &[String]) -> Child {
    let program = std::env::current_exe().unwrap();
    let mut child = Command::new(program)
        .arg("answer")
        .env("RUST_BACKTRACE", "0")
        .stdin(Stdio::piped())
        .stdout(Stdio::piped())
        .stderr(Stdio::null())
        .spawn()
        .unwrap();
    let mut input = child.stdin.take().unwrap();
    let text = rows.iter().map(|row| format!("{row}\n")).collect::<String>();
    // A copy that ends takes no more.
    std::thread::spawn(move || drop(input.write_all(text.as_bytes())));
    child
}

fn main() {
    if std::env::args().nth(1).is_some() {
        return answer_rows();
    }
    let rows: Vec<String> = io::stdin().lock().lines().map(Result::unwrap).collect();
    let mut output = io::stdout().lock();
    let mut place = 0;
    while place < rows.len() {
        let end = rows.len().min(place + MOST_ROWS);
        let mut child = copy_of_this(&rows[place..end]);
        let mut text = String::new();
        let mut answers = BufReader::new(child.stdout.take().unwrap());
        answers.read_to_string(&mut text).unwrap();
        child.wait().unwrap();
        let whole = text.rfind('\n').map_or(0, |end| end + 1);
        output.write_all(text[..whole].as_bytes()).unwrap();
        place += text[..whole].lines().count();
        if place < end {
            output.write_all(b"stopped\n").unwrap();
            place += 1;
        }
    }
}
