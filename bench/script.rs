//! A runner of scripts, to compare the speed of `arcbench` with:
//!
//!     script table SLOTS < SCRIPT
//!
//! The table runs on the pointer of the crate that was ported. It reads the same lines and prints the same answers as
//! `arcbench`, and goes no further than a comparison needs.

#[path = "script/table.rs"]
mod table;

use std::env;
use std::io::{self, Read, Write};
use std::process::exit;
use table::Table;

pub enum Answer {
    Done,
    Empty,
    Is(bool),
    NoSlot,
    Shared,
    Value(u32),
}

impl Answer {
    #[inline(always)]
    fn print(&self, out: &mut Vec<u8>) {
        match *self {
            Answer::Done => print(out, "done", None),
            Answer::Empty => print(out, "empty", None),
            Answer::Is(true) => print(out, "is true", None),
            Answer::Is(false) => print(out, "is false", None),
            Answer::NoSlot => print(out, "no slot", None),
            Answer::Shared => print(out, "shared", None),
            Answer::Value(value) => print(out, "value ", Some(u64::from(value))),
        }
    }
}

/// A line's word, its numbers, and how many of them there are.
pub struct Line<'a> {
    pub word: &'a [u8],
    pub numbers: [u32; 2],
    pub count: usize,
}

impl Line<'_> {
    #[inline(always)]
    fn read(line: &[u8]) -> Option<Line<'_>> {
        let mut words = line.split(|c| *c == b' ');
        let word = words.next()?;
        let mut line = Line {
            word,
            numbers: [0; 2],
            count: 0,
        };
        for word in words {
            *line.numbers.get_mut(line.count)? = number(word)?;
            line.count += 1;
        }
        Some(line)
    }
}

fn number(word: &[u8]) -> Option<u32> {
    if word.is_empty() || word.len() > 10 || word.len() > 1 && word[0] == b'0' {
        return None;
    }
    let mut n = 0u64;
    for c in word {
        if !c.is_ascii_digit() {
            return None;
        }
        n = n * 10 + u64::from(c - b'0');
    }
    u32::try_from(n).ok()
}

fn print(out: &mut Vec<u8>, text: &str, number: Option<u64>) {
    out.extend_from_slice(text.as_bytes());
    if let Some(number) = number {
        push_number(out, number);
    }
    out.push(b'\n');
}

fn push_number(out: &mut Vec<u8>, mut n: u64) {
    let mut digits = [0u8; 20];
    let mut at = digits.len();
    loop {
        at -= 1;
        digits[at] = b'0' + (n % 10) as u8;
        n /= 10;
        if n == 0 {
            break;
        }
    }
    out.extend_from_slice(&digits[at..]);
}

/// Runs the lines on the table; the status.
fn each_line(input: &[u8], out: &mut Vec<u8>, table: &mut Table) -> i32 {
    if input.is_empty() {
        return 0;
    }
    let input = input.strip_suffix(b"\n").unwrap_or(input);
    for (k, line) in input.split(|c| *c == b'\n').enumerate() {
        let Some(answer) = Line::read(line).and_then(|line| table.run(&line)) else {
            print(out, "fault: line ", Some(k as u64 + 1));
            return 2;
        };
        answer.print(out);
    }
    0
}

fn main() {
    let words: Vec<String> = env::args().skip(1).collect();
    let mut input = Vec::new();
    let mut out = Vec::new();
    let words: Vec<&str> = words.iter().map(|word| word.as_str()).collect();
    let size = words.last().and_then(|word| number(word.as_bytes()));
    let (["table", _], Some(slots @ 0..=1000)) = (words.as_slice(), size) else {
        eprintln!("fault: arguments");
        exit(1);
    };
    io::stdin().read_to_end(&mut input).unwrap();
    let status = each_line(&input, &mut out, &mut Table::new(slots as usize));
    io::stdout().write_all(&out).unwrap();
    exit(status)
}
