//! second [run|check|to-second|to-first|chain]: reads a plan on standard input and prints what
//! `./bench` prints for that command. `run` may be left out.

use second::convert::{self, to_first, to_second};
use second::{chain, looks, run};
use std::io::{self, Read, Write};
use std::process::exit;

fn main() -> io::Result<()> {
    let words: Vec<String> = std::env::args().skip(1).collect();
    let words: Vec<&str> = words.iter().map(String::as_str).collect();
    let answer: fn(&[u8]) -> Vec<u8> = match words[..] {
        [] | ["run"] => |text| run::answer_bytes(text, u64::MAX),
        ["check"] => looks::answer_bytes,
        ["to-second"] => |text| convert::answer_bytes(to_second, text),
        ["to-first"] => |text| convert::answer_bytes(to_first, text),
        ["chain"] => chain::answer_bytes,
        _ => {
            eprintln!("usage: second [run|check|to-second|to-first|chain]");
            exit(2);
        }
    };
    let mut text = Vec::new();
    io::stdin().read_to_end(&mut text)?;
    io::stdout().write_all(&answer(&text))
}
