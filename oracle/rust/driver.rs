// What the Rust crate answers. Reads cases from standard input, one to a line, and writes one line for each.
//
// A case is words with one blank between them, and so is its answer:
//
//     d BYTES                 the decoder on these bytes: its points, each TIME,VALUE, then the first answer that is none: `end` or a refusal
//     e START TIME,VALUE..    the encoder from this start with these points, then closed: BYTES
//     w WRITE..               the bit writer: BYTES. A write is b0 or b1 (write_bit), yHH (write_byte), or WIDTH:NUMBER (write_bits)
//     r BYTES READ..          the bit reader: a NUMBER for each read, up to the first refusal. A read is b (read_bit), y (read_byte),
//                             WIDTH (read_bits) or pWIDTH (peak_bits)
//
// START, TIME and WIDTH are decimal, VALUE is the 64 bits of a double in 16 hex digits, NUMBER is hex, BYTES is two hex digits a byte, or `-` for
// none. Hex digits are lower case. A refusal is `refused` and the port's number for it: 6 for InvalidInitialTimestamp, 7 for EOF, 8 for
// InvalidEndOfStream. A panic is `trap`, behind what was answered before it. Any other line is answered by `line not understood`.

extern crate tsz;

use std::fmt::Write as Text;
use std::io::{BufRead, Write as Output};
use std::panic::{catch_unwind, set_hook, AssertUnwindSafe};
use tsz::decode::Error;
use tsz::stream::{BufferedReader, BufferedWriter, Read, Write};
use tsz::{Bit, DataPoint, Decode, Encode, StdDecoder, StdEncoder};

type Words<'a> = std::str::Split<'a, char>;

fn bytes_of(word: &str) -> Option<Vec<u8>> {
    if word == "-" {
        return Some(Vec::new());
    }
    if word.is_empty() || word.len() % 2 != 0 {
        return None;
    }
    word.as_bytes().chunks(2).map(|pair| Some(16 * digit(pair[0])? + digit(pair[1])?)).collect()
}

fn digit(b: u8) -> Option<u8> {
    match b {
        b'0'..=b'9' => Some(b - b'0'),
        b'a'..=b'f' => Some(b - b'a' + 10),
        _ => None,
    }
}

// What `parse` takes beyond digits, as a sign, is no number here.
fn decimal(word: &str) -> Option<u64> {
    if word.bytes().all(|b| b.is_ascii_digit()) {
        word.parse().ok()
    } else {
        None
    }
}

fn hex(word: &str) -> Option<u64> {
    if word.is_empty() || word.len() > 16 {
        return None;
    }
    word.bytes().try_fold(0, |n, b| Some(n << 4 | u64::from(digit(b)?)))
}

fn width(word: &str) -> Option<u32> {
    decimal(word).filter(|&n| n <= u64::from(u32::max_value())).map(|n| n as u32)
}

fn put_bytes(out: &mut String, bytes: &[u8]) {
    const DIGITS: &[u8; 16] = b"0123456789abcdef";
    if bytes.is_empty() {
        out.push('-');
    }
    for b in bytes {
        out.push(DIGITS[usize::from(b >> 4)] as char);
        out.push(DIGITS[usize::from(b & 15)] as char);
    }
}

fn decoded(mut words: Words, out: &mut String) -> Option<()> {
    let bytes = bytes_of(words.next()?)?;
    if words.next().is_some() {
        return None;
    }
    let mut decoder = StdDecoder::new(BufferedReader::new(bytes.into_boxed_slice()));
    loop {
        let last = match decoder.next() {
            Ok(p) => {
                write!(out, "{},{:016x} ", p.get_time(), p.get_value().to_bits()).unwrap();
                continue;
            }
            Err(Error::EndOfStream) => "end",
            Err(Error::InvalidInitialTimestamp) => "refused 6",
            Err(Error::Stream(_)) => "refused 7",
            Err(Error::InvalidEndOfStream) => "refused 8",
        };
        out.push_str(last);
        return Some(());
    }
}

fn encoded(mut words: Words, out: &mut String) -> Option<()> {
    let start = decimal(words.next()?)?;
    let mut encoder = StdEncoder::new(start, BufferedWriter::new());
    for word in words {
        let comma = word.find(',')?;
        let (time, value) = (decimal(&word[..comma])?, &word[comma + 1..]);
        if value.len() != 16 {
            return None;
        }
        encoder.encode(DataPoint::new(time, f64::from_bits(hex(value)?)));
    }
    put_bytes(out, &encoder.close());
    Some(())
}

fn written(words: Words, out: &mut String) -> Option<()> {
    let mut writer = BufferedWriter::new();
    for word in words {
        if word == "b0" {
            writer.write_bit(Bit::Zero);
        } else if word == "b1" {
            writer.write_bit(Bit::One);
        } else if word.starts_with('y') {
            let byte = bytes_of(&word[1..])?;
            if byte.len() != 1 {
                return None;
            }
            writer.write_byte(byte[0]);
        } else {
            let colon = word.find(':')?;
            writer.write_bits(hex(&word[colon + 1..])?, width(&word[..colon])?);
        }
    }
    put_bytes(out, &writer.close());
    Some(())
}

fn read(mut words: Words, out: &mut String) -> Option<()> {
    let bytes = bytes_of(words.next()?)?;
    let mut reader = BufferedReader::new(bytes.into_boxed_slice());
    for (number, word) in words.enumerate() {
        let got = if word == "b" {
            reader.read_bit().map(|bit| bit.to_u64())
        } else if word == "y" {
            reader.read_byte().map(u64::from)
        } else if word.starts_with('p') {
            reader.peak_bits(width(&word[1..])?)
        } else {
            reader.read_bits(width(word)?)
        };
        if number > 0 {
            out.push(' ');
        }
        match got {
            Ok(n) => write!(out, "{:x}", n).unwrap(),
            Err(_) => {
                out.push_str("refused 7");
                return Some(());
            }
        }
    }
    Some(())
}

fn answer(line: &str, out: &mut String) -> Option<()> {
    let mut words = line.split(' ');
    match words.next()? {
        "d" => decoded(words, out),
        "e" => encoded(words, out),
        "w" => written(words, out),
        "r" => read(words, out),
        _ => None,
    }
}

fn main() {
    set_hook(Box::new(|_| ()));
    let (input, output) = (std::io::stdin(), std::io::stdout());
    let mut output = std::io::BufWriter::with_capacity(1 << 16, output.lock());
    let (mut line, mut out) = (String::new(), String::new());
    let mut input = std::io::BufReader::with_capacity(1 << 16, input.lock());
    while input.read_line(&mut line).unwrap() > 0 {
        out.clear();
        // what a panic leaves behind is dropped, but for the text
        match catch_unwind(AssertUnwindSafe(|| answer(line.trim_end_matches('\n'), &mut out))) {
            Ok(Some(())) => (),
            Ok(None) => out.replace_range(.., "line not understood"),
            Err(_) => out.push_str("trap"),
        }
        out.push('\n');
        output.write_all(out.as_bytes()).unwrap();
        line.clear();
    }
}
