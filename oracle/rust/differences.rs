// What the crate tsz 0.1.4 does where this port differs from it: a line for each difference, on the smallest input that shows it, as
// `NAME | INPUT | ANSWERS`. Names that begin with alike- are of cases where one might look for a difference and there is none. docs/DIFFERENCES.md
// has each name in a row. A point is its time and its value's bits in hex, bytes are in hex with runs as BYTE*TIMES, and a panic is `trap`.

use std::panic::{catch_unwind, set_hook, AssertUnwindSafe};
use tsz::decode::Error;
use tsz::stream::{BufferedReader, BufferedWriter, Read, Write};
use tsz::{Bit, DataPoint, Decode, Encode, StdDecoder, StdEncoder};

const LAST: u64 = std::u64::MAX;
const MARKER: (u64, u32) = (0b1111 << 32, 36);
const TOO_MANY: usize = 16_777_217; // bytes, one more than a lent buffer may have

fn say(name: &str, input: &str, answers: &str) {
    println!("{} | {} | {}", name, input, answers);
}

fn caught<T>(call: impl FnOnce() -> T) -> Option<T> {
    catch_unwind(AssertUnwindSafe(call)).ok()
}

fn or_trap(answer: Option<String>) -> String {
    answer.unwrap_or_else(|| "trap".to_string())
}

// Zero bytes come in long runs, which nobody would count.
fn hex(bytes: &[u8]) -> String {
    let mut words: Vec<String> = Vec::new();
    let mut i = 0;
    while i < bytes.len() {
        let run = bytes[i..].iter().take_while(|b| **b == bytes[i]).count();
        words.push(if run > 1 { format!("{:02x}*{}", bytes[i], run) } else { format!("{:02x}", bytes[i]) });
        i += run;
    }
    if words.is_empty() { "no bytes".to_string() } else { words.join(" ") }
}

fn point(time: u64, bits: u64) -> String {
    format!("{},{:x}", time, bits)
}

// Numbers and their widths in bits, one behind the other.
fn packed(fields: &[(u64, u32)]) -> Vec<u8> {
    let mut w = BufferedWriter::new();
    fields.iter().for_each(|(number, width)| w.write_bits(*number, *width));
    w.close().into_vec()
}

// What so many calls of a decoder answer, up to a trap, after which its state means nothing.
fn steps(bytes: Vec<u8>, calls: usize) -> String {
    let mut decoder = StdDecoder::new(BufferedReader::new(bytes.into_boxed_slice()));
    let mut words = Vec::new();
    for _ in 0..calls {
        let word = caught(|| match decoder.next() {
            Ok(p) => point(p.get_time(), p.get_value().to_bits()),
            Err(Error::Stream(_)) => "EOF".to_string(),
            Err(Error::InvalidInitialTimestamp) => "InvalidInitialTimestamp".to_string(),
            Err(Error::InvalidEndOfStream) => "InvalidEndOfStream".to_string(),
            Err(Error::EndOfStream) => "EndOfStream".to_string(),
        });
        let trapped = word.is_none();
        words.push(or_trap(word));
        if trapped {
            break;
        }
    }
    words.join(" ")
}

fn read(name: &str, fields: &[(u64, u32)], calls: usize) {
    let bytes = packed(fields);
    say(name, &hex(&bytes), &steps(bytes, calls));
}

// The bytes of a whole series, by a writer that was asked for one byte of room.
fn series(start: u64, points: &[(u64, u64)]) -> Option<Vec<u8>> {
    caught(|| {
        let mut encoder = StdEncoder::new(start, BufferedWriter::with_capacity(1));
        points.iter().for_each(|(time, bits)| encoder.encode(DataPoint::new(*time, f64::from_bits(*bits))));
        encoder.close().into_vec()
    })
}

// The fields of these widths from a bit on: short ones in digits, the others in hex.
fn fields_at(bytes: &[u8], from: usize, widths: &[u32]) -> String {
    let mut r = BufferedReader::new(bytes.to_vec().into_boxed_slice());
    (0..from).for_each(|_| drop(r.read_bit()));
    let word = |w: &u32| {
        let number = r.read_bits(*w).unwrap();
        if *w > 16 { format!("0x{:x}", number) } else { format!("{:0width$b}", number, width = *w as usize) }
    };
    widths.iter().map(word).collect::<Vec<_>>().join(" ")
}

// Points offered to an encoder: how the fields of these widths from a bit on were written, and which points the crate's own decoder reads.
fn offer(name: &str, start: u64, points: &[(u64, u64)], from: usize, widths: &[u32]) {
    let offered: Vec<String> = points.iter().map(|(time, bits)| point(*time, *bits)).collect();
    let answers = series(start, points).map(|bytes| {
        let written = fields_at(&bytes, from, widths);
        format!("{}; back {}", written, steps(bytes, points.len() + 1))
    });
    say(name, &format!("start {}, {}", start, offered.join(" ")), &or_trap(answers));
}

// Refused 1 to 5 here. Behind start and first point, a second one begins at bit 143.
fn offers() {
    let length = series(0, &[(10, 0)]).map(|bytes| format!("{} bytes", bytes.len()));
    say("no-room", "capacity 1, start 0, 10,0", &or_trap(length));
    offer("time-falls-first", 1, &[(0, 0)], 65, &[14]);
    offer("time-falls", 0, &[(1, 0), (0, 0)], 143, &[2, 7]);
    offer("first-delta", 0, &[(16384, 0), (32768, 0)], 65, &[14]);
    offer("dod-2-32", 0, &[(0, 0), (1 << 32, 0)], 143, &[1]);
    offer("dod-above", 0, &[(0, 0), ((1 << 31) + 1, 0)], 143, &[4, 32]);
    offer("dod-below", 0, &[(0, 0), (1 << 31, 0), (1 << 31, 0)], 180, &[4, 32]);
    let mut w = BufferedWriter::new();
    (0..TOO_MANY).for_each(|_| w.write_byte(0));
    let bytes = w.close().into_vec();
    let written = bytes.len();
    say("too-long", &format!("00*{} written, then read", TOO_MANY), &format!("{} bytes; {}", written, steps(bytes, 1)));
}

// Refused 9 here. Each stream has the point 0,0 and then a window whose leading zeros and digits sum above 64: by one, or by the most.
fn windows() {
    let first = [(0, 64), (0, 1), (0, 14), (0, 64)];
    let bad = |zeros: u64, digits: &[(u64, u32)]| [&first[..], &[(0, 1), (0b11, 2), (zeros, 6), (63, 6)][..], digits].concat();
    read("bad-window", &bad(1, &[(0b11, 64), MARKER]), 3);
    read("bad-window-most", &bad(63, &[(0b11, 64), MARKER]), 3);
    read("bad-window-kept", &bad(1, &[(1, 64), (0, 1), (0b10, 2), (1, 64), MARKER]), 4);
    read("bad-window-torn", &bad(1, &[]), 2);
}

// Refused 10 and 11 here; the streams that end early lack the value that the refusal does not wait for.
fn times() {
    let minus_one = (0b10_1111111, 9);
    read("read-time-falls", &[(2, 64), (0, 1), (0, 14), (0, 64), minus_one, (0, 1), (0, 1), (0, 1), MARKER], 4);
    read("read-time-falls-torn", &[(0, 64), (0, 1), (0, 14), (0, 64), minus_one], 2);
    read("read-time-passes-first", &[(LAST, 64), (0, 1), (1, 14), (0, 64), MARKER], 2);
    read("read-time-passes-0", &[(LAST - 1, 64), (0, 1), (1, 14), (0, 64), (0, 1), (0, 1), MARKER], 3);
    read("read-time-passes", &[(LAST, 64), (0, 1), (0, 14), (0, 64), (0b10_0000001, 9), (0, 1), MARKER], 3);
    read("read-time-passes-torn", &[(LAST, 64), (0, 1), (1, 14)], 1);
}

// Asked again after an answer that is no point: the first two go on, the others do not.
fn afterwards() {
    read("after-no-start", &[], 2);
    read("after-bad-end", &[(0, 64), (1 << 35, 36)], 4);
    read("alike-after-cut-short", &[(0, 64)], 3);
    read("alike-after-end", &[(0, 64), MARKER, (0, 64)], 3);
}

// A reader of one byte that failed is asked for the byte.
fn readers() {
    let tell = |answer: Result<u64, _>| answer.map(|bits| format!("{:x}", bits)).unwrap_or_else(|_| "EOF".to_string());
    let mut r = BufferedReader::new(Box::new([0xa5]));
    let failed = tell(r.read_bits(9));
    say("failed-read", "a5, read 9 bits, read 8", &format!("{} {}", failed, tell(r.read_bits(8))));
    let mut p = BufferedReader::new(Box::new([0xa5]));
    let peeked = tell(p.peak_bits(9));
    say("failed-peek", "a5, peek 9 bits, read 8", &format!("{} {}", peeked, tell(p.read_bits(8))));
}

// The derived default writer, and what comes out of it.
fn writers() {
    let wrote = |write: fn(&mut BufferedWriter)| {
        or_trap(caught(|| {
            let mut w = BufferedWriter::default();
            write(&mut w);
            hex(&w.close())
        }))
    };
    say("default-zero", "a default writer, bit 0", &wrote(|w| w.write_bit(Bit::Zero)));
    say("default-one", "a default writer, bit 1", &wrote(|w| w.write_bit(Bit::One)));
    say("default-lost", "a default writer, eight bits 0, byte a5", &wrote(|w| {
        (0..8).for_each(|_| w.write_bit(Bit::Zero));
        w.write_byte(0xa5)
    }));
    let opened = caught(|| hex(&StdEncoder::new(0, BufferedWriter::default()).close()));
    say("default-encoder", "an encoder on a default writer, start 0", &or_trap(opened));
}

// Points, with floats: NaNs of other payloads and signs, the two zeros, other times.
fn points() {
    let nans = [(0, 0x7ff0_0000_0000_0001), (0, 0xfff8_0000_0000_0000)];
    let back = series(0, &nans).map(|bytes| steps(bytes, 3));
    say("nan-bits", &format!("start 0, {}", nans.iter().map(|p| point(p.0, p.1)).collect::<Vec<_>>().join(" ")), &or_trap(back));
    let of = |(time, bits)| DataPoint::new(time, f64::from_bits(bits));
    let (zero, minus, one) = (of((0, 0)), of((0, 1 << 63)), of((0, 1)));
    let later = of((1, 0));
    let same = [of(nans[0]) == of(nans[1]), zero == minus, of(nans[0]) == zero, zero == of(nans[0]), zero == later];
    say("alike-equal", "the two NaNs; 0.0 and -0.0; a NaN and 0.0; 0.0 and a NaN; 0.0 at times 0 and 1", &same.map(|b| b.to_string()).join(" "));
    let order = format!("{:?} {} {:?} {:?}", zero.cmp(&one), zero == one, one.cmp(&later), later.cmp(&of(nans[0])));
    say("alike-order", "0,0 to 0,1, and whether equal; 0,1 to 1,0; 1,0 to a NaN at 0", &order);
}

// No difference, where one might look for it: a window reused before any was opened; a dod and a xor of 0 written out; the sizes.
fn alike() {
    read("alike-reuse-at-once", &[(0, 64), (0, 1), (0, 14), (0, 64), (0, 1), (0b10, 2), (1, 64), MARKER], 3);
    read("alike-loose-forms", &[(0, 64), (0, 1), (0, 14), (0, 64), (0b10, 2), (0, 7), (0b11, 2), (0, 12), (0, 1), MARKER], 3);
    say("alike-longest", "2 and 9 points, each with its longest code", &format!("{} {} bytes", longest(2), longest(9)));
}

// How many bytes: times in the last row, windows of 63 digits that never fit the next xor, and at last one of 64.
fn longest(count: u64) -> usize {
    let (mut time, mut bits) = (0, 0);
    let mut list = vec![(time, bits)];
    for i in 1..count {
        time += if i % 2 == 1 { 2049 } else { 0 };
        bits ^= if i + 1 == count { 1 << 63 | 1 } else if i % 2 == 1 { 1 << 62 | 1 } else { 1 << 63 | 2 };
        list.push((time, bits));
    }
    series(0, &list).unwrap().len()
}

fn main() {
    set_hook(Box::new(|_| {})); // what a panic says is the compiler's matter
    offers();
    windows();
    times();
    afterwards();
    readers();
    writers();
    points();
    alike();
}
