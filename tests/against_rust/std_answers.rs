//! The questions of docs/ASK.md, answered by Rust's standard library: every value is what the function of that name gives, and `refused` is its None, or that it panics.
//! What is written here reads questions and writes answers, and computes nothing else. Built by compare.py (`rustc -O std_answers.rs`); needs Rust 1.90 or later.
//!
//! With `--cfg wrong` it is the answerer that compare.py must find out: its argument says what is wrong with it.

use std::cmp::Ordering;
use std::io::{Read, Write};
use std::panic::{catch_unwind, set_hook, AssertUnwindSafe};
use std::str::{from_utf8, FromStr};

const LONGEST_LINE: usize = 65_536;
const _: () = assert!(usize::BITS == 64);

enum NoAnswer {
    Unknown,
    Malformed,
}

type Answered = Result<(), NoAnswer>;

// ---- what arguments are read as

trait Argument: Sized {
    fn read(word: &[u8]) -> Option<Self>;
}

fn number<N: FromStr>(word: &[u8]) -> Option<N> {
    if word.starts_with(b"+") {
        return None;
    }
    from_utf8(word).ok()?.parse().ok()
}

fn hex_digit(digit: u8) -> Option<u8> {
    match digit {
        b'0'..=b'9' => Some(digit - b'0'),
        b'a'..=b'f' => Some(digit - b'a' + 10),
        _ => None,
    }
}

impl Argument for Vec<u8> {
    fn read(word: &[u8]) -> Option<Self> {
        if word == b"-" {
            return Some(Vec::new());
        }
        if word.is_empty() || word.len() % 2 != 0 {
            return None;
        }
        word.chunks(2).map(|pair| Some(hex_digit(pair[0])? * 16 + hex_digit(pair[1])?)).collect()
    }
}

// ---- what answers are written as

trait Answer {
    fn write(&self, out: &mut Vec<u8>);
}

macro_rules! displayed {
    ($($number:ty)*) => {$(
        impl Argument for $number {
            fn read(word: &[u8]) -> Option<Self> {
                number(word)
            }
        }
        impl Answer for $number {
            fn write(&self, out: &mut Vec<u8>) {
                write!(out, "{}", self).unwrap();
            }
        }
    )*};
}

displayed!(u8 u16 u32 u64 usize i8 i16 i32 i64 isize);

impl Answer for bool {
    fn write(&self, out: &mut Vec<u8>) {
        write!(out, "{}", self).unwrap();
    }
}

impl Answer for Ordering {
    fn write(&self, out: &mut Vec<u8>) {
        out.extend_from_slice(match self {
            Ordering::Less => b"less",
            Ordering::Equal => b"equal",
            Ordering::Greater => b"greater",
        });
    }
}

impl Answer for [u8] {
    fn write(&self, out: &mut Vec<u8>) {
        if self.is_empty() {
            out.push(b'-');
        }
        for byte in self {
            out.push(b"0123456789abcdef"[(byte >> 4) as usize]);
            out.push(b"0123456789abcdef"[(byte & 15) as usize]);
        }
    }
}

impl Answer for Vec<u8> {
    fn write(&self, out: &mut Vec<u8>) {
        self[..].write(out);
    }
}

impl<const N: usize> Answer for [u8; N] {
    fn write(&self, out: &mut Vec<u8>) {
        self[..].write(out);
    }
}

impl<A: Answer> Answer for Option<A> {
    fn write(&self, out: &mut Vec<u8>) {
        match self {
            Some(value) => value.write(out),
            None => out.extend_from_slice(b"refused"),
        }
    }
}

impl<A: Answer, B: Answer> Answer for (A, B) {
    fn write(&self, out: &mut Vec<u8>) {
        self.0.write(out);
        out.push(b' ');
        self.1.write(out);
    }
}

impl<A: Answer, B: Answer, C: Answer> Answer for (A, B, C) {
    fn write(&self, out: &mut Vec<u8>) {
        self.0.write(out);
        out.push(b' ');
        (&self.1, &self.2).write(out);
    }
}

impl<A: Answer> Answer for &A {
    fn write(&self, out: &mut Vec<u8>) {
        (**self).write(out);
    }
}

// ---- a question's arguments, given to a function of the standard library

struct Question<'a> {
    words: Vec<&'a [u8]>,
    out: &'a mut Vec<u8>,
}

macro_rules! given {
    ($name:ident: $($argument:ident $kind:ident),*) => {
        fn $name<$($kind: Argument,)* R: Answer>(self, function: impl FnOnce($($kind),*) -> R) -> Answered {
            let [$($argument),*] = self.words[..] else {
                return Err(NoAnswer::Malformed);
            };
            $(let $argument = $kind::read($argument).ok_or(NoAnswer::Malformed)?;)*
            function($($argument),*).write(self.out);
            Ok(())
        }
    };
}

impl Question<'_> {
    given!(one: a A);
    given!(two: a A, b B);
    given!(three: a A, b B, c C);
    given!(four: a A, b B, c C, d D);
    given!(five: a A, b B, c C, d D, e E);
}

/// What Rust refuses by panicking.
fn unless_it_panics<R>(function: impl FnOnce() -> R) -> Option<R> {
    catch_unwind(AssertUnwindSafe(function)).ok()
}

// ---- integers

#[path = "of_integers.rs"]
mod of_integers;

/// A number's text in some bytes at a place, and its length.
fn written(mut b: Bytes, at: usize, text: String) -> Option<(Bytes, usize)> {
    b.get_mut(at..at.checked_add(text.len())?)?.copy_from_slice(text.as_bytes());
    Some((b, text.len()))
}

// ---- slices of bytes

type Bytes = Vec<u8>;

/// Where a part that Rust gave stands in the whole.
fn place(whole: &[u8], part: &[u8]) -> (usize, usize) {
    let from = part.as_ptr() as usize - whole.as_ptr() as usize;
    (from, from + part.len())
}

fn places(whole: &[u8], left: &[u8], right: &[u8]) -> (usize, usize, usize) {
    assert_eq!(place(whole, left).1, place(whole, right).0);
    (place(whole, left).0, place(whole, right).0, place(whole, right).1)
}

fn bytes(operation: &str, question: Question) -> Answered {
    match operation {
        "len" => question.three(|b: Bytes, f, t| Some(b.get(f..t)?.len())),
        "is_empty" => question.three(|b: Bytes, f, t| Some(b.get(f..t)?.is_empty())),
        "get" => question.four(|b: Bytes, f, t, i: usize| b.get(f..t)?.get(i).copied()),
        "first" => question.three(|b: Bytes, f, t| b.get(f..t)?.first().copied()),
        "last" => question.three(|b: Bytes, f, t| b.get(f..t)?.last().copied()),
        "sub_range" => question.five(|b: Bytes, f, t, a: usize, e: usize| Some(place(&b, b.get(f..t)?.get(a..e)?))),
        "split_at" => question.four(|b: Bytes, f, t, m| {
            let (left, right) = b.get(f..t)?.split_at_checked(m)?;
            Some(places(&b, left, right))
        }),
        "split_first" => question.three(|b: Bytes, f, t| {
            let (first, rest) = b.get(f..t)?.split_first()?;
            let (from, to) = place(&b, rest);
            Some((*first, from, to))
        }),
        "starts_with" => question.four(|b: Bytes, f, t, other: Bytes| Some(b.get(f..t)?.starts_with(&other))),
        "ends_with" => question.four(|b: Bytes, f, t, other: Bytes| Some(b.get(f..t)?.ends_with(&other))),
        "equal" => question.four(|b: Bytes, f, t, other: Bytes| Some(b.get(f..t)? == &other[..])),
        "contains" => question.four(|b: Bytes, f, t, v: u8| Some(b.get(f..t)?.contains(&v))),
        "set" => question.five(|mut b: Bytes, f, t, i: usize, v: u8| {
            *b.get_mut(f..t)?.get_mut(i)? = v;
            Some(b)
        }),
        "reverse" => question.three(|mut b: Bytes, f, t| {
            b.get_mut(f..t)?.reverse();
            Some(b)
        }),
        "copy_from" => question.four(|mut b: Bytes, f, t, other: Bytes| {
            let part = b.get_mut(f..t)?;
            unless_it_panics(|| part.copy_from_slice(&other))?;
            Some(b)
        }),
        "copy_within" => question.four(|mut b: Bytes, f: usize, t: usize, at| {
            unless_it_panics(|| b.copy_within(f..t, at))?;
            Some(b)
        }),
        "next_piece" => question.four(|b: Bytes, f, t, n| {
            let part = b.get(f..t)?;
            Some(place(&b, unless_it_panics(|| part.chunks(n))?.next()?))
        }),
        _ => Err(NoAnswer::Unknown),
    }
}

// ---- text

fn text(operation: &str, question: Question) -> Answered {
    match operation {
        "valid" => question.one(|b: Bytes| from_utf8(&b).is_ok()),
        "valid_up_to" => question.one(|b: Bytes| from_utf8(&b).map_or_else(|wrong| wrong.valid_up_to(), str::len)),
        "scalar_len" => question.one(|c| Some(char::from_u32(c)?.len_utf8())),
        "write" => question.three(|mut b: Bytes, at: usize, c| {
            let c = char::from_u32(c)?;
            let place = b.get_mut(at..)?;
            unless_it_panics(|| {
                c.encode_utf8(place);
            })?;
            Some(b)
        }),
        "read_first" => question.three(|b: Bytes, f, t| {
            let scalar = b.get(f..t)?.utf8_chunks().next()?.valid().chars().next()?;
            Some((scalar as u32, scalar.len_utf8()))
        }),
        // The shortest valid text at the end is one scalar.
        "read_last" => question.three(|b: Bytes, f, t| {
            let part = b.get(f..t)?;
            let scalar = (1..=4).find_map(|length| from_utf8(part.rchunks(length).next()?).ok()?.chars().next())?;
            Some((scalar as u32, scalar.len_utf8()))
        }),
        "count" => question.one(|b: Bytes| Some(from_utf8(&b).ok()?.chars().count())),
        "is_boundary" => question.two(|b: Bytes, i| Some(from_utf8(&b).ok()?.is_char_boundary(i))),
        "split_at" => question.two(|b: Bytes, i| {
            let (left, right) = from_utf8(&b).ok()?.split_at_checked(i)?;
            Some(places(&b, left.as_bytes(), right.as_bytes()))
        }),
        "is_ascii" => question.one(|b: Bytes| b.is_ascii()),
        "is_white_space" => question.one(|c| char::from_u32(c).is_some_and(char::is_whitespace)),
        _ => Err(NoAnswer::Unknown),
    }
}

// ---- lines

fn named(name: &[u8], question: Question) -> Answered {
    let (family, operation) = from_utf8(name).ok().and_then(|name| name.split_once('.')).ok_or(NoAnswer::Unknown)?;
    let answered = match family {
        "u8" => of_integers::u8,
        "u16" => of_integers::u16,
        "u32" => of_integers::u32,
        "u64" => of_integers::u64,
        "usize" => of_integers::usize,
        "i8" => of_integers::i8,
        "i16" => of_integers::i16,
        "i32" => of_integers::i32,
        "i64" => of_integers::i64,
        "isize" => of_integers::isize,
        "bytes" => bytes,
        "text" => text,
        _ => return Err(NoAnswer::Unknown),
    };
    answered(operation, question)
}

fn answered(line: &[u8], out: &mut Vec<u8>) -> Answered {
    if line.is_empty() || line.len() > LONGEST_LINE {
        return Err(NoAnswer::Malformed);
    }
    let mut words = line.split(|byte| *byte == b' ');
    let name = words.next().ok_or(NoAnswer::Malformed)?;
    #[cfg(wrong)]
    let start = out.len();
    named(name, Question { words: words.collect(), out: &mut *out })?;
    // The wrong answerer says that the remainder of the least number by -1 is 0.
    #[cfg(wrong)]
    if wrong("answer") && name.ends_with(b".checked_rem") && line.ends_with(b" -1") && &out[start..] == b"refused" {
        out.truncate(start);
        out.push(b'0');
    }
    Ok(())
}

#[cfg(wrong)]
fn wrong(how: &str) -> bool {
    std::env::args().nth(1).as_deref() == Some(how)
}

fn main() {
    set_hook(Box::new(|_| {}));
    let mut input = Vec::new();
    std::io::stdin().read_to_end(&mut input).unwrap();
    #[allow(unused_mut)]
    let mut lines = input.strip_suffix(b"\n").unwrap_or(&input).split(|byte| *byte == b'\n');
    let mut out = Vec::with_capacity(input.len());
    if input.is_empty() {
        return;
    }
    #[cfg(wrong)]
    if wrong("short") {
        lines.next_back();
    }
    for line in lines {
        match answered(line, &mut out) {
            Ok(()) => {}
            Err(NoAnswer::Unknown) => out.extend_from_slice(b"unknown"),
            Err(NoAnswer::Malformed) => out.extend_from_slice(b"malformed"),
        }
        out.push(b'\n');
    }
    std::io::stdout().write_all(&out).unwrap();
    #[cfg(wrong)]
    if wrong("status") {
        std::process::exit(1);
    }
}
