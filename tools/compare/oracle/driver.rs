//! Reads a driver script on standard input and answers each call by the crate's files. docs/DRIVER.md has the format.
//!
//! Which answers come from where:
//!
//! - From the crate's text: all sizes and offsets, every byte of the blob, slot, length, check and bytes of a page read,
//!   which blob calls are made, in which order and at which offset, refusal 6 (`Error::OffsetOverflow`) and refusal 9
//!   (`Error::InvalidChecksum`).
//! - From the stand-in blob, handed on by the crate: refusal 7 (a write above the ceiling), refusal 8 (a call that failed,
//!   with the offset that the crate gave it) and refusal 10 (a read past the end).
//! - From this file, since the crate has no such test: refusal 1 (the crate's page size is not 0 by its type), refusal 2
//!   (its capacity has no limit) and refusal 5 (it takes the caller's word for the size), in this order; and who holds the
//!   writer: an accepted opening and each refusal by the state, but of a page read, end the writer before, as do `blob`
//!   and `restart`. `none` where there is no writer, or no recovering one for a truncation or a hand-over.
//! - Refusals 3 and 4 are never given: the crate takes no buffers, and the driver gives long enough ones.
//!
//! A panic of the crate is answered by `panic` and ends the writer.

use crate::Error;
use crate::blob::{Kind, Memory};
use crate::buffer::paged::{CacheRef, Recovery, Writer};
use commonware_cryptography::{choose_sum, crc32c};
use std::future::Future;
use std::io::{BufRead, BufWriter, Write as _};
use std::num::NonZeroU16;
use std::panic::{AssertUnwindSafe, catch_unwind};
use std::pin::pin;
use std::task::{Context, Poll, Waker};

const LARGEST_WISH: u64 = 1_048_576;

/// The blob's calls never wait, so neither do the crate's.
fn now<F: Future>(future: F) -> F::Output {
    match pin!(future).poll(&mut Context::from_waker(Waker::noop())) {
        Poll::Ready(output) => output,
        Poll::Pending => panic!("a call waits"),
    }
}

enum Hand {
    Nobody,
    Recovering(Recovery<Memory>),
    Appending(Writer<Memory>),
}

struct Session {
    kind: Kind,
    ceiling: u64,
    blob: Memory,
    hand: Hand,
}

fn refusal(error: Error) -> String {
    match error {
        Error::OffsetOverflow => "refused 6".into(),
        Error::AboveCeiling => "refused 7".into(),
        Error::Call { call, offset } => format!("refused 8 {call} {offset}"),
        Error::InvalidChecksum => "refused 9".into(),
        Error::BlobInsufficientLength => "refused 10".into(),
    }
}

impl Session {
    fn take(&mut self) -> Hand {
        std::mem::replace(&mut self.hand, Hand::Nobody)
    }

    fn open(&mut self, page_size: u16, wish: u64, told: Option<u64>) -> String {
        let told = told.unwrap_or(self.blob.size());
        let Some(page_size) = NonZeroU16::new(page_size) else {
            return "refused 1".into();
        };
        if wish > LARGEST_WISH {
            return "refused 2".into();
        }
        if told != self.blob.size() {
            return "refused 5".into();
        }
        self.take();
        let cache = CacheRef::new(page_size);
        match now(Recovery::open(
            self.blob.clone(),
            told,
            wish as usize,
            cache,
        )) {
            Ok(writer) => self.recovering(writer),
            Err(error) => refusal(error),
        }
    }

    fn recovering(&mut self, writer: Recovery<Memory>) -> String {
        let size = writer.size();
        self.hand = Hand::Recovering(writer);
        format!("ok size {size}")
    }

    fn appending(&mut self, writer: Writer<Memory>) -> String {
        let size = writer.size();
        self.hand = Hand::Appending(writer);
        format!("ok size {size}")
    }

    fn append(&mut self, bytes: &[u8]) -> String {
        let (offset, rest) = match self.take() {
            Hand::Nobody => return "none".into(),
            Hand::Recovering(writer) => match now(writer.append(bytes)) {
                Ok((writer, offset)) => (offset, self.recovering(writer)),
                Err(error) => return refusal(error),
            },
            Hand::Appending(writer) => match now(writer.append(bytes)) {
                Ok((writer, offset)) => (offset, self.appending(writer)),
                Err(error) => return refusal(error),
            },
        };
        rest.replace("ok", &format!("ok offset {offset}"))
    }

    fn sync(&mut self) -> String {
        match self.take() {
            Hand::Nobody => "none".into(),
            Hand::Recovering(writer) => match now(writer.sync()) {
                Ok(writer) => self.recovering(writer),
                Err(error) => refusal(error),
            },
            Hand::Appending(writer) => match now(writer.sync()) {
                Ok(writer) => self.appending(writer),
                Err(error) => refusal(error),
            },
        }
    }

    fn truncate(&mut self, size: u64) -> String {
        match self.take() {
            Hand::Recovering(writer) => match now(writer.truncate(size)) {
                Ok(writer) => self.recovering(writer),
                Err(error) => refusal(error),
            },
            other => {
                self.hand = other;
                "none".into()
            }
        }
    }

    fn handover(&mut self) -> String {
        match self.take() {
            Hand::Recovering(writer) => self.appending(writer.into()),
            other => {
                self.hand = other;
                "none".into()
            }
        }
    }

    fn page(&mut self, page_size: u16, page: u64) -> String {
        let Some(page_size) = NonZeroU16::new(page_size) else {
            return "refused 1".into();
        };
        match now(CacheRef::new(page_size).read_page(&self.blob, page)) {
            Ok(read) => format!(
                "ok slot {} len {} check {} bytes {}",
                read.slot,
                read.len,
                read.check,
                to_hex(&read.bytes)
            ),
            Err(error) => refusal(error),
        }
    }

    fn call(&mut self, words: &[&str]) -> String {
        match words {
            ["open", p, wish, told] => {
                let told = (*told != "=").then(|| number(told));
                self.open(page_size(p), number(wish), told)
            }
            ["append", bytes] => self.append(&from_hex(bytes)),
            ["sync"] => self.sync(),
            ["truncate", size] => self.truncate(number(size)),
            ["handover"] => self.handover(),
            ["page", p, page] => self.page(page_size(p), number(page)),
            ["restart"] => {
                self.take();
                self.blob.restart();
                "ok".into()
            }
            _ => panic!("no such command: {}", words.join(" ")),
        }
    }
}

fn number(word: &str) -> u64 {
    word.parse().expect("a number")
}

fn page_size(word: &str) -> u16 {
    word.parse().expect("a page size")
}

fn from_hex(word: &str) -> Vec<u8> {
    if word == "-" {
        return Vec::new();
    }
    let digit = |d: u8| (d as char).to_digit(16).expect("a hex digit") as u8;
    assert!(word.len() % 2 == 0, "two digits for each byte");
    word.as_bytes()
        .chunks(2)
        .map(|pair| digit(pair[0]) << 4 | digit(pair[1]))
        .collect()
}

fn to_hex(bytes: &[u8]) -> String {
    if bytes.is_empty() {
        return "-".into();
    }
    bytes.iter().map(|byte| format!("{byte:02x}")).collect()
}

fn new_session(kind: Kind, ceiling: u64) -> Session {
    Session {
        blob: Memory::new(kind.clone(), ceiling, &[]),
        kind,
        ceiling,
        hand: Hand::Nobody,
    }
}

pub fn run() {
    std::panic::set_hook(Box::new(|_| {}));
    let mut out = BufWriter::new(std::io::stdout().lock());
    let mut session: Option<Session> = None;
    let mut calls = 0u64;
    for line in std::io::stdin().lock().lines() {
        let line = line.expect("text");
        let words: Vec<&str> = line.split_whitespace().collect();
        match words.as_slice() {
            [] => continue,
            [first, ..] if first.starts_with('#') => continue,
            ["check", check] => choose_sum(*check == "sum"),
            ["blob", "through", ceiling] => {
                session = Some(new_session(Kind::Through, number(ceiling)));
            }
            ["blob", "later", ceiling, cut, pattern] => {
                let cut = (*cut != "-").then(|| number(cut));
                let pattern = from_hex(pattern);
                session = Some(new_session(Kind::Later { cut, pattern }, number(ceiling)));
            }
            ["bytes", bytes] => {
                let session = session.as_mut().expect("a blob");
                let bytes = from_hex(bytes);
                session.blob = Memory::new(session.kind.clone(), session.ceiling, &bytes);
            }
            words => {
                let session = session.as_mut().expect("a blob");
                calls += 1;
                let answer = catch_unwind(AssertUnwindSafe(|| session.call(words)))
                    .unwrap_or_else(|_| "panic".into());
                let shown = session.blob.shown();
                let crc = crc32c(&shown);
                let len = shown.len();
                writeln!(out, "{calls} {} {answer} | {len} {crc:08x}", words[0]).expect("output");
            }
        }
    }
    out.flush().expect("output");
}
