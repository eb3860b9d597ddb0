//! Tells what the lexer makes of the sources on standard input, one behind the other.
//!
//! Each has a line with its length in bytes. Its answer is a line with a letter for each of its bytes: `w` in a reserved word,
//! `n` in a name, `d` in a number, `s` in a symbol, `.` elsewhere. Where the lexer refuses it, the line is `!`.
#![tactic(auto)]

use lexer::{Kind, Token, lex};
use std::alloc::{AllocError, Global};
use std::io;
use std::io::Read;

/// The number at the front, and what stands behind it and the byte that ends it.
fn number_of(bytes: &[u8]) -> (usize, &[u8]) {
    let mut number = 0_usize;
    for (index, byte) in bytes.iter().enumerate() {
        if !byte.is_ascii_digit() {
            return (number, bytes.get(index.saturating_add(1)..).unwrap_or(b""));
        }
        number = number
            .saturating_mul(10)
            .saturating_add(usize::from(byte.saturating_sub(b'0')));
    }
    (number, b"")
}

/// The letter of a token.
fn letter_of(token: &Token) -> u8 {
    let is_word = token
        .text
        .text()
        .first()
        .is_some_and(|first| first.is_ascii_alphabetic());
    match token.kind {
        Kind::Name => b'n',
        Kind::Number => b'd',
        _ if is_word => b'w',
        _ => b's',
    }
}

/// A letter for each byte of the source.
fn letters(alloc: Global, source: &[u8]) -> Result<Vec<u8>, AllocError> {
    let Ok(tokens) = lex(alloc, source) else {
        return Vec::from_slice(alloc, b"!");
    };
    let mut letters = Vec::with_capacity(alloc, source.len())?;
    letters.resize(source.len(), b'.')?;
    for token in &tokens {
        let (start, stop) = (token.span.start as usize, token.span.stop as usize);
        for index in start..stop {
            if let Some(letter) = letters.get_mut(index) {
                *letter = letter_of(token);
            }
        }
    }
    Ok(letters)
}

fn main(rt: HostRuntime) -> io::Result<()> {
    let mut bytes = Vec::new(rt.alloc());
    let mut stdin = rt.stdin();
    stdin.read_to_end(&mut bytes)?;
    let mut rest = bytes.as_slice();
    for _ in 0..100_000 {
        if rest.is_empty() {
            return Ok(());
        }
        let (length, behind) = number_of(rest);
        let source = behind.get(..length).unwrap_or(behind);
        rest = behind.get(length..).unwrap_or(b"");
        match letters(rt.alloc(), source) {
            Ok(letters) => {
                let text = String::from_utf8(letters).unwrap_or_else(|_| String::new(rt.alloc()));
                print!(rt; "{text}\n")?;
            }
            Err(_) => print!(rt; "memory\n")?,
        }
    }
    Ok(())
}
