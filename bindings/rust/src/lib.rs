//! Scanners made of lex specifications, and run. What the library does is proved (docs/PROVED.md); this crate only hands it slices.
//!
//! ```
//! use liblex::{generate, scan, Options};
//!
//! let table = generate(b"%%\n[0-9]+ printf(\"N\");\n", Options::default())?;
//! assert_eq!(scan(&table, b"a1 b22\n")?.output, b"aN bN\n");
//! # Ok::<(), liblex::LexError>(())
//! ```
#![deny(missing_docs)]

/// The examples of docs/C.md, as tests.
#[cfg(doctest)]
#[doc = include_str!("../../../docs/C.md")]
struct Page;

use std::error::Error;
use std::fmt;
use std::io::{self, Read};
use std::sync::{Mutex, PoisonError};

/// What is declared in include/lex.h.
mod ffi {
    #[repr(C)]
    #[derive(Clone, Copy, Default)]
    pub struct Token {
        pub start: usize,
        pub end: usize,
        pub rule: u32,
        pub condition: u32,
    }

    #[repr(C)]
    #[derive(Default)]
    pub struct Fault {
        pub line: u32,
        pub kind: u32,
        pub place: usize,
    }

    #[repr(C)]
    pub struct Tables {
        pub is_loaded: u8,
        pub place: *mut core::ffi::c_void,
    }

    #[repr(C)]
    pub struct Scan {
        pub is_open: u8,
        pub place: *mut core::ffi::c_void,
    }

    #[repr(C)]
    pub struct Stream {
        pub is_open: u8,
        pub place: *mut core::ffi::c_void,
    }

    #[repr(C)]
    #[derive(Default)]
    pub struct NextToken {
        pub start: u64,
        pub length: usize,
        pub rule: u32,
        pub condition: u32,
        pub line: u64,
        pub column: u64,
    }

    extern "C" {
        pub fn lex_version() -> u32;

        pub fn lex_generate(
            text: *const u8,
            text_len: usize,
            flags: u32,
            out: *mut u8,
            out_len: usize,
            count: *mut usize,
            fault: *mut Fault,
        ) -> i32;

        pub fn lex_tokens(
            file: *const u8,
            file_len: usize,
            input: *const u8,
            input_len: usize,
            tokens: *mut Token,
            tokens_len: usize,
            count: *mut usize,
            status: *mut u8,
        ) -> i32;

        pub fn lex_rule_lines(
            text: *const u8,
            text_len: usize,
            flags: u32,
            lines: *mut u32,
            lines_len: usize,
            count: *mut usize,
        ) -> i32;

        pub fn lex_load(tables: *mut Tables, file: *const u8, file_len: usize) -> i32;

        pub fn lex_share(tables: *mut Tables, other: *mut Tables) -> i32;

        pub fn lex_unload(tables: *mut Tables);

        pub fn lex_scan_loaded(
            tables: *mut Tables,
            input: *const u8,
            input_len: usize,
            out: *mut u8,
            out_len: usize,
            count: *mut usize,
            status: *mut u8,
        ) -> i32;

        pub fn lex_tokens_loaded(
            tables: *mut Tables,
            input: *const u8,
            input_len: usize,
            tokens: *mut Token,
            tokens_len: usize,
            count: *mut usize,
            status: *mut u8,
        ) -> i32;

        pub fn lex_rule_name(tables: *mut Tables, rule: u32, out: *mut u8, out_len: usize, count: *mut usize) -> i32;

        pub fn lex_open_loaded(scan: *mut Scan, tables: *mut Tables) -> i32;

        pub fn lex_open(scan: *mut Scan, file: *const u8, file_len: usize) -> i32;

        pub fn lex_feed(
            scan: *mut Scan,
            piece: *const u8,
            piece_len: usize,
            out: *mut u8,
            out_len: usize,
            count: *mut usize,
        ) -> i32;

        pub fn lex_finish(
            scan: *mut Scan,
            out: *mut u8,
            out_len: usize,
            count: *mut usize,
            status: *mut u8,
        ) -> i32;

        pub fn lex_close(scan: *mut Scan);

        pub fn lex_open_stream(stream: *mut Stream, file: *const u8, file_len: usize, flags: u32) -> i32;

        pub fn lex_open_stream_loaded(stream: *mut Stream, tables: *mut Tables, flags: u32) -> i32;

        pub fn lex_feed_stream(stream: *mut Stream, piece: *const u8, piece_len: usize) -> i32;

        pub fn lex_end_stream(stream: *mut Stream) -> i32;

        pub fn lex_next(stream: *mut Stream, token: *mut NextToken, status: *mut u8) -> i32;

        pub fn lex_text(stream: *mut Stream, out: *mut u8, out_len: usize, count: *mut usize) -> i32;

        pub fn lex_close_stream(stream: *mut Stream);

        pub fn lex_scan_table(
            file: *const u8,
            file_len: usize,
            input: *const u8,
            input_len: usize,
            out: *mut u8,
            out_len: usize,
            count: *mut usize,
            status: *mut u8,
        ) -> i32;
    }
}

const OK: i32 = 0;
const TOO_SMALL: i32 = 1;
const ENDED: i32 = 2;
const MORE: i32 = 4;
const REFUSED: i32 = 65;
const STACK: i32 = 70;
const OUT_OF_MEMORY: i32 = 71;

/// The flag of a stream that counts lines.
const LINES: u32 = 1;

/// The version of the library that is linked: 10,000 times its first number, 100 times its second, and its third.
pub fn version() -> u32 {
    // Safety: the call takes nothing and touches nothing.
    unsafe { ffi::lex_version() }
}

/// How a specification is read.
#[derive(Clone, Copy, Debug, Default, PartialEq, Eq)]
pub struct Options {
    /// Letters of patterns stand for both cases.
    pub fold: bool,
    /// An interval applies to the whole series to its left.
    pub posix: bool,
}

impl Options {
    fn flags(self) -> u32 {
        u32::from(self.fold) + 2 * u32::from(self.posix)
    }
}

/// Why no table file was made, or no scan.
#[derive(Clone, Debug, PartialEq, Eq)]
pub enum LexError {
    /// The text is no specification, or its automaton is too large.
    Specification {
        /// The line, from 1, or 0 for the whole file.
        line: u32,
        /// One of `enum lex_kind` of include/lex.h.
        kind: u32,
        /// The place in the rule's pattern, from 0.
        place: usize,
        /// What the program lex writes of it.
        message: String,
    },
    /// The bytes are no table file.
    Table,
    /// The stack of conditions was at fault, after these bytes were written.
    Stack(Vec<u8>),
    /// The stack of conditions was at fault, after these tokens.
    StackAfter(Vec<Token>),
    /// A request for memory was refused.
    OutOfMemory,
    /// The scan would read more than 2^40 bytes.
    TooManyReads,
}

impl fmt::Display for LexError {
    fn fmt(&self, f: &mut fmt::Formatter<'_>) -> fmt::Result {
        match self {
            LexError::Specification { message, .. } => f.write_str(message.trim_end()),
            LexError::Table => f.write_str("no table file"),
            LexError::Stack(_) | LexError::StackAfter(_) => f.write_str("condition stack"),
            LexError::OutOfMemory => f.write_str("out of memory"),
            LexError::TooManyReads => f.write_str("too many reads"),
        }
    }
}

impl Error for LexError {}

/// What a scan wrote, and the status that its rules ended with.
#[derive(Clone, Debug, PartialEq, Eq)]
pub struct Scanned {
    /// What the rules write.
    pub output: Vec<u8>,
    /// The status that they end with, 0 to 63.
    pub status: u8,
}

/// A match of a scan.
#[derive(Clone, Copy, Debug, PartialEq, Eq)]
pub struct Token {
    /// Where its text begins in the input, with what yymore kept before it.
    pub start: usize,
    /// Where its text ends, after trailing context and yyless.
    pub end: usize,
    /// Its rule, from 0 on in the order of the file, or none where the default rule takes a byte.
    pub rule: Option<u32>,
    /// The start condition in which it was made: 0 for INITIAL, then in the order of the file.
    pub condition: u32,
}

/// The tokens of an input, and the status that the rules ended with.
#[derive(Clone, Debug, PartialEq, Eq)]
pub struct Listed {
    /// The match of each turn of the scan, in order.
    pub tokens: Vec<Token>,
    /// The status that the rules end with, 0 to 63.
    pub status: u8,
}

/// What a call answered, with the items that it handed out.
struct Handed<T> {
    answer: i32,
    items: Vec<T>,
}

/// Calls with a buffer of `room` items, and once more with one that is large enough where it was too small.
fn with_buffer<T: Copy + Default>(room: usize, mut call: impl FnMut(&mut [T], &mut usize) -> i32) -> Handed<T> {
    let mut items = vec![T::default(); room.max(1)];
    let mut count = 0;
    let mut answer = call(&mut items, &mut count);
    if count > items.len() {
        items.resize(count, T::default());
        answer = call(&mut items, &mut count);
    }
    items.truncate(count);
    Handed { answer, items }
}

/// The table file of the specification that a text spells.
pub fn generate(text: &[u8], options: Options) -> Result<Vec<u8>, LexError> {
    let mut fault = ffi::Fault::default();
    let handed = with_buffer(1 << 14, |out, count| {
        // Safety: the slices and references do not overlap, and live through the call.
        unsafe {
            ffi::lex_generate(
                text.as_ptr(),
                text.len(),
                options.flags(),
                out.as_mut_ptr(),
                out.len(),
                count,
                &mut fault,
            )
        }
    });
    match handed.answer {
        OK => Ok(handed.items),
        REFUSED => Err(LexError::Specification {
            line: fault.line,
            kind: fault.kind,
            place: fault.place,
            message: String::from_utf8_lossy(&handed.items).into_owned(),
        }),
        _ => Err(LexError::OutOfMemory),
    }
}

/// What the rules of a table file write for a whole input.
pub fn scan(file: &[u8], input: &[u8]) -> Result<Scanned, LexError> {
    let mut status = 0;
    let handed = with_buffer(input.len(), |out, count| {
        // Safety: the slices and references do not overlap, and live through the call.
        unsafe {
            ffi::lex_scan_table(
                file.as_ptr(),
                file.len(),
                input.as_ptr(),
                input.len(),
                out.as_mut_ptr(),
                out.len(),
                count,
                &mut status,
            )
        }
    });
    scanned(handed, status)
}

/// What a scan of a whole input has come to.
fn scanned(handed: Handed<u8>, status: u8) -> Result<Scanned, LexError> {
    match handed.answer {
        OK | TOO_SMALL => Ok(Scanned {
            output: handed.items,
            status,
        }),
        REFUSED => Err(LexError::Table),
        STACK => Err(LexError::Stack(handed.items)),
        OUT_OF_MEMORY => Err(LexError::OutOfMemory),
        _ => Err(LexError::TooManyReads),
    }
}

impl From<&ffi::Token> for Token {
    fn from(token: &ffi::Token) -> Token {
        Token {
            start: token.start,
            end: token.end,
            rule: Some(token.rule).filter(|&rule| rule != u32::MAX),
            condition: token.condition,
        }
    }
}

/// The tokens of a whole input by a table file: the match of each turn of the scan, in order.
pub fn tokens(file: &[u8], input: &[u8]) -> Result<Listed, LexError> {
    let mut status = 0;
    let handed = with_buffer(input.len() / 4, |out, count| {
        // Safety: the slices and references do not overlap, and live through the call.
        unsafe {
            ffi::lex_tokens(
                file.as_ptr(),
                file.len(),
                input.as_ptr(),
                input.len(),
                out.as_mut_ptr(),
                out.len(),
                count,
                &mut status,
            )
        }
    });
    listed(handed, status)
}

/// What listing tokens has come to.
fn listed(handed: Handed<ffi::Token>, status: u8) -> Result<Listed, LexError> {
    let tokens = handed.items.iter().map(Token::from).collect();
    match handed.answer {
        OK | TOO_SMALL => Ok(Listed { tokens, status }),
        REFUSED => Err(LexError::Table),
        STACK => Err(LexError::StackAfter(tokens)),
        _ => Err(LexError::OutOfMemory),
    }
}

/// The line of each rule of the specification that a text spells, from 1. `generate` tells why a text is refused.
pub fn rule_lines(text: &[u8], options: Options) -> Result<Vec<u32>, LexError> {
    let handed = with_buffer(64, |out, count| {
        // Safety: the slices and references do not overlap, and live through the call.
        unsafe {
            ffi::lex_rule_lines(
                text.as_ptr(),
                text.len(),
                options.flags(),
                out.as_mut_ptr(),
                out.len(),
                count,
            )
        }
    });
    match handed.answer {
        OK | TOO_SMALL => Ok(handed.items),
        REFUSED => match generate(text, options) {
            Err(refusal) => Err(refusal),
            Ok(_) => Err(LexError::Table),
        },
        _ => Err(LexError::OutOfMemory),
    }
}

/// A share of a loaded table, for one call at a time.
struct Share {
    inner: ffi::Tables,
}

// Safety: what `inner.place` leads to is the share's alone, but for the table, which all that share it read only, and for the count of those,
// which is changed in atomic steps (`Arc` of the toolkit). Memory is taken by malloc, and free takes it in any thread. A share is no `Clone`,
// and each call takes it by `&mut`. This is an argument, and no theorem.
unsafe impl Send for Share {}

impl Share {
    /// One that holds no table.
    fn none() -> Share {
        Share {
            inner: ffi::Tables {
                is_loaded: 0,
                place: std::ptr::null_mut(),
            },
        }
    }
}

impl Drop for Share {
    fn drop(&mut self) {
        // Safety: the share is this one's alone.
        unsafe { ffi::lex_unload(&mut self.inner) }
    }
}

/// A table file that was read once. Any number of scans go by it, side by side, in any threads.
pub struct Tables {
    held: Mutex<Share>,
}

impl Tables {
    /// Reads a table file.
    pub fn load(file: &[u8]) -> Result<Tables, LexError> {
        let mut share = Share::none();
        // Safety: the slice and the share do not overlap, and live through the call.
        match unsafe { ffi::lex_load(&mut share.inner, file.as_ptr(), file.len()) } {
            OK => Ok(Tables { held: Mutex::new(share) }),
            REFUSED => Err(LexError::Table),
            _ => Err(LexError::OutOfMemory),
        }
    }

    /// A share for one call, so that calls in several threads do not wait for each other.
    fn share(&self) -> Result<Share, LexError> {
        let mut held = self.held.lock().unwrap_or_else(PoisonError::into_inner);
        let mut share = Share::none();
        // Safety: the two shares do not overlap, and live through the call.
        match unsafe { ffi::lex_share(&mut held.inner, &mut share.inner) } {
            OK => Ok(share),
            _ => Err(LexError::OutOfMemory),
        }
    }

    /// What the rules write for a whole input, as `scan` answers it.
    pub fn scan(&self, input: &[u8]) -> Result<Scanned, LexError> {
        let mut share = self.share()?;
        let mut status = 0;
        let handed = with_buffer(input.len(), |out, count| {
            // Safety: the slices and references do not overlap, and live through the call.
            unsafe {
                ffi::lex_scan_loaded(
                    &mut share.inner,
                    input.as_ptr(),
                    input.len(),
                    out.as_mut_ptr(),
                    out.len(),
                    count,
                    &mut status,
                )
            }
        });
        scanned(handed, status)
    }

    /// The tokens of a whole input, as `tokens` answers them.
    pub fn tokens(&self, input: &[u8]) -> Result<Listed, LexError> {
        let mut share = self.share()?;
        let mut status = 0;
        let handed = with_buffer(input.len() / 4, |out, count| {
            // Safety: the slices and references do not overlap, and live through the call.
            unsafe {
                ffi::lex_tokens_loaded(
                    &mut share.inner,
                    input.as_ptr(),
                    input.len(),
                    out.as_mut_ptr(),
                    out.len(),
                    count,
                    &mut status,
                )
            }
        });
        listed(handed, status)
    }

    /// Opens a stream of tokens, which keeps the rules as long as it needs them.
    pub fn stream(&self) -> Result<Stream, LexError> {
        self.stream_by(0)
    }

    /// Opens a stream of tokens that have lines and columns.
    pub fn stream_with_lines(&self) -> Result<Stream, LexError> {
        self.stream_by(LINES)
    }

    fn stream_by(&self, flags: u32) -> Result<Stream, LexError> {
        let mut share = self.share()?;
        let mut stream = Stream::closed();
        // Safety: the stream and the share do not overlap, and live through the call. The stream is closed.
        match unsafe { ffi::lex_open_stream_loaded(&mut stream.inner, &mut share.inner, flags) } {
            OK => Ok(stream),
            _ => Err(LexError::OutOfMemory),
        }
    }

    /// The name of a rule: the first line of the first text that it writes by puts, printf or fputs, where that is a name as in C. Rules
    /// of one name are one kind of token.
    pub fn rule_name(&self, rule: u32) -> Result<Option<String>, LexError> {
        let mut share = self.share()?;
        let handed = with_buffer(64, |out, count| {
            // Safety: the slices, the share and the count do not overlap, and live through the call.
            unsafe { ffi::lex_rule_name(&mut share.inner, rule, out.as_mut_ptr(), out.len(), count) }
        });
        match handed.answer {
            OK | TOO_SMALL => Ok(String::from_utf8(handed.items).ok().filter(|name| !name.is_empty())),
            _ => Err(LexError::OutOfMemory),
        }
    }

    /// The tokens of a source as they come, as `Tokens::open` has them by a file.
    pub fn read_tokens<R: Read>(&self, source: R) -> Result<Tokens<R>, LexError> {
        Ok(Tokens::over(self.stream()?, source))
    }

    /// The same with lines and columns.
    pub fn read_tokens_with_lines<R: Read>(&self, source: R) -> Result<Tokens<R>, LexError> {
        Ok(Tokens::over(self.stream_with_lines()?, source))
    }

    /// Begins a scan by pieces, which keeps the rules as long as it needs them.
    pub fn open(&self) -> Result<Scan, LexError> {
        let mut share = self.share()?;
        let mut scan = Scan::closed();
        // Safety: the scan and the share do not overlap, and live through the call. The scan is closed.
        match unsafe { ffi::lex_open_loaded(&mut scan.inner, &mut share.inner) } {
            OK => Ok(scan),
            _ => Err(LexError::OutOfMemory),
        }
    }
}

/// Where the first byte of a token stands.
#[derive(Clone, Copy, Debug, PartialEq, Eq)]
pub struct Place {
    /// The line, from 1: the newlines before it are counted.
    pub line: u64,
    /// The column, from 1: the bytes after the last of these are counted.
    pub column: u64,
}

/// A token that was asked for.
#[derive(Clone, Copy, Debug, PartialEq, Eq)]
pub struct NextToken {
    /// Where its text begins, in bytes from the beginning of the input, with what yymore kept before it.
    pub start: u64,
    /// How long its text is, up to trailing context or where yyless ends it.
    pub length: usize,
    /// Its rule, from 0 on in the order of the file, or none where the default rule takes a byte.
    pub rule: Option<u32>,
    /// The start condition in which it was made: 0 for INITIAL, then in the order of the file.
    pub condition: u32,
    /// Its line and its column, where the stream counts lines.
    pub place: Option<Place>,
}

/// What a stream answers that is asked for its next token.
#[derive(Clone, Copy, Debug, PartialEq, Eq)]
pub enum Next {
    /// The next token.
    Token(NextToken),
    /// The next token asks for more than was fed.
    More,
    /// There are no more tokens: the rules have ended with this status, 0 to 63.
    Ended(u8),
}

/// A scan by pieces that is asked for one token after another. What its rules write is written nowhere. It may be moved to another
/// thread.
pub struct Stream {
    inner: ffi::Stream,
}

// Safety: as for a `Scan`. The block that `inner.place` leads to is a `TokenScan` of crates/liblex_calls. This is an argument, and no
// theorem.
unsafe impl Send for Stream {}

impl Stream {
    /// One that is not open yet.
    fn closed() -> Stream {
        Stream {
            inner: ffi::Stream {
                is_open: 0,
                place: std::ptr::null_mut(),
            },
        }
    }

    /// Opens a stream by the rules of a table file.
    pub fn open(file: &[u8]) -> Result<Stream, LexError> {
        Stream::open_by(file, 0)
    }

    /// Opens a stream by the rules of a table file, whose tokens have lines and columns.
    pub fn with_lines(file: &[u8]) -> Result<Stream, LexError> {
        Stream::open_by(file, LINES)
    }

    fn open_by(file: &[u8], flags: u32) -> Result<Stream, LexError> {
        let mut stream = Stream::closed();
        // Safety: the slice and the stream do not overlap, and live through the call. The stream is closed.
        match unsafe { ffi::lex_open_stream(&mut stream.inner, file.as_ptr(), file.len(), flags) } {
            OK => Ok(stream),
            REFUSED => Err(LexError::Table),
            _ => Err(LexError::OutOfMemory),
        }
    }

    /// Feeds a piece more. Where it is refused, nothing of it was fed.
    pub fn feed(&mut self, piece: &[u8]) -> Result<Progress, LexError> {
        // Safety: the slice and the stream do not overlap, and live through the call.
        match unsafe { ffi::lex_feed_stream(&mut self.inner, piece.as_ptr(), piece.len()) } {
            OK => Ok(Progress::Going),
            ENDED => Ok(Progress::Ended),
            other => Err(stopped(other)),
        }
    }

    /// Tells that the input has ended.
    pub fn end(&mut self) {
        // Safety: the stream is this one's alone.
        unsafe { ffi::lex_end_stream(&mut self.inner) };
    }

    /// The next token, as soon as the bytes fed decide it.
    pub fn next_token(&mut self) -> Result<Next, LexError> {
        let mut token = ffi::NextToken::default();
        let mut status = 0;
        // Safety: the references do not overlap, and live through the call.
        match unsafe { ffi::lex_next(&mut self.inner, &mut token, &mut status) } {
            OK => Ok(Next::Token(NextToken {
                start: token.start,
                length: token.length,
                rule: Some(token.rule).filter(|&rule| rule != u32::MAX),
                condition: token.condition,
                place: Some(Place { line: token.line, column: token.column }).filter(|place| place.line > 0),
            })),
            MORE => Ok(Next::More),
            ENDED => Ok(Next::Ended(status)),
            other => Err(stopped(other)),
        }
    }

    /// The text of the token that was told last. It is empty after each other answer.
    pub fn text(&mut self) -> Vec<u8> {
        with_buffer(64, |out, count| {
            // Safety: the slices and references do not overlap, and live through the call.
            unsafe { ffi::lex_text(&mut self.inner, out.as_mut_ptr(), out.len(), count) }
        })
        .items
    }
}

impl Drop for Stream {
    fn drop(&mut self) {
        // Safety: the stream is this one's alone.
        unsafe { ffi::lex_close_stream(&mut self.inner) }
    }
}

/// A token with its text.
#[derive(Clone, Debug, PartialEq, Eq)]
pub struct Lexeme {
    /// Where its text begins, in bytes from the beginning of the input.
    pub start: u64,
    /// Its text.
    pub text: Vec<u8>,
    /// Its rule, from 0 on in the order of the file, or none where the default rule takes a byte.
    pub rule: Option<u32>,
    /// The start condition in which it was made.
    pub condition: u32,
    /// Its line and its column, where they are counted.
    pub place: Option<Place>,
}

impl Lexeme {
    /// The line of its first byte, from 1, where lines are counted.
    pub fn line(&self) -> Option<u64> {
        self.place.map(|place| place.line)
    }

    /// The column of its first byte, from 1, in bytes, where lines are counted.
    pub fn column(&self) -> Option<u64> {
        self.place.map(|place| place.column)
    }
}

/// Why there is no next token.
#[derive(Debug)]
pub enum TokensError {
    /// The source failed. It is read again for the next token.
    Read(io::Error),
    /// The scan has stopped.
    Scan(LexError),
}

impl fmt::Display for TokensError {
    fn fmt(&self, f: &mut fmt::Formatter<'_>) -> fmt::Result {
        match self {
            TokensError::Read(error) => error.fmt(f),
            TokensError::Scan(error) => error.fmt(f),
        }
    }
}

impl Error for TokensError {}

/// The tokens of a source as they come, with their texts: of a slice of bytes, a file, or anything else that can be read. The source is
/// read only where the bytes so far decide no token.
pub struct Tokens<R> {
    stream: Stream,
    source: R,
    piece: Vec<u8>,
    status: Option<u8>,
    is_over: bool,
}

impl<R: Read> Tokens<R> {
    /// The tokens by the rules of a table file.
    pub fn open(file: &[u8], source: R) -> Result<Tokens<R>, LexError> {
        Ok(Tokens::over(Stream::open(file)?, source))
    }

    /// The same with lines and columns.
    pub fn with_lines(file: &[u8], source: R) -> Result<Tokens<R>, LexError> {
        Ok(Tokens::over(Stream::with_lines(file)?, source))
    }

    fn over(stream: Stream, source: R) -> Tokens<R> {
        Tokens {
            stream,
            source,
            piece: vec![0; 1 << 16],
            status: None,
            is_over: false,
        }
    }

    /// The status that the rules have ended with, once all tokens were told.
    pub fn status(&self) -> Option<u8> {
        self.status
    }

    /// Feeds what the source has, or its end.
    fn read_on(&mut self) -> Result<(), TokensError> {
        let count = loop {
            match self.source.read(&mut self.piece) {
                Err(error) if error.kind() == io::ErrorKind::Interrupted => {}
                other => break other.map_err(TokensError::Read)?,
            }
        };
        if count == 0 {
            self.stream.end();
            return Ok(());
        }
        self.stream.feed(&self.piece[..count]).map_err(TokensError::Scan)?;
        Ok(())
    }

    /// The next token, or none at the end.
    fn pull(&mut self) -> Result<Option<Lexeme>, TokensError> {
        loop {
            match self.stream.next_token().map_err(TokensError::Scan)? {
                Next::Token(token) => {
                    return Ok(Some(Lexeme {
                        start: token.start,
                        text: self.stream.text(),
                        rule: token.rule,
                        condition: token.condition,
                        place: token.place,
                    }))
                }
                Next::More => self.read_on()?,
                Next::Ended(status) => {
                    self.status = Some(status);
                    return Ok(None);
                }
            }
        }
    }
}

impl<R: Read> Iterator for Tokens<R> {
    type Item = Result<Lexeme, TokensError>;

    fn next(&mut self) -> Option<Self::Item> {
        if self.is_over {
            return None;
        }
        let next = self.pull().transpose();
        self.is_over = matches!(next, None | Some(Err(TokensError::Scan(_))));
        next
    }
}

/// Whether a scan by pieces goes on.
#[derive(Clone, Copy, Debug, PartialEq, Eq)]
pub enum Progress {
    /// The next match asks for more than was fed.
    Going,
    /// The rules have ended the scan: what is fed from now on counts for nothing.
    Ended,
}

/// A scan by pieces. What its calls append, one after another, is what `scan` writes for all the bytes fed. It may be moved to
/// another thread.
pub struct Scan {
    inner: ffi::Scan,
}

// Safety: an open scan is one block of memory, which `inner.place` leads to (`PieceScan` of crates/liblex_calls). That block and those
// that it leads to are the scan's alone: the text that is held, and what was not handed out yet. The table is shared, as `Share` says.
// They are taken by malloc, and free takes them in any thread. The library has no variable of a thread, and none that it writes. A scan
// is no `Clone`, and each call takes it by value or by `&mut`. So its calls come one after another, and what moves it between threads
// puts them in order. This is an argument, and no theorem.
unsafe impl Send for Scan {}

impl Scan {
    /// One that is not open yet.
    fn closed() -> Scan {
        Scan {
            inner: ffi::Scan {
                is_open: 0,
                place: std::ptr::null_mut(),
            },
        }
    }

    /// Begins a scan by the rules of a table file.
    pub fn open(file: &[u8]) -> Result<Scan, LexError> {
        let mut scan = Scan::closed();
        // Safety: the slice and the scan do not overlap, and live through the call. The scan is closed.
        match unsafe { ffi::lex_open(&mut scan.inner, file.as_ptr(), file.len()) } {
            OK => Ok(scan),
            REFUSED => Err(LexError::Table),
            _ => Err(LexError::OutOfMemory),
        }
    }

    /// Scans on with a piece more, and appends what the bytes fed so far decide.
    pub fn feed(&mut self, piece: &[u8], output: &mut Vec<u8>) -> Result<Progress, LexError> {
        let mut rest = piece;
        let answer = append_all(output, piece.len(), |out, count| {
            // What has no room is fetched by feeding no bytes.
            let now = std::mem::take(&mut rest);
            // Safety: the slices and references do not overlap, and live through the call.
            unsafe {
                ffi::lex_feed(
                    &mut self.inner,
                    now.as_ptr(),
                    now.len(),
                    out.as_mut_ptr(),
                    out.len(),
                    count,
                )
            }
        });
        match answer {
            OK => Ok(Progress::Going),
            ENDED => Ok(Progress::Ended),
            other => Err(stopped(other)),
        }
    }

    /// Tells that the input has ended, appends what the rules write at its end, and answers the status that they end with.
    pub fn finish(mut self, output: &mut Vec<u8>) -> Result<u8, LexError> {
        let mut status = 0;
        let answer = append_all(output, 64, |out, count| {
            // Safety: the slices and references do not overlap, and live through the call.
            unsafe {
                ffi::lex_finish(
                    &mut self.inner,
                    out.as_mut_ptr(),
                    out.len(),
                    count,
                    &mut status,
                )
            }
        });
        match answer {
            OK => Ok(status),
            other => Err(stopped(other)),
        }
    }
}

impl Drop for Scan {
    fn drop(&mut self) {
        // Safety: the scan is this one's alone.
        unsafe { ffi::lex_close(&mut self.inner) }
    }
}

/// Appends what a call hands out, and calls again until nothing is left. The answer is that of the last call.
fn append_all(output: &mut Vec<u8>, room: usize, mut call: impl FnMut(&mut [u8], &mut usize) -> i32) -> i32 {
    let mut room = room.max(64);
    loop {
        let begins = output.len();
        output.resize(begins + room, 0);
        let mut count = 0;
        let answer = call(&mut output[begins..], &mut count);
        output.truncate(begins + count.min(room));
        if answer != TOO_SMALL {
            return answer;
        }
        room = count - room;
    }
}

/// Why a scan by pieces stopped. What it had written was appended.
fn stopped(answer: i32) -> LexError {
    match answer {
        STACK => LexError::Stack(Vec::new()),
        OUT_OF_MEMORY => LexError::OutOfMemory,
        _ => LexError::TooManyReads,
    }
}
