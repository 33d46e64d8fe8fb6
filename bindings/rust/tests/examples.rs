//! Each file of examples/, and refusals.

use liblex::{
    generate, rule_lines, scan, tokens, version, LexError, Next, NextToken, Options, Place, Progress, Scan, Stream, Tables, Token, Tokens,
    TokensError,
};
use std::fs;
use std::io::{self, Read};
use std::path::Path;
use std::thread;

#[test]
fn examples_write_what_is_stored() {
    let folder = Path::new(env!("CARGO_MANIFEST_DIR")).join("../../examples");
    let mut count = 0;
    for entry in fs::read_dir(folder).unwrap() {
        let text = entry.unwrap().path();
        if text.extension().map_or(true, |extension| extension != "l") {
            continue;
        }
        let table = generate(&fs::read(&text).unwrap(), Options::default()).unwrap();
        let scanned = scan(&table, &fs::read(text.with_extension("input")).unwrap()).unwrap();
        assert!(scanned.output == fs::read(text.with_extension("output")).unwrap(), "{text:?}");
        let status = fs::read_to_string(text.with_extension("status")).unwrap_or_default();
        assert_eq!(scanned.status, status.trim().parse().unwrap_or(0), "{text:?}");
        let input = fs::read(text.with_extension("input")).unwrap();
        for size in [1, 2, 7, 4096] {
            assert_eq!(by_pieces(&table, &input, size), (scanned.output.clone(), scanned.status), "{text:?}");
        }
        assert_eq!(by_threads(&table, &input, 7), (scanned.output, scanned.status), "{text:?}");
        let listed = tokens(&table, &input).unwrap();
        for size in [1, 2, 7, 4096] {
            let (pulled, status) = pulled(&table, &input, size);
            assert_eq!((pulled, Some(status)), (listed.tokens.clone(), Some(listed.status)), "{text:?}");
        }
        count += 1;
    }
    assert!(count >= 20);
}

#[test]
fn the_version_is_that_of_the_crate() {
    let numbers: Vec<u32> = env!("CARGO_PKG_VERSION").split('.').map(|number| number.parse().unwrap()).collect();
    assert_eq!(version(), 10_000 * numbers[0] + 100 * numbers[1] + numbers[2]);
}

#[test]
fn refusals_are_told() {
    let refused = generate(b"%%\na(b ECHO;\n", Options::default()).unwrap_err();
    assert_eq!(refused.to_string(), "lex: line 2: UnbalancedParen at 1");
    assert!(matches!(refused, LexError::Specification { line: 2, kind: 109, place: 1, .. }));
    assert_eq!(scan(b"nothing", b"a"), Err(LexError::Table));
}

#[test]
fn letters_stand_for_both_cases() {
    let options = Options { fold: true, ..Options::default() };
    let table = generate(b"%%\nab printf(\"x\");\n", options).unwrap();
    assert_eq!(scan(&table, b"aB").unwrap().output, b"x");
}

#[test]
fn tokens_that_were_worked_by_hand() {
    let text = b"%%\n[0-9]+ printf(\"N\");\n\n[a-z]+/! yyless(1);\n";
    let table = generate(text, Options::default()).unwrap();
    let token = |start, end, rule| Token { start, end, rule, condition: 0 };
    let wanted = [token(0, 2, Some(0)), token(2, 3, None), token(3, 4, Some(1)), token(4, 5, Some(1)), token(5, 6, None)];
    assert_eq!(tokens(&table, b"12 ab!").unwrap().tokens, wanted);
    assert_eq!(tokens(b"nothing", b"a"), Err(LexError::Table));
    assert_eq!(rule_lines(text, Options::default()), Ok(vec![2, 4]));
    assert!(matches!(rule_lines(b"%%\n[z-a] ;\n", Options::default()), Err(LexError::Specification { line: 2, .. })));
}

#[test]
fn one_loaded_table_serves_many_threads() {
    let table = generate(b"%%\n[0-9]+ printf(\"N\");\n", Options::default()).unwrap();
    let tables = Tables::load(&table).unwrap();
    thread::scope(|scope| {
        for _ in 0..4 {
            scope.spawn(|| {
                for _ in 0..100 {
                    assert_eq!(tables.scan(b"a12 b").unwrap().output, b"aN b");
                    assert_eq!(tables.tokens(b"a12 b").unwrap(), tokens(&table, b"a12 b").unwrap());
                }
            });
        }
    });
    let mut scan = tables.open().unwrap();
    drop(tables);
    let mut output = Vec::new();
    scan.feed(b"a1", &mut output).unwrap();
    assert_eq!((scan.finish(&mut output), output), (Ok(0), b"aN".to_vec()));
    assert!(matches!(Tables::load(b"nothing"), Err(LexError::Table)));
}

#[test]
fn rules_have_the_names_that_they_put() {
    let table = generate(b"%%\na puts(\"TOKEN\");\nb ECHO;\n", Options::default()).unwrap();
    let tables = Tables::load(&table).unwrap();
    assert_eq!(tables.rule_name(0), Ok(Some("TOKEN".to_string())));
    assert_eq!((tables.rule_name(1), tables.rule_name(2)), (Ok(None), Ok(None)));
}

/// A source that gives a few bytes at a time, and fails once between them.
struct Slow<'a> {
    rest: &'a [u8],
    size: usize,
    fails: bool,
}

impl Read for Slow<'_> {
    fn read(&mut self, out: &mut [u8]) -> io::Result<usize> {
        if std::mem::take(&mut self.fails) {
            return Err(io::Error::new(io::ErrorKind::Other, "no bytes yet"));
        }
        let count = self.size.min(self.rest.len());
        out[..count].copy_from_slice(&self.rest[..count]);
        self.rest = &self.rest[count..];
        Ok(count)
    }
}

/// The tokens of an input in pieces of a size, with the status. Their texts are those parts of the input.
fn pulled(table: &[u8], input: &[u8], size: usize) -> (Vec<Token>, u8) {
    let source = Slow { rest: input, size, fails: false };
    let mut found = Vec::new();
    let mut lexemes = Tokens::with_lines(table, source).unwrap();
    for lexeme in &mut lexemes {
        let lexeme = lexeme.unwrap();
        let start = lexeme.start as usize;
        let end = start + lexeme.text.len();
        assert_eq!(lexeme.text, &input[start..end]);
        let lines = input[..start].iter().filter(|&&byte| byte == b'\n').count() as u64;
        let bytes = input[..start].iter().rev().take_while(|&&byte| byte != b'\n').count() as u64;
        assert_eq!((lexeme.line(), lexeme.column()), (Some(lines + 1), Some(bytes + 1)));
        found.push(Token { start, end, rule: lexeme.rule, condition: lexeme.condition });
    }
    (found, lexemes.status().unwrap())
}

#[test]
fn a_source_that_failed_is_read_again() {
    let table = generate(b"%%\n[a-z]+ ;\n", Options::default()).unwrap();
    let mut lexemes = Tokens::open(&table, Slow { rest: b"ab", size: 2, fails: true }).unwrap();
    assert!(matches!(lexemes.next(), Some(Err(TokensError::Read(_)))));
    assert_eq!(lexemes.next().unwrap().unwrap().text, b"ab");
    assert!(lexemes.next().is_none());
    assert_eq!(lexemes.status(), Some(0));
    assert!(lexemes.next().is_none());
}

#[test]
fn a_stream_tells_what_is_decided() {
    let table = generate(b"%option stack\n%%\n[0-9]+ ;\nb exit(3);\nc yy_pop_state();\n", Options::default()).unwrap();
    let token = |start, length, rule| Ok(Next::Token(NextToken { start, length, rule, condition: 0, place: None }));
    let mut stream = Tables::load(&table).unwrap().stream().unwrap();
    assert_eq!(stream.next_token(), Ok(Next::More));
    assert_eq!(stream.feed(b"a12"), Ok(Progress::Going));
    assert_eq!(stream.next_token(), token(0, 1, None));
    assert_eq!(stream.next_token(), Ok(Next::More));
    let mut stream = thread::spawn(move || {
        assert_eq!(stream.feed(b"3b"), Ok(Progress::Going));
        stream
    })
    .join()
    .unwrap();
    assert_eq!(stream.next_token(), token(1, 3, Some(0)));
    assert_eq!((stream.text(), stream.text()), (b"123".to_vec(), b"123".to_vec()));
    assert_eq!(stream.next_token(), token(4, 1, Some(1)));
    for _ in 0..2 {
        assert_eq!(stream.next_token(), Ok(Next::Ended(3)));
        assert_eq!(stream.text(), b"");
        assert_eq!(stream.feed(b"1"), Ok(Progress::Ended));
    }
    let mut stream = Stream::open(&table).unwrap();
    assert_eq!(stream.feed(b"c"), Ok(Progress::Going));
    for _ in 0..2 {
        assert_eq!(stream.next_token(), Err(LexError::Stack(Vec::new())));
    }
    assert!(matches!(Stream::open(b"nothing"), Err(LexError::Table)));
}

#[test]
fn a_loaded_table_tells_lines() {
    let tables = Tables::load(&generate(b"%%\n[a-z]+\\n ;\n", Options::default()).unwrap()).unwrap();
    let lexemes: Vec<_> = tables.read_tokens_with_lines(&b"a\n b\n"[..]).unwrap().map(Result::unwrap).collect();
    let places: Vec<_> = lexemes.iter().map(|lexeme| lexeme.place.unwrap()).collect();
    assert_eq!(places, [Place { line: 1, column: 1 }, Place { line: 2, column: 1 }, Place { line: 2, column: 2 }]);
    assert_eq!(tables.read_tokens(&b"a\n"[..]).unwrap().next().unwrap().unwrap().place, None);
}

/// What a scan by pieces of a size writes, and the status.
fn by_pieces(table: &[u8], input: &[u8], size: usize) -> (Vec<u8>, u8) {
    let mut scan = Scan::open(table).unwrap();
    let mut output = Vec::new();
    for piece in input.chunks(size) {
        scan.feed(piece, &mut output).unwrap();
    }
    let status = scan.finish(&mut output).unwrap();
    (output, status)
}

/// The same, where each piece is fed by a thread of its own, which the scan is moved to, and the end is asked for by another.
fn by_threads(table: &[u8], input: &[u8], size: usize) -> (Vec<u8>, u8) {
    let mut scan = Scan::open(table).unwrap();
    let mut output = Vec::new();
    for piece in input.chunks(size) {
        let piece = piece.to_vec();
        let fed = thread::spawn(move || {
            scan.feed(&piece, &mut output).unwrap();
            (scan, output)
        });
        (scan, output) = fed.join().unwrap();
    }
    let ended = thread::spawn(move || {
        let status = scan.finish(&mut output).unwrap();
        (output, status)
    });
    ended.join().unwrap()
}

#[test]
fn a_scan_is_closed_by_another_thread() {
    let table = generate(b"%%\n[0-9]+ printf(\"N\");\n", Options::default()).unwrap();
    let mut scan = Scan::open(&table).unwrap();
    let mut output = Vec::new();
    scan.feed(b"a12", &mut output).unwrap();
    thread::spawn(move || drop(scan)).join().unwrap();
    assert_eq!(output, b"a");
}

#[test]
fn a_scan_writes_what_is_decided() {
    let table = generate(b"%%\n[0-9]+ printf(\"N\");\nb exit(3);\n", Options::default()).unwrap();
    let mut scan = Scan::open(&table).unwrap();
    let mut output = Vec::new();
    assert_eq!(scan.feed(b"a12", &mut output), Ok(Progress::Going));
    assert_eq!(output, b"a");
    assert_eq!(scan.feed(b"3x", &mut output), Ok(Progress::Going));
    assert_eq!(output, b"aNx");
    assert_eq!(scan.feed(b"ba", &mut output), Ok(Progress::Ended));
    assert_eq!(scan.feed(b"a", &mut output), Ok(Progress::Ended));
    assert_eq!(scan.finish(&mut output), Ok(3));
    assert_eq!(output, b"aNx");
    assert!(matches!(Scan::open(b"nothing"), Err(LexError::Table)));
}
