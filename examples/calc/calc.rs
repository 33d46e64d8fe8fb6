//! The calculator of calc.y in Rust, with no parser generator: it reads expressions from its standard input, line by line, and answers
//! each line at once.
//!
//!     cargo run --example calc -- calc.l

use liblex::{generate, Lexeme, Options, Place, Tokens};
use std::error::Error;
use std::{env, fs, io};

#[derive(Clone, Copy, PartialEq, Eq)]
enum Kind {
    Number,
    Plus,
    Minus,
    Times,
    Divide,
    Open,
    Close,
    End,
    Skipped,
}

/// The kind of each rule of calc.l, in the order of the file.
const KINDS: [Kind; 9] = [
    Kind::Number,
    Kind::Plus,
    Kind::Minus,
    Kind::Times,
    Kind::Divide,
    Kind::Open,
    Kind::Close,
    Kind::End,
    Kind::Skipped,
];

/// What is wrong with a line, and where.
struct Fault {
    at: Place,
    what: &'static str,
}

/// The tokens of a line, of which the parser has come to one, and where the line ends. What no rule takes has no kind.
struct Line {
    tokens: Vec<(Option<Kind>, Lexeme)>,
    next: usize,
    end: Place,
}

impl Line {
    /// The kind of the next token, and where it begins.
    fn peek(&self) -> (Option<Kind>, Place) {
        match self.tokens.get(self.next) {
            Some((kind, lexeme)) => (*kind, lexeme.place.unwrap_or(self.end)),
            None => (Some(Kind::End), self.end),
        }
    }

    fn number(&self) -> Option<f64> {
        let (_, lexeme) = self.tokens.get(self.next)?;
        std::str::from_utf8(&lexeme.text).ok()?.parse().ok()
    }

    /// A number, a sum in parentheses, or one of them with a sign.
    fn operand(&mut self) -> Result<f64, Fault> {
        let (kind, at) = self.peek();
        let fault = Fault { at, what: "syntax error" };
        match kind {
            Some(Kind::Number) => {
                let number = self.number().ok_or(fault)?;
                self.next += 1;
                Ok(number)
            }
            Some(Kind::Minus) => {
                self.next += 1;
                Ok(-self.operand()?)
            }
            Some(Kind::Open) => {
                self.next += 1;
                let sum = self.sum(0)?;
                let (kind, at) = self.peek();
                self.next += 1;
                if kind == Some(Kind::Close) {
                    Ok(sum)
                } else {
                    Err(Fault { at, what: "syntax error" })
                }
            }
            _ => Err(fault),
        }
    }

    /// Operands with signs between them that bind more strongly than that.
    fn sum(&mut self, least: u8) -> Result<f64, Fault> {
        let mut left = self.operand()?;
        loop {
            let (kind, at) = self.peek();
            let strength = match kind {
                Some(Kind::Plus | Kind::Minus) => 1,
                Some(Kind::Times | Kind::Divide) => 2,
                _ => return Ok(left),
            };
            if strength <= least {
                return Ok(left);
            }
            self.next += 1;
            let right = self.sum(strength)?;
            left = match kind {
                Some(Kind::Plus) => left + right,
                Some(Kind::Minus) => left - right,
                Some(Kind::Times) => left * right,
                _ if right == 0.0 => return Err(Fault { at, what: "division by zero" }),
                _ => left / right,
            };
        }
    }

    /// The value of the whole line.
    fn value(&mut self) -> Result<f64, Fault> {
        let value = self.sum(0)?;
        match self.peek() {
            (Some(Kind::End), _) => Ok(value),
            (_, at) => Err(Fault { at, what: "syntax error" }),
        }
    }
}

/// Answers a line.
fn answer(mut line: Line) {
    if line.tokens.is_empty() {
        return;
    }
    match line.value() {
        Ok(value) => println!("{value}"),
        Err(Fault { at, what }) => println!("line {}, column {}: {what}", at.line, at.column),
    }
}

fn main() -> Result<(), Box<dyn Error>> {
    let name = env::args().nth(1).ok_or("it takes calc.l")?;
    let table = generate(&fs::read(name)?, Options::default())?;
    let mut end = Place { line: 1, column: 1 };
    let mut tokens = Vec::new();
    for lexeme in Tokens::with_lines(&table, io::stdin())? {
        let lexeme = lexeme?;
        let kind = lexeme.rule.map(|rule| KINDS[rule as usize]);
        let at = lexeme.place.unwrap_or(end);
        end = Place { line: at.line, column: at.column + lexeme.text.len() as u64 };
        match kind {
            Some(Kind::Skipped) => {}
            Some(Kind::End) => answer(Line { tokens: std::mem::take(&mut tokens), next: 0, end: at }),
            kind => tokens.push((kind, lexeme)),
        }
    }
    answer(Line { tokens, next: 0, end });
    Ok(())
}
