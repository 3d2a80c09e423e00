//! Calls, answers and the line commands that carry them.

use std::fmt;

/// The words an allocation may use.
#[derive(Clone, Debug, PartialEq, Eq)]
pub enum Words {
    /// The seed, then each the previous plus a fixed step.
    Seed(u64),
    Given(Vec<u64>),
}

#[derive(Clone, Debug, PartialEq, Eq)]
pub enum Call {
    Allocate {
        heap: u64,
        size: u64,
        align: u64,
        words: Words,
    },
    Free {
        heap: u64,
        span: u64,
        offset: u64,
    },
    /// The heap's thread ends; outside the domain of the comparison.
    Exit {
        heap: u64,
    },
}

impl Call {
    pub fn heap(&self) -> u64 {
        match self {
            Call::Allocate { heap, .. } | Call::Free { heap, .. } | Call::Exit { heap } => *heap,
        }
    }
}

/// In the order in which the library answers.
#[repr(C)]
#[derive(Clone, Copy, Debug, Default, PartialEq, Eq)]
pub struct Answer {
    pub number: u64,
    pub span: u64,
    pub offset: u64,
    pub words: u64,
}

impl Answer {
    pub fn refusal(number: u64) -> Self {
        Self {
            number,
            ..Self::default()
        }
    }
}

/// A table's sizes and the calls made on it, from fresh.
#[derive(Clone, Debug, PartialEq, Eq)]
pub struct List {
    pub heaps: u64,
    pub spans: u64,
    pub calls: Vec<Call>,
}

/// One line of input.
pub enum Command {
    Fresh { heaps: u64, spans: u64 },
    Call(Call),
    Dump,
    Sparse,
    Pool,
}

pub fn number(text: &str) -> Result<u64, String> {
    let parsed = match text.strip_prefix("0x") {
        Some(digits) => u64::from_str_radix(digits, 16),
        None => text.parse(),
    };
    parsed.map_err(|_| format!("not a number: {text}"))
}

impl Command {
    /// `None` for an empty line or a comment.
    pub fn parse(line: &str) -> Result<Option<Self>, String> {
        let mut fields = line.split_whitespace();
        let Some(name) = fields.next().filter(|name| !name.starts_with('#')) else {
            return Ok(None);
        };
        let numbers = fields.map(number).collect::<Result<Vec<u64>, String>>()?;
        let command = match (name, numbers.as_slice()) {
            ("fresh", &[heaps, spans]) => Command::Fresh { heaps, spans },
            ("allocate", &[heap, size, align, seed]) => Command::Call(Call::Allocate {
                heap,
                size,
                align,
                words: Words::Seed(seed),
            }),
            ("allocatew", &[heap, size, align, ref words @ ..]) => Command::Call(Call::Allocate {
                heap,
                size,
                align,
                words: Words::Given(words.to_vec()),
            }),
            ("free", &[heap, span, offset]) => Command::Call(Call::Free { heap, span, offset }),
            ("exit", &[heap]) => Command::Call(Call::Exit { heap }),
            ("dump", []) => Command::Dump,
            ("sparse", []) => Command::Sparse,
            ("pool", []) => Command::Pool,
            _ => return Err(format!("not a command: {line}")),
        };
        Ok(Some(command))
    }
}

impl fmt::Display for Call {
    fn fmt(&self, out: &mut fmt::Formatter) -> fmt::Result {
        match self {
            Call::Allocate {
                heap,
                size,
                align,
                words: Words::Seed(seed),
            } => write!(out, "allocate {heap} {size} {align} {seed}"),
            Call::Allocate {
                heap,
                size,
                align,
                words: Words::Given(words),
            } => {
                write!(out, "allocatew {heap} {size} {align}")?;
                words.iter().try_for_each(|word| write!(out, " {word}"))
            }
            Call::Free { heap, span, offset } => write!(out, "free {heap} {span} {offset}"),
            Call::Exit { heap } => write!(out, "exit {heap}"),
        }
    }
}

impl fmt::Display for Answer {
    fn fmt(&self, out: &mut fmt::Formatter) -> fmt::Result {
        let Answer {
            number,
            span,
            offset,
            words,
        } = self;
        write!(out, "{number} {span} {offset} {words}")
    }
}
