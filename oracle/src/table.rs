//! The lent table: its cell order, and how it is written out.

use std::fmt::Write;

pub const CLASSES: usize = 48;
/// Local summary, 64 local words, remote summary, 64 remote words.
pub const BITS_A_SPAN: usize = 130;
pub const REMOTE_SUMMARY: usize = 65;
/// Class, owner, occupied, previous, next.
pub const RECORD: usize = 5;
pub const ENTRIES_A_HEAP: usize = 792;
/// Partial, full, empty, reserve, count.
pub const HEADS: usize = 5;
/// An entry is the span times this, plus the slot.
pub const SLOTS: u64 = 4096;

#[derive(Clone, Debug, Default, PartialEq, Eq)]
pub struct Table {
    pub bits: Vec<u64>,
    pub spans: Vec<u64>,
    pub entries: Vec<u64>,
    pub heads: Vec<u64>,
    pub used: u64,
}

impl Table {
    pub fn fresh(heaps: usize, spans: usize) -> Self {
        Self {
            bits: vec![0; spans * BITS_A_SPAN],
            spans: vec![0; spans * RECORD],
            entries: vec![0; heaps * ENTRIES_A_HEAP],
            heads: vec![0; heaps * CLASSES * HEADS],
            used: 0,
        }
    }

    pub fn parts(&self) -> [(&'static str, &[u64]); 4] {
        [
            ("bits", &self.bits),
            ("spans", &self.spans),
            ("entries", &self.entries),
            ("heads", &self.heads),
        ]
    }

    /// Five lines, every cell.
    pub fn dump(&self) -> String {
        let mut text = String::new();
        for (name, cells) in self.parts() {
            text.push_str(name);
            for cell in cells {
                write!(text, " {cell}").unwrap();
            }
            text.push('\n');
        }
        writeln!(text, "used {}", self.used).unwrap();
        text
    }

    /// Five lines: the length, then the cells that are not 0 as `index:value`.
    pub fn sparse(&self) -> String {
        let mut text = String::new();
        for (name, cells) in self.parts() {
            write!(text, "{name} {}", cells.len()).unwrap();
            for (index, cell) in cells.iter().enumerate().filter(|(_, cell)| **cell != 0) {
                write!(text, " {index}:{cell}").unwrap();
            }
            text.push('\n');
        }
        writeln!(text, "used {}", self.used).unwrap();
        text
    }

    /// Span `span`'s words, local and remote.
    pub fn words(&self, span: usize) -> &[u64] {
        &self.bits[span * BITS_A_SPAN..][..BITS_A_SPAN]
    }

    pub fn record(&self, span: usize) -> &[u64] {
        &self.spans[span * RECORD..][..RECORD]
    }

    pub fn head(&self, heap: usize, class: usize) -> &[u64] {
        &self.heads[(heap * CLASSES + class) * HEADS..][..HEADS]
    }

    /// Slots of `span` that wait for their owner.
    pub fn pending(&self, span: usize) -> u64 {
        let words = &self.words(span)[REMOTE_SUMMARY + 1..];
        words.iter().map(|word| word.count_ones() as u64).sum()
    }
}
