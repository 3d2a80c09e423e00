//! `oracle generate`: what names a generated list, and its text.

use std::io::Write;

use crate::{
    call::{number, List},
    generate::generate,
    mixes::{self, Mix},
};

#[derive(Clone, Copy)]
pub struct Recipe {
    pub mix: &'static Mix,
    pub seed: u64,
    pub heaps: u64,
    pub spans: u64,
    pub calls: usize,
}

impl Recipe {
    /// From the five words NAME SEED HEAPS SPANS CALLS.
    pub fn parse(words: &[&str]) -> Result<Self, String> {
        let [name, seed, heaps, spans, calls] = words else {
            return Err("a recipe is NAME SEED HEAPS SPANS CALLS".to_string());
        };
        Ok(Self {
            mix: mixes::named(name)?,
            seed: number(seed)?,
            heaps: number(heaps)?,
            spans: number(spans)?,
            calls: number(calls)? as usize,
        })
    }

    pub fn list(&self) -> Result<List, String> {
        generate(self)
    }
}

pub fn command(words: &[&str]) -> Result<(), String> {
    let list = Recipe::parse(words)?.list()?;
    let mut text = format!("fresh {} {}\n", list.heaps, list.spans);
    for call in &list.calls {
        text.push_str(&format!("{call}\n"));
    }
    text.push_str("sparse\n");
    std::io::stdout()
        .write_all(text.as_bytes())
        .map_err(|error| error.to_string())
}
