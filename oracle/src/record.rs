//! `oracle record`: a played list as a file of the replay crate, held against the definitions there.

use std::io::{Read, Write};

use crate::{
    call::{Call, Words},
    play::{play, read_lists, Played},
};

/// Cells of a list that are not 0, as place and value.
fn sparse(cells: &[u64]) -> String {
    let named = (0..).zip(cells).filter(|(_, value)| **value != 0);
    let items: Vec<String> = named
        .map(|(place, value): (u64, &u64)| format!("{place} ∷ {value} ∷"))
        .collect();
    format!("sparse {} ({})", cells.len(), chain(&items, 8))
}

/// Items in lines of so many, closed by the empty list.
fn chain(items: &[String], a_line: usize) -> String {
    let mut text = String::new();
    for line in items.chunks(a_line) {
        text.push_str(&line.join(" "));
        text.push_str("\n    ");
    }
    text + "[]"
}

fn call(call: &Call) -> Result<String, String> {
    match call {
        Call::Allocate {
            heap,
            size,
            align,
            words: Words::Seed(seed),
        } => Ok(format!("al {heap} {size} {align} {seed} ∷")),
        Call::Free { heap, span, offset } => Ok(format!("fr {heap} {span} {offset} ∷")),
        other => Err(format!("not a call that is recorded: {other}")),
    }
}

fn text(source: &str, played: &Played) -> Result<String, String> {
    let Played {
        list,
        answers,
        table,
    } = played;
    let calls = list.calls.iter().map(call).collect::<Result<Vec<_>, _>>()?;
    let answers: Vec<String> = answers
        .iter()
        .map(|a| format!("{} ∷ {} ∷ {} ∷ {} ∷", a.number, a.span, a.offset, a.words))
        .collect();
    Ok(format!(
        "-- Answers and cells of the original, written by `oracle/record`: {source}. Assumes nothing.
use mathlib.Core.Path.{{◌≡◌, refl}}
use mathlib.Core.List.{{List, [], ◌∷◌}}
use Prim.Native.Nat.{{ℕ}}
use Rattle.calls.specs.Run.{{Call}}
use Rattle.replay.specs.Replay.{{al, fr, replay, Sparse, sparse}}

-- {count} calls
abbrev calls : List Call
calls =
    {calls}

-- number, span, offset and words of each answer
abbrev answers : List ℕ
answers =
    {answers}

-- the cells that are not 0 after the last call, each as its place and its value
abbrev bits : Sparse
bits =
    {bits}

abbrev spans : Sparse
spans =
    {spans}

abbrev entries : Sparse
entries =
    {entries}

abbrev heads : Sparse
heads =
    {heads}

pub recorded : replay {n_heaps} {n_spans} calls ≡ record {{ answers = answers; bits = bits; spans = spans; entries = entries; heads = heads; used = {used} }}
unfolding replay
recorded = refl
",
        count = calls.len(),
        calls = chain(&calls, 4),
        answers = chain(&answers, 6),
        bits = sparse(&table.bits),
        spans = sparse(&table.spans),
        entries = sparse(&table.entries),
        heads = sparse(&table.heads),
        n_heaps = list.heaps,
        n_spans = list.spans,
        used = table.used,
    ))
}

/// One list on standard input, given as a line `generate ..` or as its calls.
pub fn command() -> Result<(), String> {
    let mut input = String::new();
    std::io::stdin()
        .read_to_string(&mut input)
        .map_err(|error| error.to_string())?;
    let lists = read_lists(&input)?;
    let [list] = lists.as_slice() else {
        return Err(format!(
            "one list is recorded at a time, not {}",
            lists.len()
        ));
    };
    let source = input.lines().next().unwrap_or_default().trim();
    std::io::stdout()
        .write_all(text(source, &play(list)?)?.as_bytes())
        .map_err(|error| error.to_string())
}
