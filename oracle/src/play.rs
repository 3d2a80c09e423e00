//! Whole call lists: read from text, and played on a fresh table.

use crate::{
    call::{Answer, Call, Command, List},
    driver::Driver,
    recipe::Recipe,
    table::Table,
};

/// A list with what the original answered and the table it left.
pub struct Played {
    pub list: List,
    pub answers: Vec<Answer>,
    pub table: Table,
}

/// The lists in a text of line commands: each `fresh` starts one, and a line `generate` with a
/// recipe stands for the whole list it makes.
pub fn read_lists(text: &str) -> Result<Vec<List>, String> {
    let mut lists: Vec<List> = Vec::new();
    for line in text.lines() {
        if let Some(recipe) = line.strip_prefix("generate ") {
            let words: Vec<&str> = recipe.split_whitespace().collect();
            lists.push(Recipe::parse(&words)?.list()?);
            continue;
        }
        match Command::parse(line)? {
            Some(Command::Fresh { heaps, spans }) => lists.push(List {
                heaps,
                spans,
                calls: Vec::new(),
            }),
            Some(Command::Call(call)) => {
                let list = lists.last_mut().ok_or("a call before `fresh`")?;
                list.calls.push(call);
            }
            // A list is played from its calls alone; where its tables were to be shown is not kept.
            Some(Command::Dump | Command::Sparse | Command::Pool) | None => {}
        }
    }
    Ok(lists)
}

/// Play a list, showing the driver after each call to `see`.
pub fn play_seen(
    list: &List,
    mut see: impl FnMut(&Driver, &Call, &Answer) -> Result<(), String>,
) -> Result<Played, String> {
    let mut driver = Driver::fresh(list.heaps, list.spans)?;
    let mut answers = Vec::with_capacity(list.calls.len());
    for call in &list.calls {
        let answer = driver
            .apply(call)
            .ok_or_else(|| format!("outside the domain: {call}"))?;
        see(&driver, call, &answer)?;
        answers.push(answer);
    }
    Ok(Played {
        list: list.clone(),
        answers,
        table: driver.table(),
    })
}

pub fn play(list: &List) -> Result<Played, String> {
    play_seen(list, |_, _, _| Ok(()))
}
