//! `oracle selftest`: generated lists of every mix, the table checked after each call.

use crate::{
    call::number,
    clauses::Reading,
    mixes::{Mix, MIXES},
    play,
    random::Random,
    recipe::Recipe,
    sanity,
    table::Table,
};

const CALLS: usize = 400;

pub fn command(lists: &str) -> Result<(), String> {
    let lists = number(lists)?;
    let mut checked = 0;
    for mix in &MIXES {
        for seed in 0..lists {
            checked +=
                one_list(mix, seed).map_err(|fault| format!("{} {seed}: {fault}", mix.name))?;
        }
    }
    println!(
        "{} lists, {checked} tables sound",
        lists as usize * MIXES.len()
    );
    Ok(())
}

/// The sizes of the table follow from the seed.
fn one_list(mix: &'static Mix, seed: u64) -> Result<usize, String> {
    let mut random = Random::new(!seed);
    let heaps = random.between(1, 16);
    let spans = random.between(1, 48);
    let recipe = Recipe {
        mix,
        seed,
        heaps,
        spans,
        calls: CALLS,
    };
    let (list, again) = (recipe.list()?, recipe.list()?);
    if list != again {
        return Err("two lists of one seed".into());
    }
    let played = play::play_seen(&list, |driver, call, _| {
        let table = driver.table();
        sanity::check(&table, heaps as usize, spans as usize)
            .map_err(|fault| format!("after {call}: {fault}"))
    })?;
    find_damage(&played.table, heaps as usize, spans as usize)?;
    let faults = Reading::new().faults(&played.table, heaps as usize, spans as usize);
    if !faults.none() {
        return Err(format!("broken at the end: {}", faults.named().join("; ")));
    }
    Ok(played.answers.len())
}

/// The check itself is tried: a damaged cell of the first span must not pass.
fn find_damage(table: &Table, heaps: usize, spans: usize) -> Result<(), String> {
    let passes = |damage: fn(&mut Table)| {
        let mut damaged = table.clone();
        damage(&mut damaged);
        sanity::check(&damaged, heaps, spans).is_ok()
    };
    let damages: [(&str, fn(&mut Table)); 5] = [
        ("summary", |table| table.bits[0] ^= 1),
        ("word", |table| table.bits[64] ^= 1 << 63),
        ("remote word", |table| table.bits[129] ^= 1 << 63),
        ("occupied", |table| table.spans[2] ^= 1),
        ("previous", |table| table.spans[3] ^= 1),
    ];
    for (name, damage) in damages {
        if table.used > 0 && passes(damage) {
            return Err(format!("damage not found: {name}"));
        }
    }
    Ok(())
}
