//! `oracle run`: line commands in, answers out.

use std::io::{self, BufRead, BufWriter, Write};

use crate::{
    call::{Call, Command},
    driver::Driver,
};

pub fn run() -> Result<(), String> {
    let mut out = BufWriter::new(io::stdout().lock());
    let mut driver = None;
    for line in io::stdin().lock().lines() {
        let line = line.map_err(|error| error.to_string())?;
        if let Some(command) = Command::parse(&line)? {
            answer(&mut driver, command, &mut out)?;
        }
    }
    out.flush().map_err(|error| error.to_string())
}

fn answer(
    driver: &mut Option<Driver>,
    command: Command,
    out: &mut impl Write,
) -> Result<(), String> {
    let text = match (command, driver.as_mut()) {
        (Command::Fresh { heaps, spans }, _) => {
            *driver = Some(Driver::fresh(heaps, spans)?);
            "ok\n".to_string()
        }
        (_, None) => return Err("no table: `fresh` comes first".to_string()),
        (Command::Call(call), Some(driver)) => match (driver.apply(&call), &call) {
            (None, _) => "refused\n".to_string(),
            (Some(_), Call::Exit { .. }) => "ok\n".to_string(),
            (Some(answer), _) => format!("{answer}\n"),
        },
        (Command::Dump, Some(driver)) => driver.table().dump(),
        (Command::Sparse, Some(driver)) => driver.table().sparse(),
        (Command::Pool, Some(driver)) => {
            let fronts: Vec<String> = driver.pool().iter().map(u64::to_string).collect();
            format!("pool {}\n", fronts.join(" "))
        }
    };
    out.write_all(text.as_bytes())
        .map_err(|error| error.to_string())
}
