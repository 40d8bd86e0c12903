//! Moves the cursor of the terminal whose entry is a file, to a row and a column counted from 0: move ENTRY-FILE ROW COLUMN

use std::error::Error;
use std::io::{self, Write};
use std::{env, fs};
use ti_terminfo::{Capability, Entry, Item, Padding, Vars, expand, pad};

fn main() -> Result<(), Box<dyn Error>> {
    let words: Vec<String> = env::args().skip(1).collect();
    let [path, row, column] = words.as_slice() else {
        return Err("call it as: move ENTRY-FILE ROW COLUMN".into());
    };
    let file = fs::read(path)?;
    let entry = Entry::read(&file)?;
    let Some(Item::Text(cup)) = entry.find("cup") else {
        return Err("cup is no string".into());
    };
    let cup = Capability::parse(cup.value().ok_or("this terminal cannot move its cursor")?)?;
    let output = expand(&cup, &[row.parse::<i32>()?.into(), column.parse::<i32>()?.into()], &mut Vars::new())?;
    // Padding vanishes, since a terminal of today needs none.
    io::stdout().write_all(&pad(&output, &Padding::default())?)?;
    Ok(())
}
