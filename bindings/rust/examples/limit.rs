//! limit FILE COLUMN: prints a column of a reply's first table, with the place of the bytes that each value was read from.

use chaloenpik::Table;
use std::error::Error;

fn main() {
    if let Err(why) = print_column() {
        eprintln!("limit: {why}");
        std::process::exit(1);
    }
}

fn print_column() -> Result<(), Box<dyn Error>> {
    let words: Vec<String> = std::env::args().collect();
    let (file, name) = match &words[..] {
        [_, file, name] => (file, name),
        _ => return Err("usage: limit FILE COLUMN".into()),
    };
    let message = std::fs::read(file)?;
    let table = Table::new(&message, 0)?;
    let column = table.find(name)?;
    println!("{name} is column {column}");
    for row in table.rows() {
        let cell = row.cell(column)?;
        let (first, last) = (cell.place.start, cell.place.end - 1);
        println!("row {}: {}, bytes {first} to {last}", row.number(), cell.value);
    }
    Ok(())
}
