//! Measures the port beside the original, or beside a Rust reader where the original has none; and the program `tape` beside calls
//! from C. `bench times` prints the times of each row, and `bench counts`, run by callgrind, has the instructions counted of those
//! that run in this process. A second word chooses the rows whose table and name have it in them.
mod callgrind;
mod inputs;
mod measure;
mod port;
mod row;
mod rows;

use measure::Round;
use row::Row;

const SIDES: [&str; 3] = ["port", "rust", "copies"];

fn name(row: &Row) -> String {
    format!("{}\t{}", row.table, row.name)
}

fn times(is_chosen: impl Fn(&str, &str) -> bool) {
    let time = |mut row: Row| println!("{}\t{}", name(&row), line(&measure::rounds(&mut row)));
    rows::each(|row| {
        if is_chosen(row.table, &row.name) {
            time(row);
        }
    });
    rows::each_of_processes(is_chosen, time);
}

fn counts(is_chosen: impl Fn(&str, &str) -> bool) {
    rows::each(|row| {
        if is_chosen(row.table, &row.name) {
            count(row);
        }
    });
}

/// For each side its median, its quickest turn, and the port's time by its own.
fn line(rounds: &[Round]) -> String {
    let sides = (0..rounds[0].len()).map(|side| {
        let (median, quickest) = (measure::median(rounds, side), measure::quickest(rounds, side));
        format!("{median:.2}\t{quickest:.2}\t{:.4}", measure::ratio(rounds, side))
    });
    sides.collect::<Vec<_>>().join("\t")
}

/// Each side runs once before it is counted.
fn count(mut row: Row) {
    let of = format!("{}\t{}", name(&row), row.operations);
    for (side, name) in row.sides.iter_mut().zip(SIDES) {
        side.prepare();
        side.run();
        side.prepare();
        callgrind::counted(&format!("{of}\t{name}"), || side.run());
    }
}

fn main() {
    let args: Vec<String> = std::env::args().collect();
    let part = args.get(2).map_or("", String::as_str);
    let is_chosen = |table: &str, name: &str| format!("{table} {name}").contains(part);
    match args.get(1).map(String::as_str) {
        Some("times") => times(is_chosen),
        Some("counts") => counts(is_chosen),
        _ => panic!("usage: bench times [PART], or bench counts [PART]"),
    }
}
