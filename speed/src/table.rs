//! The tables of figures.

use crate::engine::ENGINES;
use crate::programs::Program;
use crate::sheet_timing::TimedSheet;
use crate::timing::Timed;

const TITLE: usize = 40;
const COLUMN: usize = 14;

fn figure(value: f64) -> String {
    match value {
        v if v < 100.0 => format!("{v:.1}"),
        v => format!("{v:.0}"),
    }
}

fn ratio(one: f64, other: f64) -> String {
    format!("{:.2}", one / other)
}

fn line(title: &str, columns: &[String]) {
    let columns: String = columns.iter().map(|c| format!("{c:>COLUMN$}")).collect();
    println!("{title:<TITLE$}{columns}");
}

fn title(program: &Program) -> String {
    format!("{}: {}", program.name, program.title)
}

fn heads(more: &[&str]) -> Vec<String> {
    let own = ENGINES.iter().map(|engine| engine.title());
    own.chain(more.iter().copied()).map(String::from).collect()
}

/// What the figures of these programs are for.
pub fn units(programs: &[&Program]) -> String {
    let mut units: Vec<&str> = Vec::new();
    let mut said = Vec::new();
    for program in programs {
        if units.contains(&program.unit) {
            continue;
        }
        units.push(program.unit);
        let alike = programs.iter().filter(|other| other.unit == program.unit);
        let names: Vec<String> = alike.map(|one| one.name.to_string()).collect();
        said.push(format!("one {} ({})", program.unit, names.join(", ")));
    }
    let mut said = said.join("; ");
    if programs
        .iter()
        .any(|program| program.units != program.instructions)
    {
        said += "\nof moves and compares: what a round takes, some of them and a branch, divided by their number";
    }
    said
}

pub fn print_times(timed: &[Timed]) {
    line("", &heads(&["Hercules", "to by page", "to Hercules"]));
    for one in timed {
        let (own, outside) = one.figures();
        let mut columns: Vec<String> = own.iter().map(|value| figure(*value)).collect();
        columns.push(outside.map_or("not here".to_string(), figure));
        columns.push(ratio(own[0], own[2]));
        columns.push(outside.map_or("-".to_string(), |value| ratio(own[0], value)));
        line(&title(one.program), &columns);
    }
}

pub fn print_counts(counted: &[(&Program, Vec<f64>)]) {
    line("", &heads(&["to by page"]));
    for (program, counts) in counted {
        let mut columns: Vec<String> = counts.iter().map(|value| figure(*value)).collect();
        columns.push(ratio(counts[0], counts[2]));
        line(&title(program), &columns);
    }
}

/// Whole sheets in microseconds; then, where something is moved, all of that divided by the number of moves, in nanoseconds.
pub fn print_sheets(timed: &[TimedSheet]) {
    let heads = [
        "moves", "this, us", "Rust, us", "this, ns", "Rust, ns", "to Rust",
    ];
    line("", &heads.map(String::from));
    for one in timed {
        let [own, other] = one.figures();
        let each = |value: f64| match one.moves {
            0 => "-".to_string(),
            moves => figure(value / f64::from(moves)),
        };
        let columns = [
            one.moves.to_string(),
            figure(own / 1e3),
            figure(other / 1e3),
            each(own),
            each(other),
            ratio(own, other),
        ];
        line(one.sheet.title, &columns);
    }
}
