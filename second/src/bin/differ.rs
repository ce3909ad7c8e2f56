//! Where two programs differ.
//!
//!     differ SHEETS ANSWERS OTHERS [MOST]
//!
//! Three files in the many-format. Prints up to MOST (default 5) sheets
//! whose answers differ, with both answers, and how many there are. The
//! exit code is 0 when all answers are the same.

use std::fs;
use std::process::ExitCode;

fn main() -> ExitCode {
    match run() {
        Ok(0) => ExitCode::SUCCESS,
        Ok(_) => ExitCode::FAILURE,
        Err(problem) => {
            eprintln!("differ: {problem}");
            ExitCode::from(2)
        }
    }
}

fn run() -> Result<usize, String> {
    let arguments: Vec<String> = std::env::args().skip(1).collect();
    if arguments.len() < 3 || arguments.len() > 4 {
        return Err("differ SHEETS ANSWERS OTHERS [MOST]".to_string());
    }
    let most: usize = match arguments.get(3) {
        Some(word) => word.parse().map_err(|_| "MOST is a number".to_string())?,
        None => 5,
    };
    let mut texts = Vec::new();
    for name in &arguments[..3] {
        texts.push(fs::read(name).map_err(|error| format!("{name}: {error}"))?);
    }
    let mut lists = Vec::new();
    for (text, name) in texts.iter().zip(&arguments) {
        lists.push(
            second::many::split(text).map_err(|offset| format!("{name}: bad at byte {offset}"))?,
        );
    }
    compare(&lists[0], &lists[1], &lists[2], most)
}

/// Shows where the answers differ, and tells how many do.
fn compare(
    sheets: &[&[u8]],
    answers: &[&[u8]],
    others: &[&[u8]],
    most: usize,
) -> Result<usize, String> {
    let lengths = (sheets.len(), answers.len(), others.len());
    if lengths.0 != lengths.1 || lengths.0 != lengths.2 {
        let (sheets, answers, others) = lengths;
        return Err(format!(
            "{sheets} sheets, {answers} answers, {others} others"
        ));
    }
    let mut different = 0;
    for (index, sheet) in sheets.iter().enumerate() {
        if answers[index] == others[index] {
            continue;
        }
        different += 1;
        if different <= most {
            println!("=== sheet {index} ({} bytes)", sheet.len());
            show(sheet, answers[index], others[index]);
        }
    }
    println!("{different} of {} answers differ", sheets.len());
    Ok(different)
}

fn show(sheet: &[u8], answer: &[u8], other: &[u8]) {
    let shown = sheet[..sheet.len().min(2_000)].escape_ascii().to_string();
    println!("{}", shown.replace("\\n", "\n").replace("\\t", "\t"));
    println!("--- answer");
    print!("{}", String::from_utf8_lossy(answer));
    println!("--- other");
    print!("{}", String::from_utf8_lossy(other));
}
