//! Sheets that break the rules for sheets, or come just short of it.

use common::dice::Dice;

/// The good sheet from which the list is made.
const LINES: [&str; 9] = [
    "PAGE\t10\t3003",
    "PAGE\t511\t3004",
    "BYTES\t12288\t41100005",
    "BYTES\t12290\t0006411000074120000807FE",
    "REG\t0\t00000001",
    "REG\t15\t0000A000",
    "REG\t7\tFFFFFFFF",
    "START\t00A000\t1\t9",
    "RUN\t3",
];

fn join(lines: &[String]) -> Vec<u8> {
    let mut text = Vec::new();
    for line in lines {
        text.extend_from_slice(line.as_bytes());
        text.push(b'\n');
    }
    text
}

fn base() -> Vec<String> {
    LINES.iter().map(|line| line.to_string()).collect()
}

/// The base sheet with one line written anew.
fn with_line(at: usize, line: &str) -> Vec<u8> {
    let mut lines = base();
    lines[at] = line.to_string();
    join(&lines)
}

/// The base sheet with one line given in raw bytes, line feed and all.
fn with_raw(at: usize, raw: &[u8]) -> Vec<u8> {
    let lines = base();
    let mut text = join(&lines[..at]);
    text.extend_from_slice(raw);
    text.extend_from_slice(&join(&lines[at + 1..]));
    text
}

/// Every way to misform a sheet that we thought of, and the nearest good
/// sheets beside them, in a fixed order.
pub fn ways() -> Vec<Vec<u8>> {
    let mut all = Vec::new();
    line_order(&mut all);
    line_shape(&mut all);
    decimals(&mut all);
    hexadecimals(&mut all);
    memory_ends(&mut all);
    twice(&mut all);
    whole_sheets(&mut all);
    sizes(&mut all);
    all
}

/// Lines missing, doubled, moved; sheets cut short.
fn line_order(all: &mut Vec<Vec<u8>>) {
    let lines = base();
    all.push(join(&lines));
    for at in 0..lines.len() {
        let mut fewer = lines.clone();
        fewer.remove(at);
        all.push(join(&fewer));
        let mut more = lines.clone();
        more.insert(at, lines[at].clone());
        all.push(join(&more));
        for to in 0..lines.len() {
            if to != at {
                let mut moved = lines.clone();
                let line = moved.remove(at);
                moved.insert(to, line);
                all.push(join(&moved));
            }
        }
        all.push(join(&lines[..at]));
        all.push(join(&lines[at..]));
        let mut last = lines.clone();
        last.push(lines[at].clone());
        all.push(join(&last));
    }
    // Neither PAGE nor BYTES nor REG is needed.
    all.push(b"START\t00A000\t0\t0\nRUN\t1\n".to_vec());
    all.push(b"START\t00A000\t0\t0\nRUN\t0\n".to_vec());
    all.push(b"RUN\t1\nSTART\t00A000\t0\t0\n".to_vec());
    all.push(b"START\t00A000\t0\t0\n".to_vec());
    all.push(b"RUN\t1\n".to_vec());
    all.push(b"START\t00A000\t0\t0\nSTART\t00A000\t0\t0\nRUN\t1\n".to_vec());
    all.push(b"START\t00A000\t0\t0\nRUN\t1\nRUN\t1\n".to_vec());
    all.push(b"START\t00A000\t0\t0\nREG\t1\t00000001\nRUN\t1\n".to_vec());
    all.push(
        b"PAGE\t10\t3003\nREG\t1\t00000001\nBYTES\t0\t00\nSTART\t00A000\t0\t0\nRUN\t1\n".to_vec(),
    );
}

/// Each line with its shape broken somewhere.
fn line_shape(all: &mut Vec<Vec<u8>>) {
    for (at, line) in LINES.iter().enumerate() {
        line_ends(all, at, line);
        key_words(all, at, line);
        tabs(all, at, line);
        // Another field.
        all.push(with_line(at, &format!("{line}\t0")));
        // One strange byte in the middle.
        for byte in [
            0x00, 0x0B, 0x0C, 0x0D, 0x1A, 0x20, 0x22, 0x7F, 0x80, 0xA0, 0xC0, 0xFF,
        ] {
            let mut raw = line.as_bytes().to_vec();
            raw.insert(line.len() - 1, byte);
            raw.push(b'\n');
            all.push(with_raw(at, &raw));
        }
        // The sheet ends with this line, with and without a line feed, and
        // in the middle of it.
        let lines = base();
        let mut cut = join(&lines[..=at]);
        cut.pop();
        all.push(cut.clone());
        cut.pop();
        all.push(cut);
    }
}

/// The end and the start of a line.
fn line_ends(all: &mut Vec<Vec<u8>>, at: usize, line: &str) {
    for end in [
        &b"\r\n"[..],
        b"\t\n",
        b" \n",
        b"\n\n",
        b"\0\n",
        b"",
        b"\r",
        b"\n\r\n",
        b"\t\t\n",
    ] {
        all.push(with_raw(at, &[line.as_bytes(), end].concat()));
    }
    for start in ["\t", " ", "\n", "#", "\u{feff}", "0"] {
        all.push(with_line(at, &format!("{start}{line}")));
    }
}

/// Another word, or none, for the key word.
fn key_words(all: &mut Vec<Vec<u8>>, at: usize, line: &str) {
    let keyword = line.split('\t').next().unwrap_or("");
    for other in [
        keyword.to_lowercase(),
        keyword[..keyword.len() - 1].to_string(),
        format!("{keyword}S"),
        format!("{keyword} "),
        String::new(),
        "NOTE".to_string(),
    ] {
        all.push(with_line(at, &line.replacen(keyword, &other, 1)));
    }
}

/// Something else for each tab, or the line's end there.
fn tabs(all: &mut Vec<Vec<u8>>, at: usize, line: &str) {
    for (offset, _) in line.match_indices('\t') {
        for instead in ["", " ", "\t\t", "\t ", " \t", ",", "\n"] {
            let changed = format!("{}{}{}", &line[..offset], instead, &line[offset + 1..]);
            all.push(with_line(at, &changed));
        }
        all.push(with_line(at, &line[..offset]));
        all.push(with_line(at, &line[..offset + 1]));
    }
}

/// Decimal fields: line, what stands before, the largest, what stands after.
const DECIMALS: [(usize, &str, u64, &str); 6] = [
    (0, "PAGE\t", 511, "\t3003"),
    (2, "BYTES\t", 65_535, "\t41"),
    (4, "REG\t", 15, "\t00000001"),
    (7, "START\t00A000\t", 3, "\t0"),
    (7, "START\t00A000\t0\t", 15, ""),
    (8, "RUN\t", 65_535, ""),
];

fn decimals(all: &mut Vec<Vec<u8>>) {
    for (at, before, largest, after) in DECIMALS {
        let mut values: Vec<String> = [
            "", "0", "1", "2", "3", "00", "01", "000", "+1", "-1", "-0", "+0", "1.0", "1.", ".1",
            " 1", "1 ", "1e1", "0x1", "1_0", "1,0", "A", "a", "F", "0A", "1A", "\u{661}",
            "\u{ff11}", "1\u{0}", "one", "''", "1/1", "1:", "/", ":",
        ]
        .iter()
        .map(|value| value.to_string())
        .collect();
        for value in [
            largest - 1,
            largest,
            largest + 1,
            largest * 10,
            largest * 10 + 9,
        ] {
            values.push(value.to_string());
        }
        values.push(format!("0{largest}"));
        values.push(format!("00000000000000000000{largest}"));
        // One more than a power of two, so that cutting gives 1.
        for power in [8, 9, 16, 24, 31, 32, 33, 48, 63, 64, 65, 127] {
            values.push(((1u128 << power) + 1).to_string());
        }
        values.push("340282366920938463463374607431768211457".to_string());
        values.push(format!("1{}1", "0".repeat(60)));
        values.push("9".repeat(200));
        values.push("1".repeat(1_000));
        for value in values {
            all.push(with_line(at, &format!("{before}{value}{after}")));
        }
    }
}

/// Hexadecimal fields of a fixed number of digits.
const HEXADECIMALS: [(usize, &str, usize, &str); 3] = [
    (0, "PAGE\t10\t", 4, ""),
    (6, "REG\t7\t", 8, ""),
    (7, "START\t", 6, "\t1\t9"),
];

fn hexadecimals(all: &mut Vec<Vec<u8>>) {
    for (at, before, digits, after) in HEXADECIMALS {
        for value in strange_numbers(digits).into_iter().chain(repeated(digits)) {
            all.push(with_line(at, &format!("{before}{value}{after}")));
        }
    }
    byte_lists(all);
}

/// Each digit so many times.
fn repeated(digits: usize) -> impl Iterator<Item = String> {
    "0123456789ABCDEF"
        .chars()
        .map(move |digit| digit.to_string().repeat(digits))
}

/// What stands for a number of so many digits, and mostly is none.
fn strange_numbers(digits: usize) -> Vec<String> {
    let zeros = "0".repeat(digits);
    let rest = &zeros[1..];
    vec![
        String::new(),
        zeros.clone(),
        "F".repeat(digits),
        "f".repeat(digits),
        "0".repeat(digits - 1),
        "0".repeat(digits + 1),
        "1".repeat(digits + 8),
        "0".repeat(200),
        format!("{rest}a"),
        format!("a{rest}"),
        format!("{rest}G"),
        format!("G{rest}"),
        format!("{rest}@"),
        format!("{rest}:"),
        format!("{rest}/"),
        format!("{rest}`"),
        format!("{rest} "),
        format!(" {rest}"),
        format!("0x{}", &zeros[2..]),
        format!("-{rest}"),
        format!("+{rest}"),
        format!("{rest}H"),
        format!("{rest}\u{0}"),
        format!("{zeros} "),
        format!("{zeros}\t"),
        format!("0{zeros}"),
    ]
}

/// The last field of BYTES, with too few digits, too many, and others.
fn byte_lists(all: &mut Vec<Vec<u8>>) {
    for digits in [
        0, 1, 2, 3, 4, 5, 7, 8, 31, 62, 63, 64, 65, 66, 67, 68, 128, 200,
    ] {
        all.push(with_line(
            2,
            &format!("BYTES\t12288\t{}", "4".repeat(digits)),
        ));
        all.push(with_line(2, &format!("BYTES\t100\t{}", "E".repeat(digits))));
    }
    for content in [
        "4a",
        "4A",
        "aA",
        "4G",
        "G4",
        "4 ",
        " 4",
        "0x",
        "4-",
        "4\t4",
        "41 10",
        "41,10",
        "4\u{0}",
        "41100005\u{20}",
    ] {
        all.push(with_line(2, &format!("BYTES\t12288\t{content}")));
    }
}

/// BYTES near the end of memory.
fn memory_ends(all: &mut Vec<Vec<u8>>) {
    for length in [1usize, 2, 31, 32, 33] {
        for past in 0..3 {
            let address = 65_536 - length + past;
            all.push(with_line(
                2,
                &format!("BYTES\t{address}\t{}", "41".repeat(length)),
            ));
        }
    }
    for address in [
        65_535u32,
        65_536,
        65_537,
        131_072,
        262_143,
        262_144,
        4_294_967_295,
    ] {
        all.push(with_line(2, &format!("BYTES\t{address}\t41")));
        all.push(with_line(2, &format!("BYTES\t{address}\t4141")));
    }
}

/// PAGE and REG given twice; BYTES may be.
fn twice(all: &mut Vec<Vec<u8>>) {
    for page in [0, 1, 10, 255, 256, 511] {
        for word in ["3003", "0000", "7003"] {
            let text = format!(
                "PAGE\t{page}\t3003\nPAGE\t9\t3004\nPAGE\t{page}\t{word}\nSTART\t00A000\t0\t0\nRUN\t1\n"
            );
            all.push(text.into_bytes());
        }
    }
    for number in 0..16 {
        let other = (number + 1) % 16;
        let text = format!(
            "REG\t{number}\t00000000\nREG\t{other}\t00000002\nREG\t{number}\t00000000\nSTART\t00A000\t0\t0\nRUN\t1\n"
        );
        all.push(text.into_bytes());
    }
    // Later bytes win.
    all.push(
        b"PAGE\t10\t3003\nBYTES\t12288\t41100005\nBYTES\t12291\t07\nBYTES\t12288\t41\nBYTES\t12291\t08\nSTART\t00A000\t0\t0\nRUN\t1\n"
            .to_vec(),
    );
    // An earlier fault is the one told.
    all.push(b"PAGE\t512\t3003\nPAGE\t10\t300\nSTART\t00A000\t0\t0\nRUN\t1\n".to_vec());
    all.push(b"PAGE\t10\t3003\nPAGE\t10\t300\nSTART\t00A000\t0\t0\nRUN".to_vec());
    all.push(b"PAGE\t10\t3003\nSTART\t00A000\t4\t0\n\n\n".to_vec());
    all.push(b"PAGE\t10\t3003\n\nSTART\t00A000\t0\t0\nRUN\t1\n".to_vec());
}

/// Small things that are no sheet at all.
const NO_SHEETS: [&[u8]; 39] = [
    b"",
    b"\n",
    b"\n\n",
    b"\r\n",
    b"\t\n",
    b" ",
    b"\0",
    b"\xFF\xFE",
    b"\0\n",
    b"BAD\t1\n",
    b"STOP\t7\t000000\t1\n",
    b"PAGE",
    b"PAGE\n",
    b"PAGE\t\n",
    b"PAGE\t\t\n",
    b"BYTES\n",
    b"REG\n",
    b"START\n",
    b"START\t\t\t\n",
    b"RUN\n",
    b"RUN\t\n",
    b"START\t00A000\t0\t0\nRUN",
    b"START\t00A000\t0\t0\nRUN\t",
    b"START\t00A000\t0\t0\nRUN\t1",
    b"START\t00A000\t0\t0\nRUN\t\n",
    b"START\t00A000\t0\t0\nRUN\t1\n\n",
    b"START\t00A000\t0\t0\nRUN\t1\nX",
    b"START\t00A000\t0\t0\nRUN\t1\n\0",
    b"START\t00A000\t0\t0\nRUN\t1\n ",
    b"START\t00A000\t0\t0\nRUN\t1\n\t",
    b"START\t00A000\t0\t0\nRUN\t1\nPAGE\t1\t3003\n",
    b"START\t00A000\t0\t0\nRUN\t1\r\n",
    b"START\t00A000\t0\t0\r\nRUN\t1\r\n",
    b"START\t00A000\t0\nRUN\t1\n",
    b"START\t00A000\nRUN\t1\n",
    b"START\t00A000\t0\t0\t0\nRUN\t1\n",
    b"START\t00A000\t0\t0\nRUN\t1\t1\n",
    b"START 00A000 0 0\nRUN 1\n",
    b"start\t00A000\t0\t0\nrun\t1\n",
];

fn whole_sheets(all: &mut Vec<Vec<u8>>) {
    all.extend(NO_SHEETS.iter().map(|text| text.to_vec()));
}

/// Sheets of just the largest size, and of more.
fn sizes(all: &mut Vec<Vec<u8>>) {
    all.push(sized(65_535));
    all.push(sized(65_536));
    all.push(sized(65_537));
    let mut unended = sized(65_537);
    unended.pop();
    all.push(unended);
    let mut bad_first = sized(65_536);
    bad_first[0] = b'p';
    all.push(bad_first);
    let mut bad_last = sized(65_536);
    let end = bad_last.len();
    bad_last[end - 2] = b'x';
    all.push(bad_last);
    let mut over = sized(65_537);
    over[0] = b'p';
    all.push(over);
    all.push(vec![b'\n'; 65_536]);
    all.push(vec![b'\n'; 65_537]);
    all.push(vec![0; 65_536]);
    all.push(vec![0; 65_537]);
    all.push(vec![0xFF; 70_000]);
    // All pages and all registers.
    let mut full = String::new();
    for page in 0..512 {
        full += &format!("PAGE\t{page}\t{:04X}\n", 0x3000 + page % 16);
    }
    full += "BYTES\t0\t4110000507FE\n";
    for number in (0..16).rev() {
        full += &format!("REG\t{number}\t{:08X}\n", 0x0010_0000 * number);
    }
    let ending = "START\t000000\t3\t15\nRUN\t2\n";
    all.push(format!("{full}{ending}").into_bytes());
    all.push(format!("{full}REG\t0\t00000000\n{ending}").into_bytes());
}

/// A good sheet of exactly so many bytes: most of it is BYTES lines.
fn sized(size: usize) -> Vec<u8> {
    let head = "PAGE\t10\t3003\nBYTES\t12288\t41100005\n";
    let tail = "START\t00A000\t0\t0\nRUN\t1\n";
    let mut text = head.to_string();
    // A full line has 6 + 5 + 1 + 64 + 1 bytes.
    let full = 77;
    while text.len() + tail.len() + 2 * full < size {
        text += &format!("BYTES\t20000\t{}\n", "5A".repeat(32));
    }
    // Two lines more: their lengths make up the rest. A line with a
    // one-digit address has 9 bytes and two for each byte of content, one
    // with a two-digit address one byte more.
    let left = size - text.len() - tail.len();
    let first = left / 2;
    for part in [first, left - first] {
        let address = if part % 2 == 1 { "8" } else { "16" };
        let bytes = (part - 8 - address.len()) / 2;
        text += &format!("BYTES\t{address}\t{}\n", "A5".repeat(bytes));
    }
    text += tail;
    text.into_bytes()
}

/// A good sheet with one byte or line (now and then more) changed.
pub fn mutate(dice: &mut Dice, sheet: &[u8]) -> Vec<u8> {
    let mut text = sheet.to_vec();
    let times = if dice.chance(1, 10) {
        2 + dice.below(3)
    } else {
        1
    };
    for _ in 0..times {
        if text.is_empty() {
            return text;
        }
        let at = dice.below(text.len() as u32) as usize;
        match dice.below(12) {
            0..=3 => text[at] = strange_or_usual(dice),
            4 | 5 => {
                text.remove(at);
            }
            6 | 7 => {
                let byte = strange_or_usual(dice);
                text.insert(at, byte);
            }
            8 => {
                // One letter or digit up or down.
                text[at] = text[at].wrapping_add(dice.pick(&[1, 255]));
            }
            9 => {
                text[at] ^= 1 << dice.below(8);
            }
            10 => text.truncate(at),
            _ => change_lines(dice, &mut text),
        }
    }
    text
}

fn strange_or_usual(dice: &mut Dice) -> u8 {
    match dice.below(4) {
        0 => dice.byte(),
        1 => dice.pick(b"\t\n\r \0aAfFgG"),
        2 => dice.pick(b"0123456789ABCDEF"),
        _ => dice.pick(b"\t\n0129"),
    }
}

fn change_lines(dice: &mut Dice, text: &mut Vec<u8>) {
    let mut lines: Vec<Vec<u8>> = text
        .split(|&byte| byte == b'\n')
        .map(|line| line.to_vec())
        .collect();
    let count = lines.len() as u32;
    let a = dice.below(count) as usize;
    let b = dice.below(count) as usize;
    match dice.below(4) {
        0 => lines.swap(a, b),
        1 => {
            let line = lines[a].clone();
            lines.insert(b, line);
        }
        2 => {
            lines.remove(a);
        }
        _ => lines.insert(a, Vec::new()),
    }
    *text = lines.join(&b'\n');
}

#[cfg(test)]
mod tests {
    use super::*;

    #[test]
    fn sized_sheets_have_their_size() {
        for size in [65_535, 65_536, 65_537] {
            assert_eq!(sized(size).len(), size);
        }
        assert!(crate::sheet::read(&sized(65_536)).is_ok());
        assert_eq!(crate::sheet::read(&sized(65_537)), Err(0));
    }

    #[test]
    fn there_are_several_hundred_ways() {
        let all = ways();
        let bad = all
            .iter()
            .filter(|text| crate::sheet::read(text).is_err())
            .count();
        assert!(all.len() > 700);
        assert!(bad > 500);
        assert!(bad < all.len());
    }
}
