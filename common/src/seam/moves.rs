//! Loops about short fields and about marks that are missing. A quick way may move a short field by its two ends, which must not run into
//! each other by real address, and one over a page's edge in two pieces; and it may set a mark where an instruction is sure to be done.

use super::layout::{any_marks, Layout, E, G, H, HALF, M, OPEN, PAGE, W};
use super::{Grid, Program};
use crate::assemble::{rr, rs, rx, ss, AR, BCT, CLC, D as DIVIDE, LM, LR, M as MULTIPLY, MVC, STM};
use crate::dice::Dice;

type Make = fn(&mut Grid, &mut Dice) -> Program;

/// The parts of this kind, with their cases.
const PARTS: [(u32, Make); 7] = [
    (LENGTHS * NINES * 2, near),
    (
        2 * OVER * FRAMES * STATES * CLASSES.len() as u32 * 2,
        over_edges,
    ),
    (2 * 2 * OVER * CLASSES.len() as u32 * 2, at_halves),
    (LENGTHS * 2 * 2, orders),
    (EACH * SEVENS, each_byte),
    (2 * 3 * 3 * ENDS * 3, runs_of_words),
    (2 * 2 * 3 * 3 * 3 * 3, pairs),
];

pub const CASES: u32 = {
    let mut cases = 0;
    let mut part = 0;
    while part < PARTS.len() {
        cases += PARTS[part].0;
        part += 1;
    }
    cases
};

pub fn moves(case: u32, dice: &mut Dice) -> Program {
    let mut left = case;
    for (cases, make) in PARTS {
        if left < cases {
            return make(&mut Grid(left), dice);
        }
        left -= cases;
    }
    unreachable!("there are {CASES} cases")
}

/// Lengths from 1 to 40, and some above.
const LENGTHS: u32 = 40 + LONG.len() as u32;
const LONG: [u32; 8] = [41, 48, 63, 64, 65, 128, 255, 256];

fn some_length(grid: &mut Grid) -> u32 {
    match grid.below(LENGTHS) {
        short if short < 40 => short + 1,
        long => LONG[long as usize - 40],
    }
}

/// The distances from -40 to 40 are nine times nine: a round has one, and the next round the next.
const NINES: u32 = 9;

/// Lengths that are moved alike, from the first to the last.
const CLASSES: [(u32, u32); 6] = [(1, 3), (4, 8), (9, 16), (17, 32), (33, 40), (41, 256)];

fn one_of_class(grid: &mut Grid, dice: &mut Dice) -> u32 {
    let (first, last) = grid.pick(&CLASSES);
    match dice.below(4) {
        0 => first,
        1 => last,
        _ => first + dice.below(last + 1 - first),
    }
}

/// Code in the first frame or in the last, begun; data on frames between them, so that there is one before it and one behind, and the
/// second field's pages on others. All pages of data have their marks.
fn ready(dice: &mut Dice) -> Layout {
    let mut layout = Layout::new(dice);
    let marks = any_marks(dice);
    layout.page(layout.code, OPEN | marks | dice.pick(&[0, 7]));
    let frame = 2 + dice.below(4) as u16;
    let mut others: Vec<u16> = (1..7_u16)
        .filter(|other| other.abs_diff(frame) > 1)
        .collect();
    dice.shuffle(&mut others);
    let frames = [frame, frame + 1, others[0], others[1]];
    let pages = [layout.data, layout.data + 1, layout.away, layout.away + 1];
    for (page, frame) in pages.into_iter().zip(frames) {
        layout.page(page, OPEN | W | G | frame);
    }
    layout.page(layout.code + 1, 0);
    layout.begin(layout.code * PAGE + 2 * dice.below(600));
    layout
}

/// Bytes of which each tells its place, or nearly all of which are alike: by the former a move is seen, by the latter a compare goes on.
fn fill(layout: &mut Layout, dice: &mut Dice, is_alike: bool, address: u32, count: u32) {
    let bytes: Vec<u8> = (0..count)
        .map(|_| match is_alike && !dice.once_in(40) {
            true => 0x7F,
            false => dice.byte(),
        })
        .collect();
    layout.put(address, &bytes);
}

/// The end of a loop of so many rounds: R14 goes on by R8, and R15 by R9.
fn close(mut layout: Layout, rounds: u32, (first, second): (u32, u32)) -> Program {
    if first != 0 {
        layout.add(rr(AR, 14, 8));
    }
    if second != 0 {
        layout.add(rr(AR, 15, 9));
    }
    layout.add(rx(BCT, 11, 0, 12, 0));
    layout.register(8, first);
    layout.register(9, second);
    layout.register(11, rounds);
    layout.finish()
}

/// Each length with each distance between its two fields, moved and compared: in one page, or through two pages on one frame.
fn near(grid: &mut Grid, dice: &mut Dice) -> Program {
    let bytes = some_length(grid);
    let distance = NINES * grid.below(NINES);
    let is_one = grid.pick(&[true, false]);
    let mut layout = ready(dice);
    let half = dice.pick(&[0, HALF]);
    let at = 0x300 + dice.below(0x200);
    let mut fields = [layout.data * PAGE + half + at; 2];
    if !is_one {
        fields[1] = beside(&mut layout, dice, half) + at;
        fields.swap(0, dice.below(2) as usize);
    }
    // So that no round but goes the quick way.
    layout.mark(layout.code, G);
    let is_alike = dice.once_in(2);
    fill(&mut layout, dice, is_alike, fields[0] - 48, bytes + 96);
    layout.register(14, fields[0]);
    layout.register(15, fields[1] + distance - 40);
    let mut codes = [CLC, MVC];
    dice.shuffle(&mut codes);
    for code in codes {
        layout.add(ss(code, (bytes - 1) as u8, 14, 0, 15, 0));
    }
    close(layout, NINES, (0, 1))
}

/// The frame of the data's page through another page: the whole of it, or the half that is asked for. Tells where that half begins.
fn beside(layout: &mut Layout, dice: &mut Dice, half: u32) -> u32 {
    let word = OPEN | W | G | layout.frame(layout.data);
    let page = layout.away;
    if dice.once_in(2) {
        layout.page(page, word);
        return page * PAGE + half;
    }
    layout.page(page, word | if half == 0 { M } else { M | H });
    page * PAGE
}

/// Which field lies over an edge: the first, the second, both.
const OVER: u32 = 3;

/// Where the page behind the edge lies: on the next frame, on an earlier one, on the same one.
const FRAMES: u32 = 3;

/// What it is: with its marks, without, with G alone, not to be written, closed.
const STATES: u32 = 5;

fn give_behind(layout: &mut Layout, dice: &mut Dice, (frame, state): (u32, u32)) {
    let page = layout.data + 1;
    let first = layout.frame(layout.data);
    let frame = [first + 1, first - 1, first][frame as usize];
    let marks = [W | G, 0, G, any_marks(dice), 0][state as usize];
    let barred = if state == 3 { E } else { 0 };
    layout.page(page, OPEN | marks | barred | frame);
    if state == 4 {
        let closed = 6 + dice.below(4);
        layout.give_next(dice, page, closed);
    }
}

/// Fields over the edge between two whole pages: from one byte before it on, or with the edge anywhere in them.
fn over_edges(grid: &mut Grid, dice: &mut Dice) -> Program {
    let code = grid.pick(&[MVC, CLC]);
    let over = grid.below(OVER);
    let behind = (grid.below(FRAMES), grid.below(STATES));
    let bytes = one_of_class(grid, dice);
    let is_before = grid.pick(&[true, false]);
    let mut layout = ready(dice);
    give_behind(&mut layout, dice, behind);
    if dice.once_in(8) {
        let marks = any_marks(dice);
        layout.mark(layout.data, marks);
    }
    let before = match is_before {
        true => bytes + 1,
        false => 1 + dice.below(bytes),
    };
    let first = layout.data * PAGE + PAGE - before;
    let second = match over {
        2 => also_over(dice, &layout, first),
        _ => elsewhere(&mut layout, dice, first, bytes),
    };
    let steps = match is_before {
        true => (1, if over == 2 { 1 } else { 0 }),
        false => dice.pick(&[(0, 0), (1, 0), (0, 1), (u32::MAX, 1)]),
    };
    let rounds = if is_before { 6 } else { 3 };
    both(
        layout,
        dice,
        (code, bytes),
        (first, second, over == 1),
        rounds,
        steps,
    )
}

/// Another field over an edge: over the same one, or over the one between the two other pages, at the same byte or near it.
fn also_over(dice: &mut Dice, layout: &Layout, first: u32) -> u32 {
    match dice.below(3) {
        0 => first + dice.below(81) - 40,
        1 => first + (layout.away - layout.data) * PAGE,
        _ => first + (layout.away - layout.data) * PAGE + dice.below(5) - 2,
    }
}

/// Another field: far off, in the same page, or near either part of the first one by real address alone.
fn elsewhere(layout: &mut Layout, dice: &mut Dice, first: u32, bytes: u32) -> u32 {
    let page = layout.other;
    let back = dice.below(bytes + 40);
    match dice.below(4) {
        0 => layout.away * PAGE + 0x400 + back,
        1 => first - back,
        2 => {
            layout.page(page, OPEN | W | G | layout.frame(layout.data + 1));
            page * PAGE + back
        }
        _ => {
            layout.page(page, OPEN | W | G | layout.frame(layout.data));
            page * PAGE + (first % PAGE + 8 - back).min(PAGE - bytes)
        }
    }
}

/// The loop of one instruction with two fields, which may have changed places.
fn both(
    mut layout: Layout,
    dice: &mut Dice,
    (code, bytes): (u8, u32),
    (first, second, is_turned): (u32, u32, bool),
    rounds: u32,
    steps: (u32, u32),
) -> Program {
    for address in [first, second] {
        fill(&mut layout, dice, code == CLC, address - 8, bytes + 24);
    }
    layout.register(14, first);
    layout.register(15, second);
    let (one, other) = if is_turned { (15, 14) } else { (14, 15) };
    layout.add(ss(code, (bytes - 1) as u8, one, 0, other, 0));
    close(layout, rounds, steps)
}

/// Fields at the end of a page of 2,048 bytes, in either half of its frame: behind it there is nothing.
fn at_halves(grid: &mut Grid, dice: &mut Dice) -> Program {
    let code = grid.pick(&[MVC, CLC]);
    let half = grid.pick(&[M, M | H]);
    let over = grid.below(OVER);
    let bytes = one_of_class(grid, dice);
    let marks = grid.pick(&[W | G, 0]);
    let mut layout = ready(dice);
    for page in [layout.data, layout.away] {
        let word = layout.word(page);
        layout.page(page, word | half);
    }
    layout.mark(layout.data, marks);
    let first = layout.data * PAGE + HALF - bytes - 1;
    let second = match over {
        2 => dice.pick(&[
            first,
            first - 1,
            first - 40,
            first + (layout.away - layout.data) * PAGE,
        ]),
        _ => dice.pick(&[layout.away * PAGE + 0x200, first - 300]),
    };
    let steps = (1, if over == 2 { 1 } else { 0 });
    both(
        layout,
        dice,
        (code, bytes),
        (first, second, over == 1),
        4,
        steps,
    )
}

/// What a compare finds: the byte that differs, if one does, and whether the second field's is the lower one.
type Find = Option<(u32, bool)>;

/// So many finds has a loop.
const SEVEN: u32 = 7;

/// Compares of each length that find all that there is to find, round by round: equal fields, and the first byte, one in the midst and
/// the last one low and high.
fn orders(grid: &mut Grid, dice: &mut Dice) -> Program {
    let bytes = some_length(grid);
    let is_over = grid.pick(&[true, false]);
    let marks = grid.pick(&[W | G, 0]);
    let middle = match bytes {
        1 | 2 => 0,
        _ => 1 + dice.below(bytes - 2),
    };
    let mut finds = vec![None];
    for place in [0, middle, bytes - 1] {
        finds.extend([Some((place, true)), Some((place, false))]);
    }
    dice.shuffle(&mut finds);
    compares(dice, bytes, (is_over, marks), &finds)
}

/// Lengths of which every byte is the one that differs, and the sevens of bytes that they have at most.
const EACH: u32 = 32;
const SEVENS: u32 = 5;

/// Compares that find each byte of a short field.
fn each_byte(grid: &mut Grid, dice: &mut Dice) -> Program {
    let bytes = 1 + grid.below(EACH);
    let first = SEVEN * grid.below(SEVENS);
    let finds: Vec<Find> = (first..first + SEVEN)
        .map(|place| Some((place % bytes, dice.once_in(2))))
        .collect();
    let is_over = dice.once_in(8);
    compares(dice, bytes, (is_over, W | G), &finds)
}

/// A loop that compares one field with others in a row, within a page or over its edge, one for each find.
fn compares(dice: &mut Dice, bytes: u32, (is_over, marks): (bool, u16), finds: &[Find]) -> Program {
    let mut layout = ready(dice);
    let behind = (dice.below(FRAMES), dice.below(3));
    give_behind(&mut layout, dice, behind);
    layout.mark(layout.data, marks);
    let one = layout.away * PAGE + dice.below(PAGE - bytes + 1);
    let others = match is_over {
        true => layout.data * PAGE + PAGE - bytes * dice.below(SEVEN) - dice.below(bytes) - 1,
        false => layout.data * PAGE + 0x300 + dice.below(0x100),
    };
    let field: Vec<u8> = (0..bytes)
        .map(|_| dice.pick(&[0x01, 0x55, 0x7F, 0x80, 0xFE]))
        .collect();
    layout.put(one, &field);
    for (at, find) in (others..).step_by(bytes as usize).zip(finds) {
        let other = found(dice, &field, *find);
        layout.put(at, &other);
    }
    layout.register(14, one);
    layout.register(15, others);
    let (one, other) = dice.pick(&[(14, 15), (15, 14)]);
    layout.add(ss(CLC, (bytes - 1) as u8, one, 0, other, 0));
    close(layout, finds.len() as u32, (0, bytes))
}

/// A field of which a compare with another one finds this. Behind the byte that differs are any.
fn found(dice: &mut Dice, field: &[u8], find: Find) -> Vec<u8> {
    let mut other = field.to_vec();
    if let Some((place, is_low)) = find {
        let place = place as usize;
        let byte = field[place];
        other[place] = match is_low {
            true => dice.pick(&[byte - 1, 0]),
            false => dice.pick(&[byte + 1, 0xFF]),
        };
        other[place + 1..].fill_with(|| dice.byte());
    }
    other
}

/// The end that a run of words comes to: of a whole page, with one behind it in each state; of either half.
const ENDS: u32 = STATES + 2;

/// LM and STM that end with their page, a word past it, or all but a word past it, on a page that may have no marks.
fn runs_of_words(grid: &mut Grid, dice: &mut Dice) -> Program {
    let code = grid.pick(&[LM, STM]);
    let words = grid.pick(&[1, 2, if code == STM { 16 } else { 7 }]);
    let place = grid.below(3);
    let end = grid.below(ENDS);
    let marks = grid.pick(&[0, G, W]);
    let mut layout = ready(dice);
    let behind = (dice.below(FRAMES), end.min(STATES - 1));
    give_behind(&mut layout, dice, behind);
    layout.mark(layout.data, marks);
    let at = layout.data * PAGE + give_end(&mut layout, end);
    let past = [0, 1, words - 1][place as usize];
    layout.register(14, at - 4 * words + 4 * past);
    layout.scatter(dice, at - 64, 128);
    let first = if words == 16 { 0 } else { dice.below(2) as u8 };
    layout.add(rr(AR, 1, 2));
    layout.add(rs(code, first, first + words as u8 - 1, 14, 0));
    // R8 and R9 are not loaded.
    let step = dice.pick(&[0, 0, 4, 4_u32.wrapping_neg()]);
    close(layout, 3, (step, 0))
}

/// Makes the data's page a half, if it is to be one; tells where it ends.
fn give_end(layout: &mut Layout, end: u32) -> u32 {
    if end < STATES {
        return PAGE;
    }
    let word = layout.word(layout.data);
    layout.page(layout.data, word | if end == STATES { M } else { M | H });
    HALF
}

/// M and D by an even register and by an odd one, D with a quotient, with one that is too great, and by zero, on a page that may have no
/// marks, or may be closed: in its midst, at its end, and behind that.
fn pairs(grid: &mut Grid, dice: &mut Dice) -> Program {
    let code = grid.pick(&[MULTIPLY, DIVIDE]);
    let register = grid.pick(&[2, 3]);
    let (high, divisor) = grid.pick(&[(0, 3), (0x4000_0000, 3), (0, 0)]);
    let marks = grid.pick(&[0, G, W]);
    let at = grid.pick(&[0x404, PAGE - 4, PAGE]);
    let state = grid.pick(&[1, 3, 4]);
    let mut layout = ready(dice);
    let behind = (dice.below(FRAMES), state);
    give_behind(&mut layout, dice, behind);
    let word = layout.word(layout.data) | if state == 3 { E } else { 0 };
    layout.page(layout.data, word);
    if state == 4 && at < PAGE && dice.once_in(2) {
        let closed = 6 + dice.below(4);
        layout.give_next(dice, layout.data, closed);
    }
    layout.mark(layout.data, marks);
    let address = layout.data * PAGE + at;
    let sign = dice.pick(&[1_u32, u32::MAX]);
    layout.put(address, &sign.wrapping_mul(divisor).to_be_bytes());
    layout.register(14, address);
    layout.register(6, high);
    // The pair anew in each round: of a negative one the high word is its sign.
    let low = dice.edge_word();
    layout.register(7, low);
    if high == 0 && dice.once_in(2) {
        layout.register(6, u32::MAX);
    }
    layout.add(rr(LR, 2, 6));
    layout.add(rr(LR, 3, 7));
    layout.add(rx(code, register, 0, 14, 0));
    close(layout, 3, (0, 0))
}
