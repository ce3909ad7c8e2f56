//! Sweeps over moves and compares at the ends of pages: both fields with their
//! own end, overlapping, refused at any byte; and the end of all pages.

use super::keep_code;
use super::reach::{give_data, give_pages, some_frames, some_next, NEXT, SHAPES};
use crate::draft::{rs, ss, Draft};
use crate::machine::{E, H, M};
use crate::operations as op;
use crate::scene::{Scene, ADDRESS_BITS, OPEN};
use common::dice::Dice;

/// Where a field lies by the end of its page: up to it, a byte short of it, a
/// byte past it, anywhere over it, or from it on.
const PLACES: u32 = 5;

const LENGTHS: [u32; 6] = [1, 2, 3, 8, 255, 256];

pub const MOVE_CASES: u32 = 2 * PLACES * PLACES * 20;
pub const OVERLAP_CASES: u32 = 8 * LAYOUTS * 4 * 2;
pub const REFUSAL_CASES: u32 = 6 * 3 * WAYS * 3;
pub const END_CASES: u32 = 6 * 7 * 3;

/// The displacement of a field of this length.
fn placed(dice: &mut Dice, place: u32, end: u32, length: u32) -> u32 {
    match place {
        0 => end - length,
        1 => end - length - 1,
        2 => end - length + 1,
        3 => end - 1 - dice.below(length),
        _ => end,
    }
}

/// A page apart from code and data, with the page after it.
fn other_pages(scene: &Scene, dice: &mut Dice) -> u32 {
    loop {
        let page = dice.below(510);
        let apart = |a: u32| page > a + 1 || page + 1 < a;
        if apart(scene.code_page) && apart(scene.data_page) {
            return page;
        }
    }
}

fn add_fields(scene: &mut Scene, dice: &mut Dice, code: u8, length: u32, fields: [u32; 2]) {
    let (b1, d1) = scene.based(dice, fields[0]);
    let (b2, d2) = scene.based(dice, fields[1]);
    scene.add(ss(code, (length - 1) as u8, b1, d1, b2, d2));
}

/// Bytes about some places of the second field, and of the first as well if it
/// is to compare equal, or nearly.
fn put_about(scene: &mut Scene, dice: &mut Dice, code: u8, fields: [u32; 2], offsets: &[u32]) {
    for offset in offsets {
        let mut content: Vec<u8> = (0..6).map(|_| dice.byte()).collect();
        let near = |field: u32| (field + offset).wrapping_sub(3) & ADDRESS_BITS;
        scene.put(near(fields[1]), &content);
        if code == op::CLC {
            if dice.chance(1, 6) {
                content[dice.below(6) as usize] ^= dice.edge_byte();
            }
            scene.put(near(fields[0]), &content);
        }
    }
}

/// What was moved, folded; or the code that a compare set.
fn show(scene: &mut Scene, dice: &mut Dice, code: u8, first: u32, length: u32) {
    if code == op::CLC {
        keep_code(scene, dice);
        return;
    }
    scene.fold(dice, (first & !3) - 4, length / 4 + 3);
}

/// The shape of a field's page: past the end of a half page not often, since
/// that is refused.
fn some_shape(dice: &mut Dice, place: u32) -> (u16, u32) {
    if place >= 2 && dice.chance(7, 8) {
        SHAPES[usize::from(dice.chance(1, 8))]
    } else {
        dice.pick(&SHAPES)
    }
}

/// Both fields over the ends of their pages, or beside them.
pub fn moves(case: u32, dice: &mut Dice) -> Draft {
    let code = [op::MVC, op::CLC][(case % 2) as usize];
    let places = [case / 2 % PLACES, case / (2 * PLACES) % PLACES];
    let shapes = places.map(|place| some_shape(dice, place));
    let length = dice.pick(&LENGTHS);
    let mut scene = Scene::new(dice);
    let next = some_next(dice);
    give_data(&mut scene, dice, shapes[0].0, next);
    let other = other_pages(&scene, dice);
    let taken = [scene.code_frames, scene.data_frames].concat();
    let frames = some_frames(dice, &taken);
    let next = some_next(dice);
    give_pages(&mut scene, dice, other, frames, (shapes[1].0, next));
    let first = placed(dice, places[0], shapes[0].1, length);
    let second = placed(dice, places[1], shapes[1].1, length);
    let fields = [scene.data_at(first), other * 4_096 + second];
    // At the start, about both ends of pages, and at the last byte.
    let ends = [shapes[0].1 - first, shapes[1].1 - second];
    let offsets = [0, ends[0].min(length), ends[1].min(length), length - 1];
    put_about(&mut scene, dice, code, fields, &offsets);
    add_fields(&mut scene, dice, code, length, fields);
    show(&mut scene, dice, code, fields[0], length);
    scene.finish(dice)
}

/// How two pages, and two others on the same frames, lie in memory.
const LAYOUTS: u32 = 8;

/// A move whose fields overlap over the end of a page, or through other pages.
pub fn overlaps(case: u32, dice: &mut Dice) -> Draft {
    let apart = [1, 2, 7, -1, -2, -7, 0, 256][(case % 8) as usize];
    let layout = case / 8 % LAYOUTS;
    let place = case / (8 * LAYOUTS) % 4;
    let length = match case / (8 * LAYOUTS * 4) {
        0 => dice.pick(&[2, 3, 8, 9]),
        _ => dice.pick(&[30, 255, 256]),
    };
    let mut scene = Scene::new(dice);
    let other = other_pages(&scene, dice);
    let is_apart = lay_out(&mut scene, dice, layout, other);
    let end = if layout == 7 { 2_048 } else { 4_096 };
    let first = match place {
        0 => end - length / 2,
        1 => end - 1,
        2 => end - length + 1,
        // The source ends where the page does.
        _ => (i64::from(end - length) + apart) as u32,
    };
    let source = (i64::from(first) - apart) as u32;
    let second = match is_apart {
        true => other * 4_096 + source,
        false => scene.data_at(source),
    };
    let fields = [scene.data_at(first), second];
    let content: Vec<u8> = (0..24).map(|_| dice.byte()).collect();
    scene.put(second, &content);
    put_about(&mut scene, dice, op::MVC, fields, &[length / 2, length - 1]);
    add_fields(&mut scene, dice, op::MVC, length, fields);
    show(&mut scene, dice, op::MVC, fields[0], length);
    scene.finish(dice)
}

/// Gives the data pages, and perhaps two others, their words. Tells if the
/// second field lies in those others.
fn lay_out(scene: &mut Scene, dice: &mut Dice, layout: u32, other: u32) -> bool {
    let [low, high] = frames_behind(scene, dice);
    let page = scene.data_page;
    let words = match layout {
        // Behind one another in memory, the other way round, on one frame.
        0 => [OPEN | low, OPEN | high],
        1 => [OPEN | high, OPEN | low],
        2 => [OPEN | low, OPEN | low],
        // The second page is the first's upper half; or the first a half page.
        3 => [OPEN | low, OPEN | M | H | low],
        7 => [OPEN | M | dice.pick(&[0, H]) | low, OPEN | high],
        // The others on the same frames, likewise or crossed, or all on one.
        _ => [OPEN | low, OPEN | high],
    };
    let others = match layout {
        4 => [OPEN | low, OPEN | high],
        5 => [OPEN | high, OPEN | low],
        _ => [OPEN | E | low, OPEN | E | low],
    };
    for (index, word) in (0..).zip(words) {
        scene.draft.page(page + index, word);
    }
    for (index, word) in (0..).zip(others) {
        scene.draft.page(other + index, word);
    }
    matches!(layout, 4..=6)
}

/// Two frames, one right behind the other, that hold no code.
fn frames_behind(scene: &Scene, dice: &mut Dice) -> [u16; 2] {
    loop {
        let frames = some_frames(dice, &scene.code_frames);
        if frames[1] == frames[0] + 1 {
            return frames;
        }
    }
}

/// Ways in which a byte is refused where the one before it is found.
const WAYS: u32 = 6;

/// A long operand refused at its first byte, in its midst, or at its last.
pub fn refusals(case: u32, dice: &mut Dice) -> Draft {
    let kind = case % 6;
    let point = case / 6 % 3;
    let way = case / 18 % WAYS;
    let length = [8, 64, 256][(case / (18 * WAYS)) as usize];
    let mut scene = Scene::new(dice);
    let stores = matches!(kind, 0 | 4);
    let edge = refused_edge(&mut scene, dice, way, stores);
    if kind >= 4 {
        return refused_multiple(scene, dice, (kind == 4, point), length.min(64), edge);
    }
    let found = [0, length / 2, length - 1][point as usize];
    let trap = edge.wrapping_sub(found) & ADDRESS_BITS;
    let good = good_field(&mut scene, dice);
    let (code, fields) = match kind {
        0 => (op::MVC, [trap, good]),
        1 => (op::MVC, [good, trap]),
        2 => (op::CLC, [trap, good]),
        _ => (op::CLC, [good, trap]),
    };
    put_about(&mut scene, dice, op::MVC, fields, &[3, length / 2]);
    add_fields(&mut scene, dice, code, length, fields);
    scene.finish(dice)
}

/// The first address that is refused after one that is found.
fn refused_edge(scene: &mut Scene, dice: &mut Dice, way: u32, stores: bool) -> u32 {
    let (shape, next) = match way {
        // Absent; closed, to all or to stores; past memory.
        0 => (dice.pick(&[0, H]), 4),
        1 if stores => (0, 1),
        1 => (0, dice.pick(&[5, 6])),
        2 => (0, 7),
        // A half page, whatever comes after it.
        3 => (M, dice.below(NEXT)),
        _ => (M | H, dice.below(NEXT)),
    };
    if way < 5 {
        give_data(scene, dice, shape, next);
        return scene.data_at(if shape & M == 0 { 4_096 } else { 2_048 });
    }
    // Past the last page of all; the first of all is open.
    let [first, second] = scene.data_frames;
    scene.draft.page(511, OPEN | first);
    if scene.word_of(0) == 0 {
        scene.draft.page(0, OPEN | second);
    }
    0x20_0000
}

/// A field that is found, of any length, over the end of a page or not.
fn good_field(scene: &mut Scene, dice: &mut Dice) -> u32 {
    let page = other_pages(scene, dice);
    let taken = [scene.code_frames, scene.data_frames].concat();
    let frames = some_frames(dice, &taken);
    give_pages(scene, dice, page, frames, (0, 0));
    page * 4_096 + dice.pick(&[100, 3_839, 3_840, 3_841, 4_000, 4_095])
}

/// LM, or STM, refused at its first word, in its midst, or at its last.
fn refused_multiple(
    mut scene: Scene,
    dice: &mut Dice,
    (stores, point): (bool, u32),
    length: u32,
    edge: u32,
) -> Draft {
    let found = [0, length / 8 * 4, length - 4][point as usize];
    let code = if stores { op::STM } else { op::LM };
    let r1 = dice.below(16);
    let r3 = (r1 + length / 4 - 1) % 16;
    let (base, d) = scene.based(dice, edge - found);
    scene.add(rs(code, r1 as u8, r3 as u8, base, d));
    scene.finish(dice)
}

/// The end of page 511, and of all addresses, where a field would go on in page
/// 0 if it were found at all.
pub fn ends(case: u32, dice: &mut Dice) -> Draft {
    let kind = case % 6;
    let (shape, size) = [(0, 4_096), (M, 2_048), (M | H, 2_048)][(case / 42) as usize];
    let length = match kind {
        0 | 1 => 4 * (1 + dice.below(16)),
        _ => dice.pick(&LENGTHS),
    };
    let unit = if kind < 2 { 4 } else { 1 };
    let end = 0x1F_F000 + size;
    let target = match case / 6 % 7 {
        0 => end - length,
        1 => end - length + unit,
        2 => end - unit,
        3 => end,
        4 => 0x20_0000,
        5 => 0x100_0000 - unit,
        _ => 0x100_0000 - length,
    };
    let mut scene = Scene::new(dice);
    let [low, high] = frames_behind(&scene, dice);
    scene.draft.page(511, OPEN | shape | low);
    if scene.word_of(0) == 0 {
        scene.draft.page(0, OPEN | high);
    }
    let content: Vec<u8> = (0..16).map(|_| dice.byte()).collect();
    scene.put(target, &content);
    if kind < 2 {
        let code = [op::LM, op::STM][kind as usize];
        let r1 = dice.below(16);
        let r3 = (r1 + length / 4 - 1) % 16;
        let (base, d) = scene.based(dice, target);
        scene.add(rs(code, r1 as u8, r3 as u8, base, d));
        return scene.finish(dice);
    }
    let code = [op::MVC, op::CLC][(kind / 4) as usize];
    let good = scene.data_at(dice.pick(&[0, 500, 4_000]));
    let fields = match kind % 2 {
        0 => [target, good],
        _ => [good, target],
    };
    add_fields(&mut scene, dice, code, length, fields);
    keep_code(&mut scene, dice);
    scene.finish(dice)
}
