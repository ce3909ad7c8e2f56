//! Where the two fields of a move or a compare lie. Each has a strip, two pages
//! behind one another in addresses: the same strip for both, two on the same
//! frames, two on frames of their own, or two looks at the halves of one frame.
//! A field that is to be refused lies over an edge, or right behind it, and cannot
//! be used from there on.

use crate::machine::{E, FRAME, G, H, M, S, U, W};
use common::dice::Dice;

pub const OPEN: u16 = U | S;

const PAGE: i32 = 4_096;
const HALF: i32 = 2_048;
const LAST_PAGE: u32 = 511;

/// What a machine is made for.
pub struct Task {
    pub stores: bool,
    pub length: i32,
    /// From the first field to the second, in addresses or in memory.
    pub distance: i32,
    pub refusal: Option<Refused>,
}

/// Which of the two fields cannot be used, and why.
pub struct Refused {
    pub fields: [bool; 2],
    pub fault: Fault,
}

/// Why the bytes behind an edge cannot be used: what is wrong with the word of
/// their page, or that the page has no such bytes, or that there is no such page.
#[derive(Clone, Copy, PartialEq)]
pub enum Fault {
    /// The word is zero.
    Absent,
    /// U is reset.
    NotUsable,
    /// An X bit is set.
    Reserved,
    /// S is reset.
    Privileged,
    PastMemory,
    /// E is set: of use for a field that is stored to.
    Closed,
    /// The page has 2,048 bytes, and the edge is their end.
    PastHalf,
    PastLastPage,
}

/// What is wrong with a word for any field.
const COMMON: [Fault; 5] = [
    Fault::Absent,
    Fault::NotUsable,
    Fault::Reserved,
    Fault::Privileged,
    Fault::PastMemory,
];

/// Two pages behind one another.
#[derive(Clone, Copy)]
pub struct Strip {
    pub page: u32,
    pub words: [u16; 2],
}

/// What the second field's strip has in common with the first's.
#[derive(Clone, Copy, PartialEq)]
enum Sharing {
    Pages,
    Frames,
    /// The frames, but the other way round.
    Crossed,
    /// A frame, of which a page shows a half.
    Halves,
    Nothing,
}

pub struct Layout {
    /// How many frames memory has.
    pub frames: u16,
    pub strips: [Strip; 2],
    /// Where each field begins, from the beginning of its strip.
    pub starts: [i32; 2],
    sharing: Sharing,
}

/// A refusal, for one machine in four.
pub fn some_refusal(stores: bool, dice: &mut Dice) -> Option<Refused> {
    if !dice.once_in(4) {
        return None;
    }
    let fields = dice.pick(&[
        [false, true],
        [false, true],
        [false, true],
        [true, false],
        [true, false],
        [true, true],
    ]);
    let fault = match dice.below(8) {
        0 => Fault::PastHalf,
        1 => Fault::PastLastPage,
        2 | 3 if stores && fields[0] => Fault::Closed,
        _ => dice.pick(&COMMON),
    };
    Some(Refused { fields, fault })
}

impl Layout {
    /// A layout in which nothing is in the way of a field but the end of all
    /// addresses; `spoil` has the other faults.
    pub fn some(task: &Task, dice: &mut Dice) -> Layout {
        let sharing = some_sharing(task, dice);
        let least = if sharing == Sharing::Nothing { 4 } else { 3 };
        let pages = some_pages(task, sharing, dice);
        let mut layout = Layout {
            frames: (3 + dice.below(3) as u16).max(least),
            strips: pages.map(|page| Strip {
                page,
                words: [0; 2],
            }),
            starts: some_starts(task, dice),
            sharing,
        };
        match sharing {
            Sharing::Halves => layout.take_halves(task, dice),
            _ => layout.take_frames(task, dice),
        }
        layout.mark(task, dice);
        if sharing == Sharing::Pages {
            layout.strips[1] = layout.strips[0];
        }
        layout
    }

    /// Gives the pages their frames and shapes.
    fn take_frames(&mut self, task: &Task, dice: &mut Dice) {
        let mut frames: Vec<u16> = (0..self.frames).collect();
        dice.shuffle(&mut frames);
        if dice.once_in(6) {
            // Neighbours on one frame.
            frames[1] = frames[0];
        }
        let end = self.starts[0].max(self.starts[1]) + task.length;
        let own = words(&frames[..2], end, dice);
        self.strips[0].words = own;
        self.strips[1].words = match self.sharing {
            Sharing::Nothing => words(&frames[2..], end, dice),
            Sharing::Crossed => [OPEN | own[1] & FRAME, OPEN | own[0] & FRAME],
            _ => own,
        };
    }

    /// Puts both fields on one frame, one of them at least in a page of half its
    /// size; or each in a half of its own, if they are so far apart.
    fn take_halves(&mut self, task: &Task, dice: &mut Dice) {
        let far = task.distance.abs();
        let (first, shapes) = if far >= task.length && dice.chance(1, 2) {
            let left = HALF - somewhere(task.length, far, dice);
            match task.distance > 0 {
                true => (left, [M, M | H]),
                false => (left + far, [M | H, M]),
            }
        } else {
            let (base, half) = dice.pick(&[(0, M), (HALF, M | H)]);
            let left = base + somewhere(0, HALF - far - task.length, dice);
            let shapes = dice.pick(&[[0, half], [half, 0], [half, half], [half, H]]);
            (left - task.distance.min(0), shapes)
        };
        let frame = dice.below(u32::from(self.frames)) as u16;
        for (field, at) in [first, first + task.distance].into_iter().enumerate() {
            let shape = shapes[field];
            self.starts[field] = at - if shape == M | H { HALF } else { 0 };
            self.strips[field].words = [OPEN | shape | frame, OPEN | frame];
        }
    }

    /// Marks from before, of each page by itself; and E where nothing is stored.
    fn mark(&mut self, task: &Task, dice: &mut Dice) {
        for (field, strip) in self.strips.iter_mut().enumerate() {
            let is_stored_to = task.stores && (field == 0 || self.sharing == Sharing::Pages);
            for word in &mut strip.words {
                *word |= dice.pick(&[0, 0, 0, G, W, W | G]);
                if !is_stored_to && dice.once_in(4) {
                    *word |= E;
                }
            }
        }
    }

    /// Where a field begins.
    pub fn address(&self, field: usize) -> u32 {
        self.strips[field].page * PAGE as u32 + self.starts[field] as u32
    }

    /// The words of pages that no longer let a field be used.
    pub fn spoil(&self, refused: &Refused, dice: &mut Dice) -> Vec<(u32, u16)> {
        let mut spoilt = Vec::new();
        for (field, strip) in self.strips.iter().enumerate() {
            if !refused.fields[field] {
                continue;
            }
            // The second field has a fault of its own, if it has the same edge.
            let fault = match refused.fault {
                Fault::PastLastPage => continue,
                Fault::PastHalf => Fault::PastHalf,
                _ if field == 1 => dice.pick(&COMMON),
                fault => fault,
            };
            // Now and then it is the page before the edge.
            let page = usize::from(fault != Fault::PastHalf && !dice.once_in(6));
            let word = self.spoilt(strip.words[page], fault, dice);
            spoilt.push((strip.page + page as u32, word));
        }
        spoilt
    }

    fn spoilt(&self, word: u16, fault: Fault, dice: &mut Dice) -> u16 {
        match fault {
            Fault::Absent => 0,
            Fault::NotUsable => word & !U,
            Fault::Reserved => word | dice.pick(&[0x0040, 0x0080, 0x0100]),
            Fault::Privileged => word & !S,
            Fault::PastMemory => word & !FRAME | dice.pick(&[self.frames, self.frames + 1, FRAME]),
            Fault::Closed => word | E,
            Fault::PastHalf => word & !H | M | dice.pick(&[0, H]),
            Fault::PastLastPage => word,
        }
    }
}

fn some_sharing(task: &Task, dice: &mut Dice) -> Sharing {
    match (dice.below(10), &task.refusal) {
        (0, None) => Sharing::Halves,
        (0 | 1, _) => Sharing::Nothing,
        (2, _) => Sharing::Crossed,
        // A field that is refused had best lie by itself.
        (3..=6, None) | (3 | 4, Some(_)) => Sharing::Pages,
        _ => Sharing::Frames,
    }
}

/// The first pages of two strips that have no page in common, or of the one for
/// both fields.
fn some_pages(task: &Task, sharing: Sharing, dice: &mut Dice) -> [u32; 2] {
    let one = dice.below(64);
    let other = (one + 1 + dice.below(63)) % 64;
    let mut pages = [one, other].map(|eight| eight * 8 + dice.below(7));
    if let Some(refused) = &task.refusal {
        for (page, is_refused) in pages.iter_mut().zip(refused.fields) {
            if is_refused && refused.fault == Fault::PastLastPage {
                *page = LAST_PAGE;
            }
        }
    }
    match sharing {
        Sharing::Pages => [pages[0].max(pages[1]); 2],
        _ => pages,
    }
}

/// The words of a strip in which fields come to this end. A page of 2,048 bytes
/// must be enough for them, or come second.
fn words(frames: &[u16], end: i32, dice: &mut Dice) -> [u16; 2] {
    let first = match end <= HALF {
        true => dice.pick(&[0, M, M | H]),
        false => dice.pick(&[0, 0, 0, H]),
    };
    let second = dice.pick(&[0, 0, 0, H, M, M | H]);
    [OPEN | first | frames[0], OPEN | second | frames[1]]
}

/// Where the fields begin: within the strip's first page, or about its edge.
fn some_starts(task: &Task, dice: &mut Dice) -> [i32; 2] {
    let (length, distance) = (task.length, task.distance);
    let first = match &task.refusal {
        Some(refused) => {
            let is_half = refused.fault == Fault::PastHalf;
            let edge = if is_half { HALF } else { PAGE };
            edge - some_cut(task, 0, refused.fields, dice)
        }
        None => match dice.below(9) {
            0 | 1 => {
                let room = dice.pick(&[HALF, PAGE]) - length - distance.abs();
                somewhere(0, room, dice) - distance.min(0)
            }
            // Right before the edge, or right behind it.
            2 => PAGE - dice.pick(&[0, length, distance, distance + length]),
            3 | 4 => PAGE - some_cut(task, 1, [true, false], dice),
            5 | 6 => PAGE - some_cut(task, 1, [false, true], dice),
            _ => PAGE - some_cut(task, 1, [true, true], dice),
        },
    };
    [first, first + distance]
}

/// How far before the edge the first field begins, if each of these fields is to
/// have so many bytes before it at least, and one behind it. If both cannot, the
/// first does.
fn some_cut(task: &Task, least: i32, fields: [bool; 2], dice: &mut Dice) -> i32 {
    let (first, second) = (least, least + task.distance);
    let more = task.length - 1 - least;
    let both = (first.max(second), first.min(second) + more);
    let (low, high) = match fields {
        [false, true] => (second, second + more),
        [true, true] if both.0 <= both.1 => both,
        _ => (first, first + more),
    };
    somewhere(low, high, dice)
}

/// A number within limits, often at one of them.
fn somewhere(low: i32, high: i32, dice: &mut Dice) -> i32 {
    if high <= low {
        return low;
    }
    match dice.below(10) {
        0 => low,
        1..=4 => high,
        _ => low + dice.below((high - low + 1) as u32) as i32,
    }
}
