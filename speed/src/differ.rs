//! Two machines and answers held against each other.

use crate::machine::{Answer, Machine};

fn said(answer: Answer) -> String {
    let Answer {
        number,
        place,
        count,
    } = answer;
    format!("{number} at {place:06X}, count {count}")
}

/// Where two lists first differ. Equal ones, which is nearly all, are found so at once.
fn first<T: PartialEq>(one: &[T], other: &[T]) -> Option<usize> {
    if one == other {
        return None;
    }
    let common = one.iter().zip(other).position(|(a, b)| a != b);
    common.or((one.len() != other.len()).then(|| one.len().min(other.len())))
}

fn list<T: PartialEq + Copy + Into<u32>>(
    what: &str,
    width: usize,
    one: &[T],
    other: &[T],
) -> Option<String> {
    let at = first(one, other)?;
    let show = |list: &[T]| match list.get(at) {
        Some(held) => format!("{:0width$X}", (*held).into()),
        None => "nothing".to_string(),
    };
    Some(format!("{what} {at} is {}, not {}", show(one), show(other)))
}

/// What differs first between a machine after its answer and what it should be, if anything does.
pub fn difference(got: (&Machine, Answer), wanted: (&Machine, Answer)) -> Option<String> {
    let ((one, said_one), (other, said_other)) = (got, wanted);
    if said_one != said_other {
        return Some(format!("{}, not {}", said(said_one), said(said_other)));
    }
    let scalars = |m: &Machine| [m.counter, m.code, m.mask];
    list(
        "of counter, code and mask number",
        6,
        &scalars(one),
        &scalars(other),
    )
    .or_else(|| list("register", 8, &one.registers, &other.registers))
    .or_else(|| list("the word of page", 4, &one.map, &other.map))
    .or_else(|| list("the byte at real address", 2, &one.memory, &other.memory))
}

#[cfg(test)]
mod tests {
    use super::*;

    const SAID: Answer = Answer {
        number: 7,
        place: 0,
        count: 3,
    };

    #[test]
    fn what_is_the_same_is_not_told() {
        let machine = Machine::new(4_096);
        assert_eq!(difference((&machine, SAID), (&machine, SAID)), None);
    }

    #[test]
    fn every_change_is_seen() {
        let changes: [fn(&mut Machine); 7] = [
            |machine| machine.counter = 2,
            |machine| machine.code = 1,
            |machine| machine.mask = 1,
            |machine| machine.registers[15] = 1,
            |machine| machine.map[511] = 1,
            |machine| machine.memory[4_095] = 1,
            |machine| machine.registers.truncate(15),
        ];
        let before = Machine::new(4_096);
        for (i, change) in changes.iter().enumerate() {
            let mut machine = before.clone();
            change(&mut machine);
            assert!(
                difference((&machine, SAID), (&before, SAID)).is_some(),
                "change {i}"
            );
        }
        let other = Answer { count: 4, ..SAID };
        assert!(difference((&before, other), (&before, SAID)).is_some());
    }
}
