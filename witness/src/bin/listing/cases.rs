//! Instructions whose fields have every kind of value, for a listing.

use crate::told::SHIFTS;
use common::dice::Dice;
use second::operations::{Form, Operation};

/// How many bits each field after the operation code has.
fn widths(form: Form) -> &'static [u32] {
    match form {
        Form::RR => &[4, 4],
        Form::RX | Form::RS => &[4, 4, 4, 12],
        Form::SI => &[8, 4, 12],
        Form::SS => &[8, 4, 12, 4, 12],
    }
}

/// The bytes of one case: all fields 0; all at their greatest; each field in turn 0 and at its greatest, among any others; then any,
/// the first field going through its values.
pub fn make(operation: &Operation, number: usize) -> Vec<u8> {
    let mut dice = Dice::for_one(operation.code.into(), number as u64);
    let widths = widths(operation.form);
    let mut fields = 0;
    let mut bits = 0;
    for (i, width) in widths.iter().enumerate() {
        let greatest = (1 << width) - 1;
        let value = match number {
            0 => 0,
            1 => greatest,
            _ if number == 2 + 2 * i => 0,
            _ if number == 3 + 2 * i => greatest,
            _ if i == 0 && number >= 2 + 2 * widths.len() => number as u64 & greatest,
            _ if i == 1 && number % 2 == 0 && is_shift(operation) => 0,
            _ => dice.roll() & greatest,
        };
        fields = fields << width | value;
        bits += width;
    }
    let size = (bits / 8) as usize;
    let mut bytes = vec![operation.code];
    bytes.extend(&fields.to_be_bytes()[8 - size..]);
    bytes
}

/// Shifts ignore R3, and no witness tells it: every other one has it 0.
fn is_shift(operation: &Operation) -> bool {
    SHIFTS.contains(&operation.name)
}

#[cfg(test)]
mod tests {
    use super::*;
    use second::operations::{find, length, BCR, MVC, OPERATIONS};

    #[test]
    fn cases_have_their_length() {
        for row in OPERATIONS {
            let bytes = make(&row, 20);
            assert_eq!(bytes.len(), length(row.code) as usize, "{}", row.name);
            assert_eq!(bytes[0], row.code);
        }
    }

    #[test]
    fn every_field_is_0_and_at_its_greatest_by_itself() {
        let row = find(MVC).expect("MVC");
        assert_eq!(make(&row, 0), [MVC, 0, 0, 0, 0, 0]);
        assert_eq!(make(&row, 1), [MVC, 255, 255, 255, 255, 255]);
        assert_eq!((make(&row, 2)[1], make(&row, 3)[1]), (0, 255));
        assert_eq!((make(&row, 4)[2] >> 4, make(&row, 5)[2] >> 4), (0, 15));
        assert_eq!((make(&row, 10)[5], make(&row, 11)[5]), (0, 255));
    }

    #[test]
    fn every_mask_comes_up() {
        let row = find(BCR).expect("BCR");
        let mut masks: Vec<u8> = (6..22).map(|number| make(&row, number)[1] >> 4).collect();
        masks.sort_unstable();
        assert_eq!(masks, (0..16).collect::<Vec<u8>>());
    }
}
