//! A sheet in the making, and the small assembler used to fill it.

use crate::sheet::MEMORY;
pub use common::assemble::{rr, rs, rx, si, ss};

#[derive(Clone, Debug, Default)]
pub struct Draft {
    pub pages: Vec<(u32, u16)>,
    pub bytes: Vec<(u32, Vec<u8>)>,
    pub registers: Vec<(u8, u32)>,
    pub counter: u32,
    pub code: u32,
    pub mask: u32,
    pub budget: u32,
}

impl Draft {
    /// Gives a page its word; a page given before is given anew.
    pub fn page(&mut self, page: u32, word: u16) {
        if page > 511 {
            return;
        }
        for entry in &mut self.pages {
            if entry.0 == page {
                entry.1 = word;
                return;
            }
        }
        self.pages.push((page, word));
    }

    /// Puts bytes into real memory, as far as they fit.
    pub fn put(&mut self, real: u32, content: &[u8]) {
        let mut at = real as usize;
        for piece in content.chunks(32) {
            if at >= MEMORY {
                return;
            }
            let fits = piece.len().min(MEMORY - at);
            self.bytes.push((at as u32, piece[..fits].to_vec()));
            at += piece.len();
        }
    }

    pub fn register(&mut self, number: u8, value: u32) {
        for entry in &mut self.registers {
            if entry.0 == number {
                entry.1 = value;
                return;
            }
        }
        self.registers.push((number, value));
    }

    /// The sheet as text.
    pub fn text(&self) -> Vec<u8> {
        let mut text = String::new();
        for (page, word) in &self.pages {
            text += &format!("PAGE\t{page}\t{word:04X}\n");
        }
        for (address, content) in &self.bytes {
            text += &format!("BYTES\t{address}\t");
            for byte in content {
                text += &format!("{byte:02X}");
            }
            text += "\n";
        }
        for (number, value) in &self.registers {
            text += &format!("REG\t{number}\t{value:08X}\n");
        }
        text += &format!(
            "START\t{:06X}\t{}\t{}\n",
            self.counter, self.code, self.mask
        );
        text += &format!("RUN\t{}\n", self.budget);
        text.into_bytes()
    }
}
