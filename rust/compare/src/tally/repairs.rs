//! What was compared of repairs.

use super::columns::columns;
use crate::repairs::{FirstFault, Repair};

// A volume that ends within a block is repaired, so no block has a 2. In the place of a due table any
// other block is refused with 8; a table has no fields of an inode and no time.
columns! {
    /// The answers of a repair, by where the first fault of the volume is. 0 is that something is
    /// left: of a sound volume all, and of one whose fault is in a block what stands before that.
    Repairs {
        sound: [0];
        header: [1, 2, 3, 4, 5, 6];
        table: [2, 5, 7, 8, 9, 10, 13];
        block: [0, 5, 7, 8, 9, 10, 11, 12, 14];
    }
}

impl Repairs {
    /// Counts an answer.
    pub fn note(&mut self, repair: &Repair) {
        let numbers = match repair.first_fault {
            FirstFault::Nowhere => &mut self.sound,
            FirstFault::Header => &mut self.header,
            FirstFault::Table => &mut self.table,
            FirstFault::Block => &mut self.block,
        };
        numbers[repair.answer.refusal as usize] += 1;
    }
}

#[cfg(test)]
mod tests {
    use super::{FirstFault, Repair, Repairs};
    use hdrfs::sys::Repaired;

    fn note(repairs: &mut Repairs, first_fault: FirstFault, refusal: u64) {
        let answer = Repaired {
            refusal,
            ..Default::default()
        };
        repairs.note(&Repair {
            first_fault,
            answer,
        });
    }

    #[test]
    fn what_is_missing_is_told() {
        assert!(Repairs::full().faults().is_empty());
        let mut repairs = Repairs::full();
        repairs.table[2] = 0;
        repairs.block[0] = 0;
        note(&mut repairs, FirstFault::Block, 2);
        note(&mut repairs, FirstFault::Nowhere, 0);
        let told = [
            "table: answer 2 came 0 times",
            "block: answer 0 came 0 times",
            "block: answer 2 came 1 times",
        ];
        assert_eq!(repairs.faults(), told);
        note(&mut repairs, FirstFault::Table, 2);
        note(&mut repairs, FirstFault::Header, 11);
        let told = [
            "header: answer 11 came 1 times",
            "block: answer 0 came 0 times",
            "block: answer 2 came 1 times",
        ];
        assert_eq!(repairs.faults(), told);
    }
}
