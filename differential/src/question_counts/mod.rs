//! Which questions came up in a run.

pub mod classes;

use classes::CLASSES;

/// Questions by how many may be asked and how many are, and those of the made rounds by class.
#[derive(Clone)]
pub struct QuestionCounts {
    sizes: [[u64; 17]; 17],
    classes: [u64; 12],
    /// By block of 256 candidates, and by place within a block.
    blocks: [u64; 256],
    lanes: [u64; 256],
}

impl Default for QuestionCounts {
    fn default() -> QuestionCounts {
        QuestionCounts {
            sizes: [[0; 17]; 17],
            classes: [0; 12],
            blocks: [0; 256],
            lanes: [0; 256],
        }
    }
}

/// How many may be asked, in rows of the summary.
const ROWS: [(usize, usize); 5] = [(1, 3), (4, 7), (8, 8), (9, 15), (16, 16)];

impl QuestionCounts {
    pub fn sized(&mut self, may_ask: u16, asked: u16) {
        self.sizes[may_ask.count_ones() as usize][asked.count_ones() as usize] += 1;
    }

    pub fn classified(&mut self, number: u16, classes: [bool; 12]) {
        self.blocks[usize::from(number >> 8)] += 1;
        self.lanes[usize::from(number & 0xff)] += 1;
        for (count, found) in self.classes.iter_mut().zip(classes) {
            *count += u64::from(found);
        }
    }

    pub fn add(&mut self, other: &QuestionCounts) {
        let sizes = self.sizes.iter_mut().flatten().chain(&mut self.classes);
        let own = sizes.chain(&mut self.blocks).chain(&mut self.lanes);
        let more = other.sizes.iter().flatten().chain(&other.classes);
        for (a, b) in own.zip(more.chain(&other.blocks).chain(&other.lanes)) {
            *a += b;
        }
    }

    /// What should have come up and did not: every size with every number that may be asked, every class.
    pub fn missing(&self) -> Vec<String> {
        let mut missing = Vec::new();
        for may_ask in 1..=16 {
            for size in (1..=may_ask).filter(|size| self.sizes[may_ask][*size] == 0) {
                missing.push(format!("questions of size {size} where D has {may_ask}"));
            }
        }
        for (name, count) in CLASSES.iter().zip(self.classes) {
            if count == 0 {
                missing.push(format!("questions: {name}"));
            }
        }
        for (place, counts) in self.blocks.iter().zip(&self.lanes).enumerate() {
            if *counts.0 == 0 || *counts.1 == 0 {
                missing.push(format!(
                    "questions in block {place} and at place {place} of one"
                ));
            }
        }
        missing
    }

    pub fn print(&self) {
        println!("\nquestions by size, from 1");
        for (first, last) in ROWS {
            let of_size =
                |size: usize| -> u64 { (first..=last).map(|d| self.sizes[d][size]).sum() };
            let cells: Vec<String> = (1..=last).map(|s| format!("{s}:{}", of_size(s))).collect();
            let range = if first == last {
                format!("{first}")
            } else {
                format!("{first} to {last}")
            };
            println!("  D has {range}: {}", cells.join(" "));
        }
        let found = |counts: &[u64]| counts.iter().filter(|count| **count > 0).count();
        println!("\nquestions of rounds made for their size or place");
        println!(
            "  in {} of 256 blocks of 256 candidates, at {} of 256 places within one",
            found(&self.blocks),
            found(&self.lanes)
        );
        for (name, count) in CLASSES.iter().zip(self.classes) {
            println!("  {count:>10}  {name}");
        }
    }
}
