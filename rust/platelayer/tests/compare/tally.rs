//! How often each call gave each number, and whether every row of the table was reached.

use platelayer::raw::Answer;

/// The calls, and the numbers that document 01 lets each of them give besides 0 to 6.
const CALLS: [(&str, &[usize]); 6] = [
    ("read", &[]),
    ("price", &[8, 9]),
    ("move", &[8, 9, 10]),
    ("split", &[8]),
    ("check", &[8, 9, 11, 12, 13]),
    ("walk", &[7, 8, 14]),
];
const NUMBERS: usize = 15;

#[derive(Default)]
pub struct Tally {
    pub books: usize,
    counts: [[usize; NUMBERS]; CALLS.len()],
}

impl Tally {
    pub fn count(&mut self, call: &str, answer: &Answer) {
        let row = CALLS.iter().position(|(name, _)| *name == call);
        self.counts[row.expect("one of the six")][answer[0] as usize] += 1;
    }

    pub fn inputs(&self) -> usize {
        self.counts.iter().flatten().sum()
    }

    pub fn print(&self) {
        let heads: String = (0..NUMBERS).map(|number| format!("{number:>7}")).collect();
        println!("{} books, {} inputs", self.books, self.inputs());
        println!("{:5}{heads}", "");
        for ((name, _), counts) in CALLS.iter().zip(&self.counts) {
            let counts: String = counts.iter().map(|count| format!("{count:>7}")).collect();
            println!("{name:5}{counts}");
        }
    }

    /// Every call gave every number it may give, and no other.
    pub fn assert_all_reached(&self) {
        for ((name, numbers), counts) in CALLS.iter().zip(&self.counts) {
            for (number, &count) in counts.iter().enumerate() {
                let may = number <= 6 || numbers.contains(&number);
                assert_eq!(count > 0, may, "{name} gave {number} {count} times");
            }
        }
    }
}
