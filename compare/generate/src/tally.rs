//! How often each rejection number came for each kind of line.

use daybook::book::MOST_PERIODS;
use daybook::line::KINDS;

/// The numbers that can come for each kind; 0 is accepted. Lines of no kind can only be unreadable.
pub const CAN_COME: [(&str, &[u64]); 14] = [
    ("set", &[0, 22, 31]),
    ("ctr", &[0, 21, 22, 31]),
    ("def", &[0, 1, 20, 21, 22, 29, 30, 31]),
    ("enr", &[0, 2, 21, 22, 23, 28, 31, 40]),
    ("demmespc", &[0, 1, 2, 21, 22, 24, 30, 31]),
    ("i", &[0, 2, 20, 21, 22, 24, 30, 31]),
    ("demcf", &[0, 1, 2, 3, 4, 5, 6, 7, 8, 21, 22, 30, 31]),
    ("adc", &[0, 2, 21, 22, 25, 26, 31]),
    ("ri", &[0, 2, 21, 22, 27, 28, 31]),
    ("cdt", &[0, 2, 21, 22, 27, 28, 31, 40]),
    ("demmhs", &[0, 2, 6, 21, 30, 31]),
    ("sus", &[0, 2, 21, 22, 31]),
    ("jour", &[0, 21, 31]),
    ("?", &[31]),
];

const NUMBERS: [u64; 22] = [0, 1, 2, 3, 4, 5, 6, 7, 8, 20, 21, 22, 23, 24, 25, 26, 27, 28, 29, 30, 31, 40];

#[derive(Clone)]
pub struct Tally {
    /// A row for each kind, a column for each number from 0 to 40.
    counts: [[u64; 41]; 14],
    /// Points in the closing listings, and those of them with 24 periods.
    points: u64,
    full_points: u64,
    /// Points whose two advances differ.
    converted_points: u64,
}

impl Default for Tally {
    fn default() -> Tally {
        Tally { counts: [[0; 41]; 14], points: 0, full_points: 0, converted_points: 0 }
    }
}

/// The row of a line's kind; the last is for lines of no kind.
fn row(line: &[u8]) -> usize {
    let kind = line.split(|byte| *byte == b';').next().unwrap_or(&[]);
    KINDS.iter().position(|(name, _)| name.as_bytes() == kind).unwrap_or(KINDS.len())
}

impl Tally {
    /// Counts a list by its lines and the output's answer lines.
    pub fn add_list(&mut self, input: &[u8], output: &[u8]) {
        let mut lines: Vec<&[u8]> = input.split(|byte| *byte == b'\n').collect();
        if lines.last().is_some_and(|line| line.is_empty()) {
            lines.pop();
        }
        let mut answers = output.split(|byte| *byte == b'\n');
        for (line, answer) in lines.iter().zip(&mut answers) {
            let number = answer.split(|byte| *byte == b';').nth(2);
            let number = number.and_then(|field| std::str::from_utf8(field).ok()).and_then(|field| field.parse().ok());
            let number: usize = number.expect("an answer line has a number");
            self.counts[row(line)][number] += 1;
        }
        self.add_listing(answers);
    }

    /// Counts the periods of each point up to its total.
    fn add_listing<'a>(&mut self, lines: impl Iterator<Item = &'a [u8]>) {
        let mut periods = 0;
        for line in lines {
            if line.starts_with(b"total;") {
                self.points += 1;
                self.full_points += u64::from(periods == MOST_PERIODS);
                let mut advances = line.split(|byte| *byte == b';').skip(2);
                self.converted_points += u64::from(advances.next() != advances.next());
                periods = 0;
            } else {
                periods += 1;
            }
        }
    }

    pub fn lines(&self) -> u64 {
        self.counts.iter().flatten().sum()
    }

    /// How deep the lists went.
    pub fn depth(&self) -> String {
        let Tally { points, full_points, converted_points, .. } = self;
        format!(
            "{points} points in the closing listings, {full_points} of them with 24 periods, \
             {converted_points} with an Nm³ advance of its own"
        )
    }

    pub fn table(&self) -> String {
        let mut text = format!("{:9}", "kind");
        NUMBERS.iter().for_each(|number| text += &format!("{number:>7}"));
        text += "\n";
        for ((kind, can_come), counts) in CAN_COME.iter().zip(&self.counts) {
            text += &format!("{kind:9}");
            for number in &NUMBERS {
                let count = counts[*number as usize];
                let dash = count == 0 && !can_come.contains(number);
                text += &if dash { format!("{:>7}", "-") } else { format!("{count:>7}") };
            }
            text += "\n";
        }
        text
    }

    /// The pairs of kind and number that can come and never came.
    pub fn never_came(&self) -> Vec<(&'static str, u64)> {
        let pairs = CAN_COME.iter().zip(&self.counts).flat_map(|((kind, can_come), counts)| {
            can_come.iter().filter(|number| counts[**number as usize] == 0).map(|number| (*kind, *number))
        });
        pairs.collect()
    }

    /// The pairs that came and are not in the table of those that can.
    pub fn came_unforeseen(&self) -> Vec<(&'static str, u64)> {
        let mut pairs = Vec::new();
        for ((kind, can_come), counts) in CAN_COME.iter().zip(&self.counts) {
            for (number, count) in counts.iter().enumerate() {
                if *count > 0 && !can_come.contains(&(number as u64)) {
                    pairs.push((*kind, number as u64));
                }
            }
        }
        pairs
    }
}
