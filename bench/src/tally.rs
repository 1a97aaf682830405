//! What was compared: how many inputs of each function, by the number of the reply; and whether it was enough to say something.

use crate::functions::{Function, FUNCTIONS};

/// Replies have the numbers 0 to 13.
const NUMBERS: usize = 14;

#[derive(Default)]
pub struct Tally {
    by_function: [[usize; NUMBERS]; FUNCTIONS.len()],
}

impl Tally {
    pub fn inputs(&self) -> usize {
        self.by_function.as_flattened().iter().sum()
    }

    pub fn add(&mut self, function: &Function, number: u64) {
        let at = FUNCTIONS.iter().position(|f| f.name == function.name).expect("one of them");
        self.by_function[at][number as usize] += 1;
    }

    pub fn print(&self) {
        println!("{:<10}{}", "reply", (0..NUMBERS).map(|number| format!("{number:>8}")).collect::<String>());
        for (function, counts) in FUNCTIONS.iter().zip(&self.by_function) {
            println!("{:<10}{}", function.name, counts.iter().map(|count| format!("{count:>8}")).collect::<String>());
        }
    }

    /// Functions with fewer than so many accepted inputs, numbers that can come and did not, and numbers that came and cannot.
    pub fn lacks(&self, accepted: usize) -> Vec<String> {
        let mut lacks = Vec::new();
        for (function, counts) in FUNCTIONS.iter().zip(&self.by_function) {
            let name = function.name;
            if counts[0] < accepted {
                lacks.push(format!("{name}: {} inputs were accepted, {accepted} are asked", counts[0]));
            }
            for (number, count) in counts.iter().enumerate() {
                match function.replies.contains(&(number as u16)) {
                    true if *count == 0 => lacks.push(format!("{name}: no input had reply {number}")),
                    false if *count > 0 => lacks.push(format!("{name}: {count} inputs had reply {number}, which cannot come")),
                    _ => {}
                }
            }
        }
        lacks
    }
}

#[cfg(test)]
mod tests {
    use super::{Tally, FUNCTIONS};

    /// So many inputs of each function with each number that can come.
    fn full(count: usize) -> Tally {
        let mut tally = Tally::default();
        for function in FUNCTIONS {
            let replies = function.replies.iter().flat_map(|number| vec![*number; count]);
            replies.for_each(|number| tally.add(function, u64::from(number)));
        }
        tally
    }

    #[test]
    fn enough_lacks_nothing() {
        assert_eq!(full(3).lacks(3), Vec::<String>::new());
    }

    #[test]
    fn each_lack_is_said() {
        let mut tally = full(2);
        assert_eq!(tally.lacks(3).len(), FUNCTIONS.len());
        tally.by_function[0][1] = 0;
        tally.by_function[1][13] = 5;
        assert_eq!(tally.lacks(2), ["read: no input had reply 1", "analyse: 5 inputs had reply 13, which cannot come"]);
    }
}
