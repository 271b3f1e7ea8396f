//! How many programs were compared, by group and by answer.

use std::collections::hash_map::DefaultHasher;
use std::collections::HashSet;
use std::hash::{Hash, Hasher};
use std::process::exit;

#[derive(Default)]
pub struct Counts {
    all: usize,
    /// The groups by their names, and how many programs each has.
    groups: Vec<(String, usize)>,
    /// Whether the group is one of generated programs, and the distinct ones of
    /// all such groups.
    generated: bool,
    distinct: HashSet<u64>,
    /// Accepted at 0, refused with a number at that number.
    by_number: [usize; 32],
}

impl Counts {
    /// The generated programs that follow are counted under this name.
    pub fn group(&mut self, name: &str) {
        self.groups.push((name.to_string(), 0));
        self.generated = true;
    }

    /// The same of programs that are listed and not generated.
    pub fn listed_group(&mut self, name: &str) {
        self.group(name);
        self.generated = false;
    }

    pub fn all(&self) -> usize {
        self.all
    }

    pub fn is_generated(&self) -> bool {
        self.generated
    }

    pub fn distinct(&self) -> usize {
        self.distinct.len()
    }

    /// The programs with this answer: 0, or the number of a refusal.
    pub fn with(&self, number: u8) -> usize {
        self.by_number[usize::from(number)]
    }

    pub fn count(&mut self, file: &[u8], number: u8) {
        self.all += 1;
        self.groups.last_mut().expect("a group").1 += 1;
        self.by_number[usize::from(number)] += 1;
        if self.generated {
            let mut hasher = DefaultHasher::new();
            file.hash(&mut hasher);
            self.distinct.insert(hasher.finish());
        }
    }

    /// Counts what was counted elsewhere, too.
    pub fn add(&mut self, other: Counts) {
        self.all += other.all;
        self.groups.extend(other.groups);
        self.distinct.extend(other.distinct);
        for (programs, more) in self.by_number.iter_mut().zip(other.by_number) {
            *programs += more;
        }
    }

    /// Prints the groups, and all programs by their answers.
    pub fn report(&self, accepted: &str, numbers: impl IntoIterator<Item = u8>) {
        for (name, programs) in &self.groups {
            println!("{programs:>9} {name}");
        }
        println!("{:>9} in all", self.all);
        println!("{:>9} distinct generated", self.distinct());
        println!("{:>9} {accepted}", self.with(0));
        for number in numbers {
            println!("{:>9} refused with {number}", self.with(number));
        }
    }

    /// Fails if too few programs are refused with one of these numbers.
    pub fn assert_refused(&self, least: &[(u8, usize)]) {
        for &(number, least) in least {
            assert!(self.with(number) >= least, "too few refused with {number}");
        }
    }

    /// Prints a difference, and ends the process.
    pub fn differs(&self, file: &[u8], words: &str) -> ! {
        let hex: String = file.iter().map(|byte| format!("{byte:02X}")).collect();
        println!(
            "difference in program {} of {} bytes:",
            self.all,
            file.len()
        );
        println!("file     {hex}");
        println!("{words}");
        exit(1);
    }
}
