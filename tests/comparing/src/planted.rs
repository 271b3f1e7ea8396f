//! Planted faults, each of which the comparison must find.

pub struct Planted<T> {
    /// So many programs must tell each fault apart.
    least: usize,
    faults: Vec<Fault<T>>,
}

struct Fault<T> {
    name: String,
    fault: T,
    /// The numbers of those that told it apart.
    found: Vec<usize>,
}

impl<T> Planted<T> {
    pub fn new<S: Into<String>>(
        least: usize,
        faults: impl IntoIterator<Item = (S, T)>,
    ) -> Planted<T> {
        let faults = faults.into_iter().map(|(name, fault)| Fault {
            name: name.into(),
            fault,
            found: Vec::new(),
        });
        Planted {
            least,
            faults: faults.collect(),
        }
    }

    pub fn none() -> Planted<T> {
        Planted {
            least: 0,
            faults: Vec::new(),
        }
    }

    /// Tries those that too few have told apart; one number counts once.
    pub fn look(&mut self, number: usize, mut told_apart: impl FnMut(&T) -> bool) {
        for fault in &mut self.faults {
            let open = fault.found.len() < self.least && fault.found.last() != Some(&number);
            if open && told_apart(&fault.fault) {
                fault.found.push(number);
            }
        }
    }

    /// Prints by which of them each fault was found, and fails if one was not.
    pub fn report(&self, by: &str) {
        let mut all_found = 0;
        for fault in &self.faults {
            let (name, found) = (&fault.name, fault.found.len());
            match fault.found.first() {
                Some(first) if found == self.least => {
                    println!("planted fault ({name}) found: first by {by} {first}");
                    all_found += 1;
                }
                _ => println!("planted fault ({name}) NOT found: by {found} only"),
            }
        }
        let all = self.faults.len();
        println!("planted faults found: {all_found} of {all}");
        assert_eq!(all_found, all, "a planted fault was not found");
    }
}
