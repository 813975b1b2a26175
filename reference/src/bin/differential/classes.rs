//! Classes of cases, counted so that one sees whether a stage has enough of each
//! to tell programs apart.

use std::fmt::{self, Display, Formatter};

use crate::report::Difference;

/// With fewer cases chance may leave a class short.
const ENOUGH: u64 = 10_000;

pub struct Class<T> {
    pub name: &'static str,
    /// At least one case in so many must be of this class.
    pub one_in: u64,
    pub holds: fn(&T) -> bool,
}

/// How many cases there were, and how many of each class. A case may be of several.
pub struct Tally<T: 'static> {
    what: &'static str,
    classes: &'static [Class<T>],
    pub cases: u64,
    counts: Vec<u64>,
}

impl<T> Tally<T> {
    pub fn new(what: &'static str, classes: &'static [Class<T>]) -> Tally<T> {
        Tally { what, classes, cases: 0, counts: vec![0; classes.len()] }
    }

    pub fn count(&mut self, case: &T) {
        self.cases += 1;
        for (class, count) in self.classes.iter().zip(&mut self.counts) {
            *count += u64::from((class.holds)(case));
        }
    }

    /// Fails where a class has too few of the cases.
    pub fn check(&self, stage: &str) -> Result<(), Difference> {
        if self.cases < ENOUGH {
            return Ok(());
        }
        for (Class { name, one_in, .. }, &count) in self.classes.iter().zip(&self.counts) {
            let least = self.cases / one_in;
            if count < least {
                return Err(Difference(format!(
                    "{stage}\n{self}: too few {name}, {count} where there must be {least}"
                )));
            }
        }
        Ok(())
    }
}

impl<T> Display for Tally<T> {
    fn fmt(&self, formatter: &mut Formatter) -> fmt::Result {
        write!(formatter, "{} {}", self.cases, self.what)?;
        if self.cases == 0 {
            return Ok(());
        }
        let classes = self.classes.iter().zip(&self.counts);
        let counts: Vec<String> =
            classes.map(|(class, count)| format!("{count} {}", class.name)).collect();
        write!(formatter, " ({})", counts.join(", "))
    }
}
