//! How many comparisons to make, from which seed, and how loudly.

pub struct Sizes {
    pub seed: u64,
    pub walks: u64,
    pub steps: u64,
    pub runs: u64,
    pub queries: u64,
    pub texts: u64,
    pub calls: u64,
    pub paging: u64,
    pub feeds: u64,
    /// Tell every case before it is done.
    pub loud: bool,
    /// Do this one case of each stage, and tell what is lent to each call.
    pub only: Option<u64>,
}

const FULL: Sizes = Sizes {
    seed: 1,
    walks: 8,
    steps: 2_000_000,
    runs: 50_000,
    queries: 2_000_000,
    texts: 200_000,
    calls: 100_000,
    paging: 100_000,
    feeds: 600_000,
    loud: false,
    only: None,
};

const SMALL: Sizes = Sizes {
    seed: 1,
    walks: 1,
    steps: 100_000,
    runs: 2_000,
    queries: 100_000,
    texts: 10_000,
    calls: 5_000,
    paging: 5_000,
    feeds: 30_000,
    ..FULL
};

impl Sizes {
    pub fn from_arguments(arguments: impl Iterator<Item = String>) -> Result<Sizes, String> {
        let mut sizes = FULL;
        for argument in arguments {
            match argument.split_once('=') {
                Some((name, number)) => sizes.set(name, number)?,
                None if argument == "small" => sizes.make_small(),
                None if argument == "loud" => sizes.loud = true,
                None => return Err(format!("{argument}: not small, loud or NAME=NUMBER")),
            }
        }
        Ok(sizes)
    }

    fn make_small(&mut self) {
        let Sizes { seed, loud, only, .. } = *self;
        *self = Sizes { seed, loud, only, ..SMALL };
    }

    fn set(&mut self, name: &str, number: &str) -> Result<(), String> {
        let place = match name {
            "seed" => &mut self.seed,
            "walks" => &mut self.walks,
            "steps" => &mut self.steps,
            "runs" => &mut self.runs,
            "queries" => &mut self.queries,
            "texts" => &mut self.texts,
            "calls" => &mut self.calls,
            "paging" => &mut self.paging,
            "feeds" => &mut self.feeds,
            "only" => self.only.insert(0),
            _ => return Err(format!("{name}: no such size")),
        };
        *place = number.parse().map_err(|error| format!("{name}={number}: {error}"))?;
        Ok(())
    }
}
