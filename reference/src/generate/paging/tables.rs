//! A root, two tables of level 1 and two of level 0, each with entries at a few numbers.

use crate::protection::MEMORY;
use crate::random::Random;
use crate::sv39::{PAGE, pte};

const TABLES: u64 = 5;
const ENTRIES: usize = 512;
/// The tables of each level, the lowest first.
const OF_LEVEL: [[u64; 2]; 3] = [[3, 4], [1, 2], [0, 0]];
/// The rights of a page, without its flaws.
const RIGHTS: [u64; 10] = [
    ALL_RIGHTS,
    ALL_RIGHTS,
    ALL_RIGHTS,
    ALL_RIGHTS,
    ALL_RIGHTS,
    pte::R | pte::W,
    pte::R | pte::W,
    pte::R | pte::X,
    pte::R,
    pte::X,
];
const ALL_RIGHTS: u64 = pte::R | pte::W | pte::X;

pub struct Tables {
    /// The physical address of the first word.
    pub origin: u64,
    pub words: Vec<u64>,
    /// In which order the tables stand.
    turn: u64,
    /// The numbers with entries, for each level: both ends, and two neighbours.
    numbers: [[u64; 4]; 3],
    /// Where pages of 4 KiB are.
    frames: [u64; 4],
    /// How many pages in 16 are those of U.
    pub user: u64,
}

impl Tables {
    pub fn new(random: &mut Random) -> Tables {
        let bytes = TABLES * PAGE;
        let far = PAGE * random.below(MEMORY / PAGE - TABLES);
        let origin = random.pick(&[0, 0x8000_0000, MEMORY - bytes, far]);
        let frames = [
            origin,
            0x9000_0000 + PAGE * random.below(8),
            MEMORY - PAGE,
            PAGE * random.below(MEMORY / PAGE),
        ];
        let mut tables = Tables {
            origin,
            words: vec![0; TABLES as usize * ENTRIES],
            turn: random.below(2 * TABLES).saturating_sub(TABLES),
            numbers: std::array::from_fn(|_| numbers(random)),
            frames,
            user: random.pick(&[1, 8, 15]),
        };
        tables.fill(random);
        tables
    }

    /// The physical address of the root.
    pub fn root(&self) -> u64 {
        self.place(OF_LEVEL[2][0])
    }

    fn place(&self, table: u64) -> u64 {
        self.origin + PAGE * ((table + self.turn) % TABLES)
    }

    fn fill(&mut self, random: &mut Random) {
        for (level, tables) in OF_LEVEL.into_iter().enumerate() {
            for table in tables {
                for number in self.numbers[level] {
                    let entry = self.entry(random, level);
                    let offset = self.place(table) - self.origin;
                    self.words[(offset / 8 + number) as usize] = entry;
                }
            }
        }
    }

    fn entry(&self, random: &mut Random, level: usize) -> u64 {
        if level > 0 && !random.once_in(4) {
            let table = random.pick(&OF_LEVEL[level - 1]);
            let entry = self.place(table) >> 2 | pte::V | random.bits(IGNORED);
            return if random.once_in(24) { flawed_pointer(random, entry) } else { entry };
        }
        let frame = random.pick(&self.frames) >> (12 + 9 * level) << (12 + 9 * level);
        let user = if random.below(16) < self.user { pte::U } else { 0 };
        let rights = random.pick(&RIGHTS) | user | pte::A | pte::D;
        let entry = frame >> 2 | pte::V | rights | random.bits(IGNORED);
        if random.once_in(5) { flawed_page(random, entry, level) } else { entry }
    }

    /// The first byte of a virtual page that has entries at every level.
    pub fn page(&self, random: &mut Random) -> u64 {
        let numbers = self.numbers.map(|numbers| random.pick(&numbers));
        let address = numbers[2] << 30 | numbers[1] << 21 | numbers[0] << 12;
        if numbers[2] < 256 { address } else { address | !0 << 39 }
    }

    /// The physical addresses that a walk reads, and that of the page it leads to.
    pub fn visited(&self, address: u64) -> Vec<u64> {
        let mut visited = Vec::new();
        let mut table = self.root();
        for level in [2, 1, 0] {
            let shift = 12 + 9 * level;
            let place = table + 8 * (address >> shift & 511);
            visited.push(place);
            let word = place.checked_sub(self.origin).map(|offset| offset as usize / 8);
            let Some(&entry) = word.and_then(|word| self.words.get(word)) else { break };
            table = (entry >> 10 << 12) % MEMORY;
            if entry & (pte::R | pte::X) != 0 {
                visited.push(table | address & ((1 << shift) - 1));
                break;
            }
        }
        visited
    }
}

/// Bits of an entry that do not matter: G, and two for software.
const IGNORED: u64 = pte::G | 3 << 8;

/// Both ends of a table, and two neighbours: 255 and 256 are at the hole between the
/// addresses of a root.
fn numbers(random: &mut Random) -> [u64; 4] {
    let any = random.below(511);
    let one = random.pick(&[255, any]);
    [0, 511, one, one + 1]
}

fn flawed_pointer(random: &mut Random, entry: u64) -> u64 {
    match random.below(8) {
        0..=2 => entry | random.pick(&[pte::U, pte::A, pte::D, pte::U | pte::A | pte::D]),
        3 => entry | 1 << (54 + random.below(10)),
        4 => entry & !pte::V,
        5 => entry | pte::W,
        6 => random.below(MEMORY / PAGE) << 10 | pte::V,
        _ => entry ^ 1 << (10 + random.below(44)),
    }
}

fn flawed_page(random: &mut Random, entry: u64, level: usize) -> u64 {
    match random.below(10) {
        0 => entry & !pte::A,
        1 | 2 => entry & !pte::D,
        3 => entry & !pte::V,
        4 => entry & !ALL_RIGHTS | pte::W | random.pick(&[0, pte::X]),
        5 => entry | 1 << (54 + random.below(10)),
        6 => entry & !(ALL_RIGHTS | pte::U | pte::A | pte::D),
        7 => entry & !ALL_RIGHTS,
        _ => entry | 1 << (10 + random.below(9 * level.max(1) as u64)),
    }
}
