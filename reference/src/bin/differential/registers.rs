//! Every access to a CSR that the access rule of document 01 tells apart.

use std::collections::HashSet;

use reference::random::Random;
use reference::{Hart, Mode, STEP_WORDS, generate, status};

use crate::compare::compare_ways;
use crate::lent::Lent;
use crate::reasons::{NUMBERS, READ, REASONS, Reasons};
use crate::report::{Difference, Stage};
use crate::sizes::Sizes;

/// How many steps of a walk there are for each reason, counted by hand. A number
/// from C00 to C1F has 2 * 4 * 4 = 32 settings of TVM, mcounteren and scounteren,
/// any other 2 of TVM. Each setting has 3 modes, and in each of them 6 write
/// attempts and 1 read.
///
/// Present are 92 numbers of M that can be written (300 to 306, 30A, 320, 323 to
/// 33F, 340 to 344, 3A0, 3A2, 3B0 to 3BF, B00, B02, B03 to B1F, so 7 + 1 + 1 + 29 +
/// 5 + 2 + 16 + 2 + 29), 5 of M that cannot (F11 to F15), 11 of S (100, 104 to 106,
/// 10A, 140 to 144, 180) and 31 of U that cannot (C00, C02 to C1F): 139. Absent are
/// C01 and 4096 - 139 - 1 = 3956 others.
const EXPECTED: [u64; REASONS] = [
    // Above 4095.
    16 * 3 * 7 * 2,
    // Absent.
    3 * 7 * (3956 * 2 + 32),
    // Those of M in U and S, and those of S in U.
    7 * ((92 + 5) * 2 * 2 + 11 * 2),
    // Write attempts: F11 to F15 in M, C00 and C02 to C1F in all modes.
    6 * (5 * 2 + 31 * 3 * 32),
    // 180 in S with TVM.
    7,
    // Reads in U and S: of C03 to C1F, and of C00 and C02 in half of their settings.
    2 * (29 * 32 + 2 * 16),
    // Reads in U: of C00 and C02, in a quarter of their settings.
    2 * 8,
    // Those of M in M, by all or by a read; those of S in S and M, but for 180 with
    // TVM; reads of counters: all in M, C00 and C02 in half of their settings in S
    // and in a quarter in U.
    2 * (92 * 7 + 5) + (2 * 11 * 2 * 7 - 7) + (31 * 32 + 2 * 16 + 2 * 8),
];

/// How many different things `told_apart` can give: C00 to C1F have 32 settings as
/// above and the other numbers 2, each in 3 modes by 4 operations.
const TOLD_APART: usize = (32 * 32 + (4096 - 32) * 2) * 3 * 4;

/// Numbers above 4095: the first, the last, and others that lose their meaning when
/// cut to fewer bits.
const NO_NUMBERS: [u64; 16] = [
    0x1000,
    0x1100,
    0x1180,
    0x1300,
    0x1340,
    0x13A0,
    0x13BF,
    0x1B00,
    0x1C00,
    0x1F11,
    0x1FFF,
    0x2300,
    1 << 16 | 0x300,
    1 << 32 | 0x300,
    1 << 63 | 0x340,
    u64::MAX,
];
const WRITES: [u64; 3] = [1, 2, 3];
/// What mcounteren and scounteren can hold.
const ENABLES: [u64; 4] = [0, 1, 4, 5];

/// Every number with all that its access hangs on. The seven accesses of a setting
/// are from one state, which is random in all else. Gives how many steps there were
/// for each reason, which must be as many as counted by hand. These would not tell
/// whether one absent number was done twice in place of another, so no access that
/// is told apart may be missing.
pub fn walk(sizes: &Sizes) -> Result<Reasons, Difference> {
    let mut reasons = Reasons::new();
    let mut seen = HashSet::new();
    let settings = settings();
    let cases = sizes.walks * settings.len() as u64;
    Stage::new("registers", sizes, cases).run(|random, case| {
        let setting = &settings[case as usize % settings.len()];
        let hart = setting.hart(random);
        let map = generate::map(random, &hart);
        let lent = Lent::new(hart.to_words(), map.to_words());
        for words in accesses(random, setting.number) {
            reasons.count(&hart, words, compare_ways(&lent, words)?)?;
            seen.extend(told_apart(&hart, words));
        }
        Ok(())
    })?;
    if sizes.only.is_none() {
        reasons.check("registers", EXPECTED.map(|count| sizes.walks * count))?;
        check_seen(seen.len(), if sizes.walks == 0 { 0 } else { TOLD_APART })?;
    }
    Ok(reasons)
}

/// What the access rule can tell an access by: operation, number, mode, TVM and, for
/// C00 to C1F, mcounteren and scounteren. Nothing for numbers above 4095, nor for a
/// write attempt with another operand than 0, as each comes with 0 too.
fn told_apart(hart: &Hart, [step, number, operand]: [u64; STEP_WORDS]) -> Option<[u64; 6]> {
    let enables = match number {
        0xC00..=0xC1F => [hart.mcounteren, hart.scounteren],
        NUMBERS.. => return None,
        _ => [0, 0],
    };
    let tvm = hart.mstatus & status::TVM;
    (step == READ || operand == 0).then_some([step, number, hart.mode, tvm, enables[0], enables[1]])
}

fn check_seen(seen: usize, expected: usize) -> Result<(), Difference> {
    if seen == expected {
        return Ok(());
    }
    Err(Difference(format!(
        "registers\nthe walks do not have every access as they must: of those told apart \
         {seen} are among them, and {expected} must be"
    )))
}

/// What the access rule hangs on, the operation apart.
struct Setting {
    number: u64,
    mode: u64,
    tvm: bool,
    /// mcounteren and scounteren, for the numbers that hang on them.
    enables: Option<[u64; 2]>,
}

impl Setting {
    fn hart(&self, random: &mut Random) -> Hart {
        let hart = generate::holdable(random);
        let mstatus = status::with(hart.mstatus, status::TVM, self.tvm);
        let [mcounteren, scounteren] = self.enables.unwrap_or([hart.mcounteren, hart.scounteren]);
        Hart { mode: self.mode, mstatus, mcounteren, scounteren, ..hart }
    }
}

fn settings() -> Vec<Setting> {
    let mut settings = Vec::new();
    for number in (0..NUMBERS).chain(NO_NUMBERS) {
        for mode in Mode::ALL.map(Mode::number) {
            for tvm in [false, true] {
                let each = enables(number).into_iter();
                settings.extend(each.map(|enables| Setting { number, mode, tvm, enables }));
            }
        }
    }
    settings
}

fn enables(number: u64) -> Vec<Option<[u64; 2]>> {
    match number {
        0xC00..=0xC1F => {
            let each = |mcounteren| ENABLES.map(|scounteren| Some([mcounteren, scounteren]));
            ENABLES.into_iter().flat_map(each).collect()
        }
        _ => vec![None],
    }
}

/// A read; and write, set and clear, each once with operand 0, which is a write
/// attempt too, and once with a random one.
fn accesses(random: &mut Random, number: u64) -> Vec<[u64; STEP_WORDS]> {
    let mut accesses = vec![[READ, number, random.telling_word()]];
    for write in WRITES {
        let operand = generate::csr_operand(random, number);
        accesses.extend([[write, number, 0], [write, number, operand]]);
    }
    accesses
}
