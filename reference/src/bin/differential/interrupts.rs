//! Step 7 in every choice it can have to make.

use reference::random::Random;
use reference::{Hart, Mode, generate, mask, status};

use crate::compare::compare_step;
use crate::lent::Lent;
use crate::orders::{Orders, TAKE_INTERRUPT};
use crate::report::{Difference, Stage};
use crate::sizes::Sizes;

/// Every delegation (3 bits), what is enabled and what pends (6 each), MIE and
/// SIE, in three modes.
const CHOICES: u64 = 3 << 17;
/// In how many of the choices the single order of document 01 takes another
/// interrupt than request [2] does: 6 settings of mode, MIE and SIE in which S
/// takes interrupts (4 in U, 2 in S with SIE=1), times 3 * 3 * 3 = 27 ways in
/// which none of 3, 7 and 11 is both enabled and pending, times 21 ways in which
/// the first takeable of 9, 1 and 5 is delegated and a later one is not. Each of
/// these has 8 ways: 6 not takeable, 1 takeable by M and 1 by S. So there are
/// 8 * 8 - 7 * 7 = 15 ways with 9 first and 6 with 1 first.
const TELLING_CHOICES: u64 = 6 * 27 * 21;
/// The one interrupt that both a software bit and a line make pending.
const SEI: u64 = 1 << 9;

/// Every choice, each from a state that is random in all else. Gives how often
/// the two orders differ, which must be as often as counted by hand.
pub fn walk(sizes: &Sizes) -> Result<Orders, Difference> {
    let mut orders = Orders::default();
    Stage::new("interrupts", sizes, sizes.walks * CHOICES).run(|random, case| {
        let hart = choice(random, case);
        let map = generate::map(random, &hart).to_words();
        let lent = Lent::new(hart.to_words(), map);
        let words = [TAKE_INTERRUPT, random.telling_word(), random.telling_word()];
        orders.count(&lent, words);
        compare_step(&lent, words).map(drop)
    })?;
    let expected = sizes.walks * TELLING_CHOICES;
    if sizes.only.is_none() && orders.differing != expected {
        return Err(Difference(format!(
            "interrupts\nthe walks do not tell the two orders of interrupts apart as they must: \
             they differ in {} cases, and must in {expected}",
            orders.differing
        )));
    }
    Ok(orders)
}

fn choice(random: &mut Random, case: u64) -> Hart {
    let hart = generate::holdable(random);
    let enables = status::MIE | status::SIE;
    let pending = spread(case >> 9, mask::MIE);
    let [by_software, by_line] = random.pick(&[[SEI, SEI], [SEI, 0], [0, SEI]]);
    Hart {
        mideleg: spread(case, mask::MIDELEG),
        mie: spread(case >> 3, mask::MIE),
        mip: pending & (mask::SOFTWARE_INTERRUPTS & !SEI | by_software),
        lines: pending & (mask::LINES & !SEI | by_line),
        mstatus: hart.mstatus & !enables | spread(case >> 15, enables),
        mode: Mode::ALL[(case >> 17) as usize % 3].number(),
        ..hart
    }
}

/// The lowest bits of `number`, each put in the place of a bit of `mask`.
fn spread(number: u64, mask: u64) -> u64 {
    let places = (0..64).filter(|place| mask >> place & 1 == 1);
    places.zip(0..).map(|(place, bit)| (number >> bit & 1) << place).sum()
}
