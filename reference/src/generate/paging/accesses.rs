//! Accesses by page tables, and the modes and bits of mstatus that they hang on.

use super::{Paging, pick_page};
use crate::csr::number::{MSTATUS, SATP, SSTATUS};
use crate::generate::size;
use crate::hart::{Hart, MACHINE, SUPERVISOR, USER};
use crate::random::Random;
use crate::status::{self, MPRV, MXR, SUM};
use crate::sv39::PAGE;

const ADVANCE: u64 = 13;
const FETCH: u64 = 14;
const LOAD: u64 = 15;
const STORE: u64 = 16;

impl Paging {
    /// One access, and the hart that does it, most often in effective mode S or U.
    pub fn access(&self, random: &mut Random) -> (Hart, [u64; 3]) {
        let step = random.pick(&[FETCH, LOAD, LOAD, STORE, STORE]);
        let address = self.address(random);
        let mut hart = self.hart;
        hart.mstatus = hart.mstatus & !(SUM | MXR) | random.bits(SUM | MXR);
        let translated = self.suitable_mode(random);
        let effective = if random.once_in(24) { MACHINE } else { translated };
        let by_mpp = step != FETCH && random.once_in(3);
        hart.mstatus = status::with(hart.mstatus, MPRV, by_mpp);
        if by_mpp {
            hart.mstatus = status::with_mpp(hart.mstatus, effective);
            hart.mode = random.pick(&[USER, SUPERVISOR, MACHINE]);
        } else {
            hart.mode = effective;
        }
        if step == FETCH {
            hart.pc = address & !3;
        }
        (hart, [step, address, access_size(random)])
    }

    /// Mostly the one that most pages are for.
    fn suitable_mode(&self, random: &mut Random) -> u64 {
        let of_user = random.below(16) < self.user;
        match random.below(4) {
            0 => random.pick(&[USER, SUPERVISOR]),
            _ if of_user => USER,
            _ => SUPERVISOR,
        }
    }

    /// A step of a run: an access, or what changes how the next ones are judged.
    pub fn step(&self, random: &mut Random) -> [u64; 3] {
        let bits = random.bits(SUM | MXR | MPRV | status::MPP | status::SPP);
        match random.below(16) {
            0 => [1 + random.below(3), MSTATUS, bits],
            1 => [1 + random.below(3), SSTATUS, bits],
            2 => [1, SATP, self.hart.satp],
            3 => [8 + random.below(2), 0, 0],
            4 | 5 => [ADVANCE, self.address(random) & !3, 0],
            6 => [FETCH, 0, 0],
            _ => {
                let step = random.pick(&[LOAD, STORE]);
                [step, self.address(random), access_size(random)]
            }
        }
    }

    /// In one of the pages, often at its end; at times at an end of the addresses, or
    /// no canonical one.
    fn address(&self, random: &mut Random) -> u64 {
        let before = random.below(9);
        let page = pick_page(random, &self.pages);
        match random.below(24) {
            0 => page ^ 1 << (39 + random.below(25)),
            1 | 2 => random.pick(&[1u64 << 38, !0 << 38, 0]).wrapping_sub(before),
            3..=15 => page.wrapping_add(PAGE).wrapping_sub(before),
            16..=18 => page.wrapping_add(random.below(16)).wrapping_sub(4),
            _ => page + random.below(PAGE),
        }
    }
}

fn access_size(random: &mut Random) -> u64 {
    match random.below(40) {
        0 => size(random),
        1..=20 => 8,
        _ => 1 << random.below(4),
    }
}
