//! The registers of one hart, in the order of the lines of a saved text.

/// Number of words of a hart: one for each register, and the grain.
pub const HART_WORDS: usize = 43;

pub const USER: u64 = 0;
pub const SUPERVISOR: u64 = 1;
pub const MACHINE: u64 = 3;

/// A privilege mode, where only the three named can be meant.
#[derive(Clone, Copy, PartialEq, Eq, Debug)]
pub enum Mode {
    User,
    Supervisor,
    Machine,
}

impl Mode {
    pub const ALL: [Mode; 3] = [Mode::User, Mode::Supervisor, Mode::Machine];

    pub fn number(self) -> u64 {
        match self {
            Mode::User => USER,
            Mode::Supervisor => SUPERVISOR,
            Mode::Machine => MACHINE,
        }
    }

    pub fn from_number(number: u64) -> Option<Mode> {
        Mode::ALL.into_iter().find(|mode| mode.number() == number)
    }
}

/// One hart. Every field takes any value, since a state given may be one that
/// no hart can hold. `mip` is the software bits alone; `lines` are the others.
#[derive(Clone, Copy, PartialEq, Eq, Debug)]
pub struct Hart {
    pub mode: u64,
    pub pc: u64,
    pub mstatus: u64,
    pub medeleg: u64,
    pub mideleg: u64,
    pub mie: u64,
    pub mip: u64,
    pub lines: u64,
    pub mtvec: u64,
    pub mcounteren: u64,
    pub mcountinhibit: u64,
    pub mscratch: u64,
    pub mepc: u64,
    pub mcause: u64,
    pub mtval: u64,
    pub stvec: u64,
    pub scounteren: u64,
    pub sscratch: u64,
    pub sepc: u64,
    pub scause: u64,
    pub stval: u64,
    pub mcycle: u64,
    pub minstret: u64,
    /// The configuration bytes of pmpcfg0 and pmpcfg2, entry 0 first.
    pub pmpcfg: [u8; 16],
    /// As stored, whatever a read shows of them.
    pub pmpaddr: [u64; 16],
    pub satp: u64,
    /// G: protection is by 2^(G+2) bytes.
    pub grain: u64,
}

impl Hart {
    /// At reset, with a G of 0.
    pub fn reset() -> Hart {
        let mut words = [0; HART_WORDS];
        words[0] = MACHINE;
        words[1] = 0x1000;
        words[2] = 0xA_0000_0000;
        Hart::from_words(&words)
    }

    pub fn from_words(words: &[u64; HART_WORDS]) -> Hart {
        Hart {
            mode: words[0],
            pc: words[1],
            mstatus: words[2],
            medeleg: words[3],
            mideleg: words[4],
            mie: words[5],
            mip: words[6],
            lines: words[7],
            mtvec: words[8],
            mcounteren: words[9],
            mcountinhibit: words[10],
            mscratch: words[11],
            mepc: words[12],
            mcause: words[13],
            mtval: words[14],
            stvec: words[15],
            scounteren: words[16],
            sscratch: words[17],
            sepc: words[18],
            scause: words[19],
            stval: words[20],
            mcycle: words[21],
            minstret: words[22],
            pmpcfg: configuration_bytes(words[23], words[24]),
            pmpaddr: std::array::from_fn(|entry| words[25 + entry]),
            satp: words[41],
            grain: words[42],
        }
    }

    pub fn to_words(&self) -> [u64; HART_WORDS] {
        let mut words = [0; HART_WORDS];
        words[..25].copy_from_slice(&[
            self.mode,
            self.pc,
            self.mstatus,
            self.medeleg,
            self.mideleg,
            self.mie,
            self.mip,
            self.lines,
            self.mtvec,
            self.mcounteren,
            self.mcountinhibit,
            self.mscratch,
            self.mepc,
            self.mcause,
            self.mtval,
            self.stvec,
            self.scounteren,
            self.sscratch,
            self.sepc,
            self.scause,
            self.stval,
            self.mcycle,
            self.minstret,
            self.configuration_register(0),
            self.configuration_register(8),
        ]);
        words[25..41].copy_from_slice(&self.pmpaddr);
        words[41] = self.satp;
        words[42] = self.grain;
        words
    }

    /// The pmpcfg register whose lowest byte belongs to entry `lowest`, 0 or 8.
    pub fn configuration_register(&self, lowest: usize) -> u64 {
        (0..8).fold(0, |word, byte| word | u64::from(self.pmpcfg[lowest + byte]) << (8 * byte))
    }
}

fn configuration_bytes(pmpcfg0: u64, pmpcfg2: u64) -> [u8; 16] {
    std::array::from_fn(|entry| {
        let word = if entry < 8 { pmpcfg0 } else { pmpcfg2 };
        (word >> (8 * (entry % 8))) as u8
    })
}
