//! What a hart can hold, judged bit by bit.

use reference::{HART_WORDS, Hart, KEYS};

fn can_hold(key: &str, value: u64) -> bool {
    can_hold_with(&Hart::reset(), key, value)
}

/// The same with another start than reset.
fn can_hold_with(start: &Hart, key: &str, value: u64) -> bool {
    let word = KEYS.iter().position(|&name| name == key).unwrap();
    let mut words = start.to_words();
    words[word] = value;
    Hart::from_words(&words).can_hold()
}

#[test]
fn registers_within_a_mask() {
    for (key, mask) in [
        ("pc", !3),
        ("mepc", !3),
        ("sepc", !3),
        ("medeleg", 0xB3FF),
        ("mideleg", 0x222),
        ("mie", 0xAAA),
        ("mip", 0x222),
        ("lines", 0xA88),
        ("mcounteren", 5),
        ("scounteren", 5),
        ("mcountinhibit", 5),
        ("mcause", 0x8000_0000_0000_003F),
        ("scause", 0x8000_0000_0000_003F),
        ("mscratch", u64::MAX),
        ("sscratch", u64::MAX),
        ("mtval", u64::MAX),
        ("stval", u64::MAX),
        ("mcycle", u64::MAX),
        ("minstret", u64::MAX),
        ("mtvec", !2),
        ("stvec", !2),
        ("pmpaddr0", (1 << 54) - 1),
        ("pmpaddr7", (1 << 54) - 1),
        ("pmpaddr15", (1 << 54) - 1),
        ("satp", 1 << 63 | ((1 << 44) - 1)),
    ] {
        assert!(can_hold(key, 0) && can_hold(key, mask));
        for bit in 0..64 {
            assert_eq!(can_hold(key, 1 << bit), mask >> bit & 1 == 1, "{key} bit {bit}");
        }
    }
}

#[test]
fn mode() {
    for value in [2, 4, 5, 7, 1 << 32, 1 << 63 | 3, u64::MAX] {
        assert!(!can_hold("mode", value));
    }
    for value in [0, 1, 3] {
        assert!(can_hold("mode", value));
    }
}

#[test]
fn mstatus() {
    for bit in 0..64 {
        let holds = match bit {
            12 => false,
            _ => 0x7E_19AAu64 >> bit & 1 == 1,
        };
        assert_eq!(can_hold("mstatus", 0xA_0000_0000 ^ 1 << bit), holds, "bit {bit}");
    }
    assert!(can_hold("mstatus", 0xA_007E_19AA));
    assert!(!can_hold("mstatus", 0xA_007E_19AA ^ 1 << 11));
    assert!(!can_hold("mstatus", 0));
}

#[test]
fn configuration_bytes() {
    for byte in 0..=255u64 {
        let holds = byte & 0x60 == 0 && byte & 3 != 2;
        for place in 0..8 {
            assert_eq!(can_hold("pmpcfg0", byte << (8 * place)), holds);
            assert_eq!(can_hold("pmpcfg2", byte << (8 * place)), holds);
        }
    }
}

/// Request [9] of document 02.
#[test]
fn a_grain_up_to_10() {
    for grain in 0..64 {
        assert_eq!(can_hold("grain", grain), grain <= 10, "{grain}");
        assert_eq!(can_hold("grain", 1 << grain), grain <= 3, "2^{grain}");
    }
    for grain in [256 + 3, 1 << 32, 1 << 63 | 5, u64::MAX] {
        assert!(!can_hold("grain", grain));
    }
}

/// A=2 in any one byte, with any other bits, is held with a G of 0 alone.
#[test]
fn a_grain_of_1_or_more_bars_na4() {
    for grain in 0..=10 {
        let start = Hart { grain, ..Hart::reset() };
        for byte in 0..=255u64 {
            let holds = byte & 0x60 == 0 && byte & 3 != 2 && (grain == 0 || byte & 0x18 != 0x10);
            for place in 0..8 {
                for key in ["pmpcfg0", "pmpcfg2"] {
                    assert_eq!(can_hold_with(&start, key, byte << (8 * place)), holds);
                }
            }
        }
    }
}

#[test]
fn reset_can_be_held() {
    assert!(Hart::reset().can_hold());
    assert_eq!(Hart::reset().to_words().len(), HART_WORDS);
}
