//! Saved texts of both forms: writing, reading back and converting.

use std::hint::black_box;

use reference::{Form, HART_WORDS, Hart, MAP_WORDS, Map, capi, convert, restore, save};

use crate::contest::{Work, contest};
use crate::mixes::setting;
use crate::processor::here;

const TEXTS: usize = 10_000;

/// Nanoseconds a text.
pub struct Row {
    pub name: &'static str,
    pub rust: f64,
    pub product: f64,
}

/// One call on texts, so many times by either contender.
pub struct Call {
    /// As `count` has it.
    pub word: &'static str,
    name: &'static str,
    pub rust: fn(&Texts, usize),
    pub product: fn(&Texts, usize),
}

pub const CALLS: [Call; 6] = [
    Call {
        word: "save",
        name: "save",
        rust: |texts, count| texts.save_rust(Form::First, count),
        product: |texts, count| texts.save_product(Form::First, count),
    },
    Call {
        word: "restore",
        name: "restore, map compiled",
        rust: |texts, count| texts.restore_rust(Form::First, count),
        product: |texts, count| texts.restore_product(Form::First, count),
    },
    Call {
        word: "save-second",
        name: "save, second form",
        rust: |texts, count| texts.save_rust(Form::Second, count),
        product: |texts, count| texts.save_product(Form::Second, count),
    },
    Call {
        word: "restore-second",
        name: "restore, second form",
        rust: |texts, count| texts.restore_rust(Form::Second, count),
        product: |texts, count| texts.restore_product(Form::Second, count),
    },
    Call {
        word: "convert-second",
        name: "convert to the second form",
        rust: |texts, count| texts.convert_rust(Form::Second, count),
        product: |texts, count| texts.convert_product(Form::Second, count),
    },
    Call {
        word: "convert-first",
        name: "convert to the first form",
        rust: |texts, count| texts.convert_rust(Form::First, count),
        product: |texts, count| texts.convert_product(Form::First, count),
    },
];

/// A hart with its map, its words and its texts.
pub struct Texts {
    hart: Hart,
    map: Map,
    words: [u64; HART_WORDS],
    first: Vec<u8>,
    second: Vec<u8>,
}

impl Texts {
    pub fn new() -> Texts {
        let (hart, map) = setting();
        let [first, second] = Form::ALL.map(|form| {
            let mut text = vec![0; form.length()];
            save(form, &hart, &mut text).expect("a state that either form has room for");
            text
        });
        Texts { hart, map, words: hart.to_words(), first, second }
    }

    fn text(&self, form: Form) -> &[u8] {
        match form {
            Form::First => &self.first,
            Form::Second => &self.second,
        }
    }

    fn save_rust(&self, form: Form, count: usize) {
        let mut saved = [0; Form::LONGEST];
        let saved = &mut saved[..form.length()];
        repeat(count, || save(form, black_box(&self.hart), black_box(saved)).is_ok());
    }

    fn save_product(&self, form: Form, count: usize) {
        let mut saved = [0; Form::LONGEST];
        let saved = &mut saved[..form.length()];
        repeat(count, || capi::save(form.number(), black_box(&self.words), black_box(saved)) == 0);
    }

    fn restore_rust(&self, form: Form, count: usize) {
        repeat(count, || black_box(restore(form, black_box(self.text(form)))).is_ok());
    }

    fn restore_product(&self, form: Form, count: usize) {
        let (mut left, mut left_map) = ([0; HART_WORDS], [0; MAP_WORDS]);
        repeat(count, || {
            let text = black_box(self.text(form));
            capi::restore(form.number(), text, black_box(&mut left), &mut left_map) == 0
        });
    }

    fn convert_rust(&self, to: Form, count: usize) {
        let mut converted = [0; Form::LONGEST];
        let converted = &mut converted[..to.length()];
        let text = self.text(to.other());
        repeat(count, || convert(to, black_box(text), black_box(converted)).is_ok());
    }

    fn convert_product(&self, to: Form, count: usize) {
        let mut converted = [0; Form::LONGEST];
        let converted = &mut converted[..to.length()];
        let text = self.text(to.other());
        repeat(count, || capi::convert(to.number(), black_box(text), black_box(converted)) == 0);
    }

    fn compare(&self, form: Form) {
        let mut saved = vec![0; form.length()];
        let mut converted = saved.clone();
        let (mut left, mut left_map) = ([0; HART_WORDS], [0; MAP_WORDS]);
        assert_eq!(capi::save(form.number(), &self.words, &mut saved), 0);
        assert_eq!(capi::restore(form.number(), &saved, &mut left, &mut left_map), 0);
        assert_eq!(capi::convert(form.number(), self.text(form.other()), &mut converted), 0);
        let map = self.map.to_words();
        let listed = 1 + 3 * map[0] as usize;
        let same_state = left == self.words && left_map[..listed] == map[..listed];
        let same = same_state && saved == self.text(form) && converted == saved;
        assert!(same, "other texts");
    }
}

fn repeat(count: usize, mut work: impl FnMut() -> bool) {
    for _ in 0..count {
        assert!(work(), "a text is refused");
    }
}

pub fn rows(rounds: u32) -> Vec<Row> {
    let texts = Texts::new();
    Form::ALL.into_iter().for_each(|form| texts.compare(form));
    let timed = |work: fn(&Texts, usize)| -> Work<'_> {
        let texts = &texts;
        Box::new(move || here(|| work(texts, TEXTS)))
    };
    let mut contenders: Vec<Work<'_>> =
        CALLS.iter().flat_map(|call| [timed(call.rust), timed(call.product)]).collect();
    let best = contest(rounds, &mut contenders);
    let each = |place: usize| best[place].as_secs_f64() * 1e9 / TEXTS as f64;
    let row = |(place, call): (usize, &Call)| Row {
        name: call.name,
        rust: each(2 * place),
        product: each(2 * place + 1),
    };
    CALLS.iter().enumerate().map(row).collect()
}
