//! Rules easily missed about refusals and access to CSRs, numbered as in the
//! list of readings. B6 and B7 are in `register_numbers.rs`.

mod common;

use common::*;
use reference::{
    Access, Answer, Form, Hart, MACHINE, Map, Mode, Refusal, SUPERVISOR, USER, Verdict, query, save,
};

fn damaged() -> Hart {
    Hart { pc: 2, ..in_mode(USER) }
}

#[test]
fn b1_the_state_is_judged_first_but_not_at_reset() {
    for number in 1..=17 {
        let (hart, answer) = run(&damaged(), number, u64::MAX, u64::MAX);
        assert_eq!((hart, answer), (damaged(), refused(Refusal::State)));
    }
    let (hart, map, answer) = run_with_map(&damaged(), &odd_map(), 0, 1, 2);
    assert_eq!((hart, map, answer), (Hart::reset(), Map::reset(), Answer::Done));
    let verdict = query(&damaged(), &odd_map(), Mode::User, Access::Load, 0, 3);
    assert_eq!(verdict, Verdict::Refused(Refusal::State));
    for form in Form::ALL {
        assert_eq!(save(form, &damaged(), &mut []), Err(Refusal::State));
    }
}

#[test]
fn b1_a_number_that_is_none_is_refused_in_every_mode() {
    for mode in [USER, SUPERVISOR, MACHINE] {
        for operation in [WRITE, SET, CLEAR, READ] {
            for number in [4096, 0x1300, 1 << 32 | 0x300, u64::MAX] {
                let (hart, answer) = run(&in_mode(mode), operation, number, 0);
                assert_eq!((hart, answer), (in_mode(mode), refused(Refusal::Argument)));
            }
        }
    }
}

#[test]
fn b2_a_refusal_changes_nothing() {
    let hart = Hart::reset();
    for (number, a, b, refusal) in [
        (5, 8, 1, Refusal::Argument),
        (5, u64::MAX, 1, Refusal::Argument),
        (6, 1, 0, Refusal::Argument),
        (6, 0x222, 0, Refusal::Argument),
        (15, 0, 0, Refusal::Size),
        (15, u64::MAX, 3, Refusal::Size),
        (16, 0, 16, Refusal::Size),
    ] {
        assert_eq!(run(&hart, number, a, b), (hart, refused(refusal)));
    }
    let mut buffer = [0xEE; 1026];
    assert_eq!(save(Form::First, &hart, &mut buffer), Err(Refusal::Buffer));
    assert_eq!(buffer, [0xEE; 1026]);
}

#[test]
fn b3_steps_1_to_3_are_write_attempts_even_with_operand_0() {
    for number in [0xF11, 0xF15, 0xC00, 0xC02, 0xC1F] {
        for operation in [WRITE, SET, CLEAR] {
            assert_eq!(run(&Hart::reset(), operation, number, 0).1, illegal());
        }
        let read = Hart { pc: 0x1004, ..Hart::reset() };
        assert_eq!(run(&Hart::reset(), READ, number, 0), (read, Answer::Value(0)));
    }
}

#[test]
fn b4_illegal_is_delegated_but_never_from_machine() {
    for (mode, medeleg, destination) in [
        (USER, 4, Mode::Supervisor),
        (SUPERVISOR, 4, Mode::Supervisor),
        (MACHINE, 4, Mode::Machine),
        (USER, 0x3FB, Mode::Machine),
        (SUPERVISOR, 0x3FB, Mode::Machine),
    ] {
        let given = Hart { medeleg, mtval: 9, stval: 9, stvec: 0x80, ..in_mode(mode) };
        let (hart, answer) = run(&given, WRITE, 0x7C0, 5);
        assert_eq!(answer, trapped(2, destination));
        if destination == Mode::Machine {
            assert_eq!(hart, after_exception_to_machine(&given, 2, 0));
        } else {
            let expected = (SUPERVISOR, 0x80, 0x1000, 2, 0, 0xA_0000_0000 | mode << 8);
            let found = (hart.mode, hart.pc, hart.sepc, hart.scause, hart.stval, hart.mstatus);
            assert_eq!(found, expected);
        }
    }
}

#[test]
fn b5_absent_though_the_standard_has_them() {
    let named = [0xC01, 0xB01, 0x310, 0x312, 0x321, 0x322, 0x3A1, 0x34A, 0x747];
    let ranges = (0x3A3..=0x3AF).chain(0x3C0..=0x3EF);
    for number in named.into_iter().chain(ranges) {
        for operation in [WRITE, SET, CLEAR, READ] {
            assert_eq!(run(&Hart::reset(), operation, number, 0).1, illegal());
        }
    }
}

#[test]
fn writes_of_read_zero_registers_are_done_and_change_nothing() {
    let counters = (0x323..=0x33F).chain(0xB03..=0xB1F);
    for number in counters.chain([0x301, 0x30A, 0x10A]) {
        let value = if number == 0x301 { 0x8000_0000_0014_1101 } else { 0 };
        for operation in [WRITE, SET, CLEAR] {
            let (hart, answer) = run(&Hart::reset(), operation, number, u64::MAX);
            let expected = Hart { pc: 0x1004, ..Hart::reset() };
            assert_eq!((hart, answer), (expected, Answer::Value(value)));
        }
    }
}
