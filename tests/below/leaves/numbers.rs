//! A long list of numbers, most of them 0.

use crate::leaves::deadlines::next_state;
use sparse_numbers::SparseNumbers;
use std::process::Abort;

/// More numbers than two pages have.
const NUMBERS: usize = 2500;

/// Makes a list of so many numbers, all the same.
pub(crate) fn fill_up<R: Abort>(rt: &R, numbers: &mut SparseNumbers, count: usize, number: usize) {
    for _ in 0..count {
        let Ok(()) = numbers.reserve(1) else {
            panic!(rt; "no memory")
        };
        numbers.push_reserved(number);
    }
}

/// Makes so many first numbers 0, and gives back what that leaves free.
pub(crate) fn clear_first(numbers: &mut SparseNumbers, count: usize) {
    for index in 0..count {
        numbers.replace(index, 0);
        numbers.give_back(index);
    }
}

/// Draws numbers for both, a few far apart, so that pages come and go.
fn draw_often<R: Abort>(rt: &R, numbers: &mut SparseNumbers, listed: &mut [usize]) {
    let mut state = 1;
    for _ in 0..2000 {
        state = next_state(state);
        let index = (state >> 40) as usize % 5 * 600;
        let number = if (state >> 33) % 2 == 0 {
            (state >> 20) as usize % 100
        } else {
            0
        };
        let Ok(()) = numbers.set(index, number) else {
            panic!(rt; "no memory")
        };
        numbers.give_back(index);
        listed[index] = number;
        assert!(rt; numbers.get(index) == number);
    }
}

/// Whether both have the same numbers.
fn are_same(numbers: &SparseNumbers, listed: &[usize]) -> bool {
    for index in 0..listed.len() {
        if numbers.get(index) != listed[index] {
            return false;
        }
    }
    true
}

/// The same drawn numbers in the list and in a plain one, over pages that are there and pages that are not.
#[test]
fn has_what_a_plain_list_has(rt: HostRuntime) {
    let mut numbers = SparseNumbers::new(rt.alloc());
    fill_up(&rt, &mut numbers, NUMBERS, 7);
    let mut listed = [7; NUMBERS];
    draw_often(&rt, &mut numbers, &mut listed);
    assert!(rt; are_same(&numbers, &listed));
    clear_first(&mut numbers, NUMBERS);
    let mut listed = [0; NUMBERS];
    draw_often(&rt, &mut numbers, &mut listed);
    assert!(rt; are_same(&numbers, &listed));
}
