//! The shrinker finds what matters in a failing file or input.

use second::generator::{faulty_file, file};
use second::inputs::{faulty_input, good_input, input, Input};
use second::maker::{number, NUMBERS};
use second::reader::check;
use second::shrink::{hex, shrink, shrink_input};

#[test]
fn hex_is_as_printed() {
    assert_eq!(hex(&[]), "");
    assert_eq!(hex(&[0x0A, 0x80, 0xFF]), "0A 80 FF");
}

#[test]
fn a_file_that_does_not_fail_stays() {
    assert_eq!(shrink(&[1, 2, 3], |_| false), [1, 2, 3]);
}

#[test]
fn what_matters_is_left() {
    let file: Vec<u8> = (0..=255).collect();
    assert_eq!(shrink(&file, |file| file.contains(&0x77)), [0x77]);
    let left = shrink(&file, |file| file.iter().any(|octet| *octet > 9));
    assert_eq!(left, [10]);
}

#[test]
fn refused_files_become_short() {
    for number in (1..=13).filter(|number| *number != 11) {
        for seed in 0..20 {
            let (file, _) = faulty_file(number, seed);
            let same = |file: &[u8]| check(file).is_err_and(|refusal| refusal.number == number);
            let left = shrink(&file, same);
            assert!(same(&left));
            assert!(left.len() <= 32, "{number}: {}", hex(&left));
        }
    }
}

#[test]
fn work_is_bounded() {
    let mut calls = 0;
    let long = file(3).repeat(200);
    shrink(&long, |_| {
        calls += 1;
        calls % 2 == 1
    });
    assert!(calls <= 50_000);
}

/// The refusal's number, 0 where the frame is made.
fn answer(input: &Input) -> u8 {
    let made = input.make(&mut vec![0; input.room]);
    made.map_or_else(|refusal| refusal.number, |_| 0)
}

#[test]
fn an_input_that_does_not_fail_stays() {
    let input = input(5);
    assert_eq!(shrink_input(&input, |_| false), input);
}

#[test]
fn refused_inputs_become_small() {
    for number in 23..=25 {
        for seed in 0..200 {
            let faulty = faulty_input(number, seed);
            let left = shrink_input(&faulty, |input| answer(input) == number);
            assert_eq!(answer(&left), number);
            assert!(left.numbers.len() <= NUMBERS, "{number}: {left}");
            assert!(left.samples.len() <= 1, "{number}: {left}");
            assert_eq!((left.start, left.sequences.min(2)), (0, left.sequences));
        }
    }
}

/// A frame that is made stays one while channels, sequences and numbers go.
#[test]
fn made_inputs_become_small() {
    for seed in 0..200 {
        let good = good_input(seed);
        let matters = |input: &Input| answer(input) == 0 && input.room < 70;
        if !matters(&good) {
            continue;
        }
        let left = shrink_input(&good, matters);
        assert_eq!(left.frame().unwrap().len(), left.room, "{left}");
        assert_eq!((left.channels, left.sequences), (1, 0), "{left}");
    }
    for seed in 0..200 {
        let good = good_input(seed);
        let lead = |input: &Input| {
            let mut rows = input.numbers.chunks(NUMBERS);
            let high = rows.any(|row| row.get(number::LEAD).is_some_and(|lead| *lead > 999));
            high && answer(input) == 0 && !input.samples.is_empty()
        };
        if lead(&good) {
            let left = shrink_input(&good, lead);
            assert_eq!((left.channels, left.sequences), (1, 1), "{left}");
            assert_eq!(left.numbers[number::LEAD], 1000);
            assert_eq!(left.numbers[number::BLOCK], 1);
        }
    }
}

#[test]
fn numbers_come_near_their_limits() {
    let mut wide = good_input(1);
    wide.numbers[number::LEAD] = i64::MIN;
    wide.bits[0] = u64::MAX;
    let matters = |input: &Input| {
        let lead = input.numbers.get(number::LEAD);
        lead.is_some_and(|lead| *lead < -1000) && input.bits.iter().any(|bits| *bits > 0xFFFF)
    };
    let left = shrink_input(&wide, matters);
    assert_eq!(left.numbers[number::LEAD], -1001);
    assert_eq!(left.bits, [0x1_0000, 0]);
}

#[test]
fn work_on_inputs_is_bounded() {
    let mut calls = 0;
    let many = (0..).map(good_input).find(|input| input.channels == 256);
    shrink_input(&many.unwrap(), |_| {
        calls += 1;
        calls % 2 == 1
    });
    assert!(calls <= 50_000);
}
