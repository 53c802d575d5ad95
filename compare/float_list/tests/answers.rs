//! The list is as large as asked, and the Rust's answers are right by rules that use no float
//! operation of theirs.

use float_list::{Case, Random, cases, random_case};

/// Whole numbers of 68 × 64 bits, the least part first. They stand for multiples of 2^-2148.
type Wide = [u64; 68];

/// The exponent of a `Wide`'s lowest bit: that of the least product.
const LOWEST: i32 = -2148;

/// A float's magnitude as a whole number and an exponent of two.
fn parts(value: f64) -> (u128, i32) {
    let bits = value.abs().to_bits();
    let (exponent, fraction) = ((bits >> 52) as i32, (bits & ((1 << 52) - 1)) as u128);
    if exponent == 0 { (fraction, -1074) } else { (fraction | 1 << 52, exponent - 1075) }
}

/// `number` × 2^`exponent`.
fn wide(number: u128, exponent: i32) -> Wide {
    let shift = (exponent - LOWEST) as usize;
    let mut result = [0; 68];
    for bit in (0..128).filter(|bit| number >> bit & 1 == 1) {
        result[(bit + shift) / 64] |= 1 << ((bit + shift) % 64);
    }
    result
}

/// `a` + `b`.
fn sum(a: &Wide, b: &Wide) -> Wide {
    let mut carry = 0;
    std::array::from_fn(|place| {
        let part = u128::from(a[place]) + u128::from(b[place]) + carry;
        carry = part >> 64;
        part as u64
    })
}

/// `a` - `b`, which must not be below 0.
fn difference(a: &Wide, b: &Wide) -> Wide {
    let mut one = [0; 68];
    one[0] = 1;
    sum(a, &sum(&b.map(|part| !part), &one))
}

/// A bit of a `Wide`.
fn bit(number: &Wide, place: i32) -> bool {
    place >= 0 && number[place as usize / 64] >> (place % 64) & 1 == 1
}

/// The nearest float of a `Wide`, ties to even.
fn nearest(number: &Wide) -> f64 {
    let Some(top) = (0..68 * 64).rev().find(|place| bit(number, *place)) else { return 0.0 };
    let cut = (top - 52).max(-1074 - LOWEST);
    if cut + LOWEST > 971 {
        return f64::INFINITY;
    }
    let kept = (0..53).filter(|place| cut + place < 68 * 64 && bit(number, cut + place));
    let whole: u64 = kept.map(|place| 1 << place).sum();
    let beyond = (0..cut - 1).any(|place| bit(number, place));
    let up = bit(number, cut - 1) && (beyond || whole % 2 == 1);
    (whole + up as u64) as f64 * scale(cut + LOWEST)
}

/// 2^`exponent`, from -1074 to 971.
fn scale(exponent: i32) -> f64 {
    let place = exponent + 1022;
    f64::from_bits(if place > 0 { (place as u64 + 1) << 52 } else { 1 << (place + 52) })
}

/// The exact a × b + c, rounded once. The operands are finite.
fn fused(a: f64, b: f64, c: f64) -> f64 {
    let ((ma, ea), (mb, eb), (mc, ec)) = (parts(a), parts(b), parts(c));
    let (product, addend) = (wide(ma * mb, ea + eb), wide(mc, ec));
    let sign = |negative, value: f64| if negative { -value } else { value };
    let (below, c_below) = (a.is_sign_negative() != b.is_sign_negative(), c.is_sign_negative());
    if below == c_below {
        sign(below, nearest(&sum(&product, &addend)))
    } else if product == addend {
        0.0
    } else if product.iter().rev().gt(addend.iter().rev()) {
        sign(below, nearest(&difference(&product, &addend)))
    } else {
        sign(c_below, nearest(&difference(&addend, &product)))
    }
}

/// Asserts that a case's answer has the bits of `expected`.
fn check(case: Case, expected: f64) {
    assert_eq!(case.answer().to_bits(), expected.to_bits(), "{case}: {}", case.answer());
}

#[test]
fn mul_add_rounds_once() {
    let (mut checked, mut twice) = (0, 0);
    for case in cases() {
        let Case::MulAdd(a, b, c) = case else { continue };
        if a.is_finite() && b.is_finite() && c.is_finite() {
            check(case, fused(a, b, c));
            checked += 1;
            twice += (case.answer().to_bits() != (a * b + c).to_bits()) as u32;
        }
    }
    println!("{checked} finite cases, {twice} differ when rounded twice");
    assert!(checked > 400 && twice > 100);
}

#[test]
fn random_mul_add_rounds_once() {
    let mut random = Random(7);
    let (mut checked, mut twice, mut tiny) = (0, 0, 0);
    for _ in 0..5000 {
        let Case::MulAdd(a, b, c) = random_case(&mut random) else { continue };
        if a.is_finite() && b.is_finite() && c.is_finite() {
            let case = Case::MulAdd(a, b, c);
            let exact = fused(a, b, c);
            // The sign of a sum that is zero follows its terms.
            assert!(exact == case.answer(), "{case}: {}", case.answer());
            checked += 1;
            twice += (case.answer() != a * b + c) as u32;
            tiny += case.answer().is_subnormal() as u32;
        }
    }
    println!("{checked} finite cases, {twice} differ when rounded twice, {tiny} are subnormal");
    assert!(checked > 3000 && twice > 300 && tiny > 20);
}

#[test]
fn mul_add_of_infinities_and_nans() {
    for case in cases() {
        let Case::MulAdd(a, b, c) = case else { continue };
        let product = a * b;
        if a.is_nan() || b.is_nan() || c.is_nan() || product.is_nan() {
            assert!(case.answer().is_nan(), "{case}");
        } else if a.is_infinite() || b.is_infinite() {
            assert_eq!(case.answer().is_nan(), c == -product, "{case}");
            assert!(c == -product || case.answer() == product, "{case}");
        } else if c.is_infinite() {
            check(case, c);
        }
    }
}

#[test]
fn abs_clears_the_sign() {
    for case in cases() {
        let Case::Abs(a) = case else { continue };
        check(case, f64::from_bits(a.to_bits() << 1 >> 1));
    }
}

/// The larger or smaller of two floats; of a NaN and a number, the number.
fn choice(a: f64, b: f64, larger: bool) -> f64 {
    if a.is_nan() || (!b.is_nan() && larger == (b > a)) { b } else { a }
}

#[test]
fn max_and_min_choose() {
    for case in cases() {
        let (a, b, expected) = match case {
            Case::Max(a, b) => (a, b, choice(a, b, true)),
            Case::Min(a, b) => (a, b, choice(a, b, false)),
            _ => continue,
        };
        assert!(a != b || a.to_bits() == b.to_bits(), "zeros of different sign: {case}");
        if expected.is_nan() {
            assert!(case.answer().is_nan(), "{case}");
        } else {
            check(case, expected);
        }
    }
}

/// A magnitude rounded to a whole number, halves up.
fn whole(value: f64) -> f64 {
    let (number, exponent) = parts(value);
    match exponent {
        0.. => value.abs(),
        -54..0 => ((number + (1 << (-exponent - 1))) >> -exponent) as f64,
        _ => 0.0,
    }
}

#[test]
fn round_takes_halves_away_from_zero() {
    for case in cases() {
        let Case::Round(a) = case else { continue };
        if a.is_nan() {
            assert!(case.answer().is_nan(), "{case}");
        } else if a.is_infinite() {
            check(case, a);
        } else {
            check(case, if a.is_sign_negative() { -whole(a) } else { whole(a) });
        }
    }
}

#[test]
fn the_list_is_large_enough() {
    let lines: Vec<_> = cases().iter().map(Case::to_string).collect();
    let count = |letter| lines.iter().filter(|line| line.starts_with(letter)).count();
    println!("{} cases: {:?}", lines.len(), ['m', 'a', 'x', 'n', 'r'].map(count));
    assert!(lines.len() >= 600 && count('m') >= 400);
    assert!(['a', 'x', 'n', 'r'].iter().all(|letter| count(*letter) >= 40));
}

/// Whether a word is 16 hexadecimal digits in lower case.
fn is_float(word: &str) -> bool {
    word.len() == 16 && word.bytes().all(|digit| b"0123456789abcdef".contains(&digit))
}

#[test]
fn lines_are_a_letter_and_three_floats() {
    for case in cases() {
        let (line, answer) = (case.to_string(), case.answer_line());
        let words: Vec<_> = line.split(' ').collect();
        assert!(words.len() == 4 && "maxnr".contains(words[0]), "{line}");
        assert!(words[1..].iter().all(|word| is_float(word)) && is_float(&answer), "{line}");
        assert!(!case.answer().is_nan() || answer == "7ff8000000000000", "{line}");
    }
}
