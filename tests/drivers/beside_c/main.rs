//! Compares the package bootcore with the library for C, call by call, on drawn cases: machines,
//! kernels, menus near what is refused, plans, loads, boots, sessions, images, digests, and words.
//!     beside_c ROUNDS [SEED]

mod c_calls;
mod facade_calls;
mod told;

mod of_c {
    use crate::c_calls as calls;
    include!("cases.rs");
}

mod of_facade {
    use crate::facade_calls as calls;
    include!("cases.rs");
}

/// Misuses that speak of a pointer or an array to a program in C, or that no program in Rust makes.
const WORDS_OF_ITS_OWN: [u32; 9] = [101, 102, 104, 105, 110, 111, 116, 119, 120];

/// The numbers whose words differ.
fn differing_words() -> Vec<u32> {
    let words = |status: &u32| c_calls::status_text(*status) != facade_calls::status_text(*status);
    let statuses = (101..=134).chain([6]).filter(|status| !WORDS_OF_ITS_OWN.contains(status));
    let carries = [(0, 0), (1, 2), (0x30, u64::MAX)];
    let lines = |number: &u32| {
        c_calls::refusal_text(*number) != facade_calls::refusal_text(*number)
            || carries.iter().any(|(first, second)| {
                c_calls::refusal_line(*number, *first, *second) != facade_calls::refusal_line(*number, *first, *second)
            })
    };
    // want of memory is an error of its own
    let numbers = (1..=90).filter(|number| ![77, 84].contains(number));
    statuses.filter(words).chain(numbers.filter(lines)).collect()
}

fn main() {
    let number = |text: String| text.parse::<u64>().expect("a number");
    let mut words = std::env::args().skip(1).map(number);
    let (rounds, from) = (words.next().expect("beside_c ROUNDS [SEED]"), words.next().unwrap_or(1));
    let (mut ends, mut differ) = ([0; 4], 0);
    for seed in from..from + rounds {
        let drawn = seed.wrapping_mul(0x9E3779B97F4A7C15) | 1;
        let ((one, _), (other, end)) = (of_c::case(drawn), of_facade::case(drawn));
        ends[end] += 1;
        if one != other {
            differ += 1;
            let mut pairs = one.iter().zip(&other).filter(|(one, other)| one != other);
            if let (true, Some((one, other))) = (differ < 6, pairs.next()) {
                println!("seed {seed}\n  C: {one:.400}\n  Rust: {other:.400}");
            }
        }
    }
    let words = differing_words();
    if !words.is_empty() {
        println!("other words: {words:?}");
    }
    println!("{rounds} cases: {ends:?} loaded, refused, misused, other; {differ} differ");
    std::process::exit(i32::from(differ > 0 || !words.is_empty()));
}
