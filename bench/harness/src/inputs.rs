//! Inputs of the program yard: of its form, at its limits, and not quite of its form.

use crate::random::Random;

/// Words in the place of a type that are none, or one at a limit.
const ODD_TYPES: [&str; 20] = [
    "",
    "7",
    "8",
    "254",
    "255",
    "256",
    "257",
    "511",
    "65536",
    "4294967295",
    "4294967296",
    "4294967551",
    "18446744073709551616",
    "99999999999999999999999999",
    "-1",
    "-0",
    "+1",
    "1a",
    "/",
    ":",
];

/// Words in the place of an argument that are none, or one at a limit.
const ODD_ARGUMENTS: [&str; 27] = [
    "",
    "-",
    "--1",
    "+1",
    "-0",
    "-00",
    "2147483646",
    "2147483647",
    "2147483648",
    "-2147483647",
    "-2147483648",
    "-2147483649",
    "4294967294",
    "4294967295",
    "4294967296",
    "-4294967295",
    "-4294967296",
    "18446744073709551616",
    "-18446744073709551615",
    "99999999999999999999999999",
    "1-",
    "-1-",
    "1.0",
    "1e3",
    "x",
    "-x",
    "1 2",
];

/// What stands between the two words in place of one blank, and what ends the line in place of a line feed.
const ODD_BLANKS: [&str; 8] = ["", "  ", "\t", " \t", "\n", "\0", "-", "\u{a0}"];
const ODD_ENDS: [&str; 8] = ["", "\r\n", "\r", "\n\n", " \n", "\n ", "\0\n", ","];

/// Bytes that end the steps, or stand where they should not.
const ODD_BYTES: [u8; 16] = *b"\n \r-+/:;aLN.\0\t\xb2\xff";

/// A word, and once in so many times an odd one.
fn word(random: &mut Random, odd: usize, odd_words: &[&str], usual: String) -> String {
    if random.once_in(odd) {
        return (*random.pick(odd_words)).to_string();
    }
    usual
}

/// The word of a number, sometimes with zeros in front.
fn with_zeros(random: &mut Random, word: String) -> String {
    if !random.once_in(10) {
        return word;
    }
    let zeros = "0".repeat(*random.pick(&[1, 2, 9, 10, 30]));
    match word.strip_prefix('-') {
        Some(digits) => format!("-{zeros}{digits}"),
        None => format!("{zeros}{word}"),
    }
}

/// A begin line of one of so many types, or nearly one.
fn line(random: &mut Random, types: usize, odd: usize) -> String {
    let usual_type = random.below(types).to_string();
    let usual_argument = random.signed().to_string();
    let job_type = word(random, odd, &ODD_TYPES, usual_type);
    let argument = word(random, odd, &ODD_ARGUMENTS, usual_argument);
    let blank = word(random, odd, &ODD_BLANKS, " ".to_string());
    let end = word(random, odd, &ODD_ENDS, "\n".to_string());
    let job_type = with_zeros(random, job_type);
    let argument = with_zeros(random, argument);
    format!("{job_type}{blank}{argument}{end}")
}

/// Steps at the first three places, or at all that a digit names: one by one, or in bursts of one place.
fn steps(random: &mut Random) -> Vec<u8> {
    let places = *random.pick(&[3, 3, 3, 3, 4, 10]);
    let burst = *random.pick(&[1, 1, 8, 60]);
    let count = match random.below(8) {
        0 => random.below(8),
        1 => random.within(500, 3_000),
        _ => random.within(20, 500),
    };
    let mut steps = Vec::with_capacity(count + burst);
    while steps.len() < count {
        let digit = b'0' + random.below(places) as u8;
        let more = random.within(1, burst);
        steps.resize(steps.len() + more, digit);
    }
    if random.once_in(4) {
        let at = random.below(steps.len() + 1);
        steps.insert(at, *random.pick(&ODD_BYTES));
    }
    steps
}

/// Changes, removes or adds a byte anywhere, or cuts the input short.
fn damage(random: &mut Random, input: &mut Vec<u8>) {
    let byte = if random.once_in(2) {
        *random.pick(&ODD_BYTES)
    } else {
        random.byte()
    };
    let near = input.len().min(*random.pick(&[8, 30, 5_000]));
    let at = random.below(near + 1);
    match random.below(4) {
        0 if at < input.len() => input[at] = byte,
        1 if at < input.len() => {
            input.remove(at);
        }
        2 => input.truncate(at),
        _ => input.insert(at, byte),
    }
}

/// A random input for a workload with so many types.
pub fn input(random: &mut Random, types: usize) -> Vec<u8> {
    let odd = *random.pick(&[4, 20, 1_000, 1_000]);
    let lines = *random.pick(&[3, 3, 3, 3, 3, 3, 3, 3, 0, 1, 2, 4]);
    let mut input: Vec<u8> = (0..lines)
        .flat_map(|_| line(random, types, odd).into_bytes())
        .collect();
    input.extend(steps(random));
    if random.once_in(2) {
        input.push(b'\n');
    }
    if random.once_in(6) {
        damage(random, &mut input);
    }
    input
}
