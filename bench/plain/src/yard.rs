//! The program yard: jobs over tallies, asked for in lines of text.

use crate::{read, Refusal, Table, Tally, Told};

/// How many jobs the program begins and collects.
const JOBS: u8 = 3;

/// What the program prints for the bytes of `work.tlw` and of its standard
/// input.
pub fn yard(file: &[u8], input: &[u8]) -> Vec<u8> {
    let mut page = Page::default();
    match read(file) {
        Ok((workload, _)) => {
            let tallies = vec![0; workload.item_count().into()];
            run(&mut Table::new(tallies, workload), input, &mut page);
        }
        Err(fault) => {
            page.word().letter(b'N').number(fault.number);
            page.letter(b'.').number(fault.place as i64);
            page.end_line();
        }
    }
    page.bytes
}

/// Makes the calls that the input asks for, and prints what came of them.
fn run(table: &mut Table<Tally>, input: &[u8], page: &mut Page) {
    let steps = begin_jobs(table, input, page);
    for digit in steps.iter().map_while(|&byte| digit(byte)) {
        match table.step(digit) {
            Ok(told) => page.told(digit, told),
            Err(refusal) => page.refused(digit, refusal),
        }
    }
    page.end_line();
    for place in 0..JOBS {
        match table.collect(place) {
            Ok(register) => page.word().number(register),
            Err(_) => page.word().letter(b'-'),
        };
    }
    page.end_line();
    for shown in (0..).map_while(|item| table.shown(item)) {
        page.word().number(shown);
    }
    page.end_line();
}

/// Makes the begins, prints the refused ones, and answers the rest of the
/// input, which asks for steps.
fn begin_jobs<'a>(table: &mut Table<Tally>, mut input: &'a [u8], page: &mut Page) -> &'a [u8] {
    for place in 0..JOBS {
        let Some((job_type, argument, rest)) = begin_line(input) else {
            return &[];
        };
        if let Err(refusal) = table.begin(place, job_type, argument) {
            page.refused(place, refusal);
        }
        input = rest;
    }
    input
}

/// The type and argument of a begin line at the front of some bytes, and what
/// comes behind it.
fn begin_line(bytes: &[u8]) -> Option<(u8, i32, &[u8])> {
    let (job_type, rest) = digits(bytes)?;
    let rest = rest.strip_prefix(b" ")?;
    let (negative, rest) = match rest.strip_prefix(b"-") {
        Some(rest) => (true, rest),
        None => (false, rest),
    };
    let (size, rest) = digits(rest)?;
    let rest = rest.strip_prefix(b"\n")?;
    let argument = if negative { -size } else { size };
    Some((job_type.try_into().ok()?, argument.try_into().ok()?, rest))
}

/// The number that the digits at the front write, and what comes behind them.
/// A number too big for an argument is answered as some such number.
fn digits(bytes: &[u8]) -> Option<(i64, &[u8])> {
    const TOO_BIG: i64 = 1 << 40;
    let mut number = 0;
    let mut length = 0;
    for digit in bytes.iter().map_while(|&byte| digit(byte)) {
        number = (number * 10 + i64::from(digit)).min(TOO_BIG);
        length += 1;
    }
    (length > 0).then(|| (number, &bytes[length..]))
}

/// The digit that a byte writes.
fn digit(byte: u8) -> Option<u8> {
    byte.is_ascii_digit().then(|| byte - b'0')
}

/// What is printed: lines of words, parted by blanks.
#[derive(Default)]
struct Page {
    bytes: Vec<u8>,
    in_line: bool,
}

impl Page {
    /// Begins a word.
    fn word(&mut self) -> &mut Self {
        if self.in_line {
            self.bytes.push(b' ');
        }
        self.in_line = true;
        self
    }

    /// Ends the line.
    fn end_line(&mut self) {
        self.bytes.push(b'\n');
        self.in_line = false;
    }

    /// Prints one letter.
    fn letter(&mut self, letter: u8) -> &mut Self {
        self.bytes.push(letter);
        self
    }

    /// Prints a number in decimal.
    fn number(&mut self, number: impl Into<i64>) -> &mut Self {
        let number = number.into();
        if number < 0 {
            self.bytes.push(b'-');
        }
        let mut digits = [0; 20];
        let mut at = digits.len();
        let mut rest = number.unsigned_abs();
        loop {
            at -= 1;
            digits[at] = b'0' + (rest % 10) as u8;
            rest /= 10;
            if rest == 0 {
                break;
            }
        }
        self.bytes.extend_from_slice(&digits[at..]);
        self
    }

    /// Prints the word for a step.
    fn told(&mut self, place: u8, told: Told) {
        self.word().number(place);
        match told {
            Told::Released(item) => self.letter(b'R').number(item),
            Told::Worked(item) => self.letter(b'W').number(item),
            Told::Locked(item) => self.letter(b'L').number(item),
            Told::Waiting(item, holder) => {
                self.letter(b'X').number(item);
                self.letter(b'.').number(holder)
            }
            Told::Gone(state) => self.letter(b'G').number(state),
            Told::Finished => self.letter(b'F'),
        };
    }

    /// Prints the word for a refused begin or step.
    fn refused(&mut self, place: u8, refusal: Refusal) {
        self.word().number(place);
        self.letter(b'N').number(refusal.number());
    }
}

#[cfg(test)]
mod tests {
    use super::*;

    /// The workload of the example in the rules, with this number of codes.
    fn file(codes: u8) -> Vec<u8> {
        let mut file = b"TLW\x00\x01\x03\x03".to_vec();
        file.extend([codes, 255, 0, 0]);
        file.extend([2, 1, 2, 0, 0, 0, 0, 1, 1, 0, 0, 0]);
        file.extend([2, 0, 0, 0, 0, 0, 0, 0, 0, 0, 0]);
        file.extend([1, 1, 0, 0, 0, 0, 0, 0, 0, 0, 0, 0]);
        file.extend([1, 2, 2, 0, 0, 0, 0, 0, 0, 0, 0, 0]);
        file.extend([0, 0]);
        file
    }

    fn printed(file: &[u8], input: &str) -> String {
        String::from_utf8(yard(file, input.as_bytes())).unwrap()
    }

    #[test]
    fn the_example() {
        assert_eq!(
            printed(&file(4), "0 10\n1 0\n2 7\n000001111222200000\n"),
            "0L0 0L1 0W1 0G1 0R1 1L1 1W1 1R1 1F 2L2 2W2 2R2 2F 0L2 0R0 0W2 0R2 0F\n\
             7 10 0\n\
             0 10 7\n"
        );
    }

    #[test]
    fn refused_files() {
        assert_eq!(yard(b"", b""), b"N1.0\n");
        assert_eq!(yard(b"TLX", b"0 1\n"), b"N2.0\n");
        let long = [file(4), vec![0]].concat();
        assert_eq!(printed(&long, ""), format!("N7.{}\n", long.len() - 1));
    }

    #[test]
    fn begins_and_steps_may_be_refused() {
        assert_eq!(
            printed(&file(4), "3 1\n0 1\n255 -1\n0123"),
            "0N11 2N11 0N13 1L0 2N13 3N13\n- - -\n0 0 0\n"
        );
        assert_eq!(
            printed(&file(5), "0 1\n0 1\n0 1\n0\n"),
            "0N8 1N8 2N8 0N13\n- - -\n0 0 0\n"
        );
    }

    #[test]
    fn waiting() {
        assert_eq!(
            printed(&file(4), "1 5\n1 5\n1 5\n010x0"),
            "0L1 1X1.0 0W1\n- - -\n0 0 0\n"
        );
    }

    #[test]
    fn lines_that_begin_nothing_end_the_input() {
        let nothing = "\n- - -\n0 0 0\n";
        for input in [
            "",
            "0",
            "0 1",
            " 0 1\n0 1\n0 1\n000",
            "0  1\n0 1\n0 1\n000",
            "0 1 \n0 1\n0 1\n000",
            "0 +1\n0 1\n0 1\n000",
            "0 --1\n0 1\n0 1\n000",
            "0 -\n0 1\n0 1\n000",
            "-0 1\n0 1\n0 1\n000",
            "256 1\n0 1\n0 1\n000",
            "4294967296 1\n0 1\n0 1\n000",
            "0 2147483648\n0 1\n0 1\n000",
            "0 -2147483649\n0 1\n0 1\n000",
            "0 99999999999999999999999999\n0 1\n0 1\n000",
            "0 1\r\n0 1\n0 1\n000",
            "0 1\n0 1\n000",
            "0 1\n0 1\n0 1000",
        ] {
            assert_eq!(printed(&file(4), input), nothing, "{input:?}");
        }
    }

    #[test]
    fn numbers_with_zeros_in_front() {
        let zeros = "0".repeat(400);
        let input = format!("{zeros}2 -{zeros}\n{zeros} {zeros}2147483647\n002 -2147483648\n2222");
        assert_eq!(
            printed(&file(4), &input),
            "2L2 2W2 2R2 2F\n- - 0\n0 0 -2147483648\n"
        );
    }
}
