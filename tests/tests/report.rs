//! The text of the second implementation when its input arrives in portions or
//! fails on the way.

use std::io::{self, Read};

use couplingnut_tests::generate;
use couplingnut_tests::generate::random::Random;
use second::report::{report, report_to};

/// An input that arrives in small portions and ends, or fails in the end.
struct Portions<'a> {
    rest: &'a [u8],
    random: Random,
    fails: bool,
}

impl Read for Portions<'_> {
    fn read(&mut self, space: &mut [u8]) -> io::Result<usize> {
        if self.rest.is_empty() && self.fails {
            return Err(io::Error::other("the recorder is gone"));
        }
        if self.random.one_in(5) {
            return Err(io::ErrorKind::Interrupted.into());
        }
        let most = self.random.between(1, 700).min(space.len()).min(self.rest.len());
        let (portion, after) = self.rest.split_at(most);
        space[..most].copy_from_slice(portion);
        self.rest = after;
        Ok(most)
    }
}

#[test]
fn portions_are_put_together() {
    for seed in 0..500 {
        let input = generate::input(seed);
        let portions = Portions { rest: &input, random: Random::new(seed), fails: false };
        let mut text = Vec::new();
        report_to(portions, &mut text).expect("nothing fails");
        assert_eq!(text, report(&input), "seed {seed}");
    }
}

/// The number at the end of the last line is that of the lines that ask for slow.
#[test]
fn slow_writes_are_counted_over_all_pieces() {
    let (mut none, mut several) = (0, 0);
    for seed in 0..1_000 {
        let text = String::from_utf8(report(&generate::input(seed))).expect("a report is ASCII");
        let asks = |line: &&str| line.starts_with("W 0001") && "13579BDF".contains(&line[7..8]);
        let slow = text.lines().filter(asks).count();
        let last = text.lines().last().expect("a report has a line");
        assert!(last.starts_with("refused") || last.ends_with(&format!(" slow {slow}")), "{last}");
        none += usize::from(slow == 0);
        several += usize::from(slow > 1);
    }
    assert!(none > 50 && several > 50, "{none} reports without, {several} with several");
}

#[test]
fn an_input_error_is_not_the_end() {
    let mut whole = 0;
    for seed in 0..500 {
        let input = generate::input(seed);
        let portions = Portions { rest: &input, random: Random::new(seed), fails: true };
        let mut text = Vec::new();
        let failed = report_to(portions, &mut text).is_err();
        let expected = report(&input);
        // A refusal may come before the error; a count line never does.
        let refused = text == expected && expected.windows(7).any(|word| word == b"refused");
        assert!(failed || refused, "seed {seed}");
        assert!(!text.windows(7).any(|word| word == b"records"), "seed {seed}");
        whole += usize::from(failed && expected.starts_with(b"map"));
    }
    assert!(whole > 300, "only {whole} inputs failed after their map");
}
