//! Random console lines from a fixed seed: mostly good calls, some refused, some no calls at all.

mod bookmarks;
mod calls;
pub mod listings;
mod messages;
mod plan;
mod receives;
pub mod replays;
mod rng;
mod spoil;
pub mod turns;
mod views;
mod wraps;

use crate::console::{Console, BAD};
use calls::{Call, Draw, CALLS};

/// How many of a hundred lines are spoiled, and how many good ones are written in other case.
const SPOILED: usize = 20;
const RECASED: usize = 25;

/// How many of a hundred times a reading that is over is followed by a new one.
const STARTED_ANEW: usize = 40;

/// One line in this many is made about as long as a line may be.
const STRETCHED: usize = 250;

pub struct Lines {
    calls: Vec<Call>,
    draw: Draw,
    /// Answers every line drawn, so that later lines can suit what is held by then.
    console: Console,
}

impl Lines {
    /// Lines of the calls named, separated by commas, or of all calls.
    pub fn new(seed: u64, names: Option<&str>) -> Result<Lines, String> {
        let calls = match names {
            Some(names) => names.split(',').map(call_named).collect::<Result<_, _>>()?,
            None => CALLS.to_vec(),
        };
        Ok(Lines {
            calls,
            draw: Draw::new(seed),
            console: Console::default(),
        })
    }

    fn draw_line(&mut self) -> Vec<u8> {
        let Some(call) = self.draw_call() else {
            return Vec::new();
        };
        let mut words = vec![call.name.to_string()];
        words.extend((call.words)(&mut self.draw));
        let rng = &mut self.draw.rng;
        if rng.below(STRETCHED) == 0 {
            spoil::stretched(rng, words)
        } else if rng.percent(SPOILED) {
            spoil::spoiled(rng, words)
        } else if rng.percent(RECASED) {
            spoil::recased(rng, words)
        } else {
            spoil::joined(&words)
        }
    }

    fn draw_call(&mut self) -> Option<Call> {
        let over = self.console.reader().complete().is_ok();
        if over && self.draw.rng.percent(STARTED_ANEW) {
            let start = self.calls.iter().find(|call| call.name == "read-start");
            if let Some(start) = start {
                return Some(*start);
            }
        }
        let whole = self.calls.iter().map(|call| call.weight).sum();
        let mut ticket = self.draw.rng.below(whole);
        for call in &self.calls {
            if ticket < call.weight {
                return Some(*call);
            }
            ticket -= call.weight;
        }
        None
    }
}

impl Iterator for Lines {
    type Item = Vec<u8>;

    fn next(&mut self) -> Option<Vec<u8>> {
        let plan = self.draw.plan.clone();
        let receiving = self.draw.receiving.clone();
        let line = self.draw_line();
        let answer = self.console.answer(&line);
        if answer == BAD {
            // What the line would have started has not begun.
            self.draw.plan = plan;
            self.draw.receiving = receiving;
        } else if line.starts_with(b"receive") {
            self.draw.receiving.left_by(&answer);
        }
        self.draw.expected = self.console.reader().expected();
        self.draw.last = self.console.reader().last();
        self.draw.reader = self.console.reader().clone();
        Some(line)
    }
}

fn call_named(name: &str) -> Result<Call, String> {
    let found = CALLS.iter().find(|call| call.name == name);
    found
        .copied()
        .ok_or_else(|| format!("no call is named {name:?}"))
}

#[cfg(test)]
mod tests {
    use super::*;
    use crate::image::Edition;

    fn drawn(seed: u64, names: Option<&str>) -> Vec<Vec<u8>> {
        Lines::new(seed, names).unwrap().take(2000).collect()
    }

    #[test]
    fn a_seed_fixes_the_lines() {
        assert_eq!(drawn(7, None), drawn(7, None));
        assert_ne!(drawn(7, None), drawn(8, None));
    }

    #[test]
    fn no_line_holds_a_line_feed() {
        assert!(drawn(1, None).iter().all(|line| !line.contains(&b'\n')));
    }

    #[test]
    fn most_lines_are_calls() {
        let mut console = Console::default();
        let bad = drawn(2, None)
            .iter()
            .filter(|line| console.answer(line) == BAD)
            .count();
        assert!((200..600).contains(&bad), "{bad} bad lines of 2000");
    }

    #[test]
    fn every_call_and_every_reachable_refusal_of_a_block_is_met() {
        let mut console = Console::default();
        let lines = drawn(3, Some("read-start,read-turn,read-complete"));
        let answers: Vec<String> = lines.iter().map(|line| console.answer(line)).collect();
        for reason in [7, 8, 9, 10, 12, 13, 14, 15, 16] {
            let reason = reason.to_string();
            let met = answers
                .iter()
                .any(|answer| answer.split(' ').nth(4) == Some(&reason));
            assert!(met, "reason {reason}");
        }
        for whole in ["13 0", "13 2"] {
            let held = answers
                .iter()
                .any(|answer| answer.contains(&format!(" {whole} ")));
            assert!(held, "{whole}");
        }
        for whole in ["0", "1", "17", "4 0 0 ", "5 0 0 ", "6 0 0 ", "0 3 "] {
            assert!(
                answers.iter().any(|answer| answer.starts_with(whole)),
                "{whole}"
            );
        }
    }

    #[test]
    fn most_blocks_are_written_in_both_editions_and_every_refusal_of_them_is_met() {
        let mut console = Console::default();
        let lines = drawn(5, Some("write"));
        let answers: Vec<String> = lines.iter().map(|line| console.answer(line)).collect();
        for number in ["1", "7", "8", "12", "13", "4"] {
            let given = |answer: &String| answer.split(' ').next() == Some(number);
            assert!(answers.iter().any(given), "{number}");
        }
        for mark in ["0000", "0002"] {
            let given = |answer: &&String| answer.starts_with("0 ") && &answer[30..34] == mark;
            let count = answers.iter().filter(given).count();
            assert!(count > 200, "{mark}: {count} of 2000");
        }
    }

    #[test]
    fn blocks_of_both_editions_are_accepted_behind_a_first_one() {
        let mut lines = Lines::new(6, Some("read-start,read-turn")).unwrap();
        let mut met = [0; 2];
        for _ in 0..2000 {
            let before = lines.console.reader().expected();
            lines.next();
            let reader = lines.console.reader();
            if before > 0 && reader.expected() > before {
                met[usize::from(reader.edition() == Some(Edition::Second))] += 1;
            }
        }
        assert!(met.iter().all(|count| *count > 100), "{met:?} of 2000");
    }

    #[test]
    fn most_wraps_and_messages_are_carried_out_and_every_refusal_of_them_is_met() {
        for (call, numbers) in [
            ("wrap", &["1", "18", "4"][..]),
            ("unwrap", &["1", "18", "4", "19"]),
            ("ccm-seal", &["1", "23", "4"]),
            ("ccm-open", &["1", "23", "4", "24"]),
        ] {
            let mut console = Console::default();
            let lines = drawn(4, Some(call));
            let answers: Vec<String> = lines.iter().map(|line| console.answer(line)).collect();
            let count = |number: &str| {
                let given = |answer: &&String| answer.split(' ').next() == Some(number);
                answers.iter().filter(given).count()
            };
            for number in numbers {
                assert!(count(number) > 50, "{call}: {number}");
            }
            assert!(count("0") > 800, "{call}: {} of 2000", count("0"));
        }
    }

    #[test]
    fn most_views_show_a_block_and_every_refusal_of_them_is_met() {
        for call in ["view-block", "view-check"] {
            let mut console = Console::default();
            let lines = drawn(7, Some(call));
            let answers: Vec<String> = lines.iter().map(|line| console.answer(line)).collect();
            let count = |made: &str, shown: &str| {
                let given = |answer: &&String| {
                    let words: Vec<&str> = answer.split(' ').collect();
                    words.len() == 4 && words[0] == made && words[2] == shown
                };
                answers.iter().filter(given).count()
            };
            assert!(count("0", "0") > 800, "{call}: {}", count("0", "0"));
            assert!(count("0", "20") > 200, "{call}");
            assert!(count("6", "20") > 50, "{call}");
            assert_eq!(count("6", "0"), 0, "{call}");
        }
    }

    #[test]
    fn images_are_received_whole_and_every_refusal_of_them_is_met() {
        let mut console = Console::default();
        let lines = drawn(8, Some("receive-start,receive,receive-complete"));
        let mut complete = 0;
        let mut met = std::collections::BTreeSet::new();
        for line in &lines {
            let answer = console.answer(line);
            let first = answer.split(' ').next().unwrap_or_default().to_string();
            if line == b"receive-complete" && first == "0" {
                complete += 1;
            }
            if line.starts_with(b"receive ") {
                met.insert(first);
            }
        }
        for number in [0, 4, 6, 7, 9, 10, 12, 13, 14, 15, 20, 21] {
            assert!(met.contains(&number.to_string()), "{number}");
        }
        assert!(complete > 10, "{complete} of 2000");
    }

    #[test]
    fn unknown_names_are_errors() {
        assert!(Lines::new(1, Some("schedule,encrypt")).is_ok());
        assert!(Lines::new(1, Some("schedule,")).is_err());
    }
}
