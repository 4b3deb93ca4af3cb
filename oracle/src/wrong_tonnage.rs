//! Wrong references for document 02's tonnage, each of which the generated mornings
//! must tell from the right one.

use crate::call::Belief;
use crate::refusal::Refusal;
use crate::shift::bales;
use crate::tonnage::{beliefs, summed, whole_part, Morning, Weighed, GRADES};

pub(crate) type Outcome = Result<Weighed<u64>, Refusal>;

/// A morning's lines, and the beliefs of each bale, which the Rust is asked for once.
pub(crate) struct Seen {
    pub csv: Vec<u8>,
    pub bales: Vec<Option<Vec<Belief>>>,
}

impl Seen {
    pub(crate) fn of(morning: &Morning) -> Seen {
        Seen { csv: morning.csv.clone(), bales: bales(&morning.shift).into_iter().map(beliefs).collect() }
    }

    fn beliefs_of(&self, number: usize) -> Option<Vec<Belief>> {
        self.bales.get(number)?.clone()
    }

    pub(crate) fn right(&self) -> Outcome {
        self.with_share(|grams, belief| whole_part(grams, belief.present))
    }

    fn with_share(&self, share: fn(u64, &Belief) -> u64) -> Outcome {
        summed(&self.csv, |number| self.beliefs_of(number), share)
    }

    fn with_beliefs(&self, change: impl Fn(Option<Vec<Belief>>) -> Option<Vec<Belief>>) -> Outcome {
        summed(&self.csv, |number| change(self.bales.get(number)?.clone()), |grams, belief| whole_part(grams, belief.present))
    }

    fn with_csv(&self, csv: Vec<u8>) -> Outcome {
        Seen { csv, bales: self.bales.clone() }.right()
    }
}

pub(crate) type Wrong = (&'static str, fn(&Seen) -> Outcome);

pub(crate) const WRONG: [Wrong; 18] = [
    ("rounded to the nearest gram", |seen| seen.with_share(|grams, belief| (grams as f64 * f64::from(belief.present)).round() as u64)),
    ("the product as f32", |seen| seen.with_share(|grams, belief| (grams as f32 * belief.present) as u64)),
    ("the absent belief", |seen| seen.with_share(|grams, belief| whole_part(grams, belief.absent))),
    ("the whole part of the sum", whole_part_of_sum),
    ("kilograms for grams", |seen| seen.with_share(|grams, belief| whole_part(grams / 1000, belief.present))),
    ("summed by a belief's index", |seen| seen.with_beliefs(|found| found.map(by_index))),
    ("only accepted bales numbered", only_accepted),
    ("a refused bale weighs nothing", |seen| seen.with_beliefs(|found| found.or(Some(vec![])))),
    ("a bale without beliefs is refused", |seen| seen.with_beliefs(|found| found.filter(|beliefs| !beliefs.is_empty()))),
    ("15 before 14 on one line", bale_first),
    ("all lines parsed first", lines_first),
    ("a bale's number may come again", again),
    ("the last line needs no line feed", |seen| seen.with_csv([seen.csv.as_slice(), if seen.csv.ends_with(b"\n") { b"" } else { b"\n" }].concat())),
    ("what follows the last line feed is not read", |seen| seen.with_csv(ended_lines(seen).concat())),
    ("a line may end in CR LF", |seen| seen.with_csv(ended_lines(seen).into_iter().map(without_cr).collect::<Vec<_>>().concat())),
    ("leading zeros are taken", |seen| with_words(seen, |word| word.trim_start_matches('0').to_string())),
    ("numbers are cut to 32 bits", |seen| with_words(seen, |word| word.parse().map_or(word.to_string(), |number: u128| (number as u32).to_string()))),
    ("empty lines are skipped", |seen| seen.with_csv(lines(seen).into_iter().filter(|line| line != b"\n").collect::<Vec<_>>().concat())),
];

fn lines(seen: &Seen) -> Vec<Vec<u8>> {
    seen.csv.split_inclusive(|&byte| byte == b'\n').map(<[u8]>::to_vec).collect()
}

fn ended_lines(seen: &Seen) -> Vec<Vec<u8>> {
    lines(seen).into_iter().filter(|line| line.ends_with(b"\n")).collect()
}

fn without_cr(line: Vec<u8>) -> Vec<u8> {
    line.strip_suffix(b"\r\n").map_or(line.clone(), |text| [text, b"\n"].concat())
}

/// The digits of a line changed, of a number that has at least two.
fn with_words(seen: &Seen, change: fn(&str) -> String) -> Outcome {
    let changed = |word: &str| if word.bytes().all(|byte| byte.is_ascii_digit()) && word.len() > 1 { change(word) } else { word.to_string() };
    let text: String = seen.csv.iter().map(|&byte| char::from(byte)).collect();
    let line = |line: &str| line.split(',').map(changed).collect::<Vec<_>>().join(",");
    let lines: Vec<String> = text.split('\n').map(line).collect();
    seen.with_csv(lines.join("\n").chars().map(|character| character as u8).collect())
}

fn whole_part_of_sum(seen: &Seen) -> Outcome {
    // each product is exact in f64, and the sums of generated lines nearly
    let sums = summed(&seen.csv, |number| seen.beliefs_of(number), |grams, belief| grams as f64 * f64::from(belief.present))?;
    Ok(Weighed { lines: sums.lines, totals: sums.totals.into_iter().map(|sum| sum as u64).collect() })
}

fn by_index(beliefs: Vec<Belief>) -> Vec<Belief> {
    beliefs.into_iter().enumerate().map(|(index, belief)| Belief { grade: index as u32, ..belief }).collect()
}

fn only_accepted(seen: &Seen) -> Outcome {
    let bales = seen.bales.iter().filter(|bale| bale.is_some()).cloned().collect();
    Seen { csv: seen.csv.clone(), bales }.right()
}

fn bale_first(seen: &Seen) -> Outcome {
    seen.right().map_err(|refusal| {
        let line = &lines(seen)[refusal.place as usize];
        let digits: String = line.iter().map(|&byte| char::from(byte)).take_while(char::is_ascii_digit).collect();
        let known = digits.parse().is_ok_and(|number| seen.beliefs_of(number).is_some());
        Refusal { number: if known || digits.is_empty() { refusal.number } else { 15 }, ..refusal }
    })
}

/// A malformed line is found as if each bale were there.
fn lines_first(seen: &Seen) -> Outcome {
    summed(&seen.csv, |_| Some(vec![]), |_, _| 0u64)?;
    seen.right()
}

/// Each line by itself: that the bales rise is not asked.
fn again(seen: &Seen) -> Outcome {
    let mut all = Weighed { lines: 0, totals: vec![0; GRADES] };
    for line in lines(seen) {
        let one = summed(&line, |number| seen.beliefs_of(number), |grams, belief| whole_part(grams, belief.present));
        let one = one.map_err(|refusal| Refusal { place: all.lines, ..refusal })?;
        all.totals.iter_mut().zip(one.totals).for_each(|(sum, more)| *sum += more);
        all.lines += 1;
    }
    Ok(all)
}
