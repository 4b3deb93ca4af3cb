//! The text form of a general call and of its outcome; see the README.

use std::fmt::Write;
use std::str::{FromStr, SplitWhitespace};

use crate::bale::refused;
use crate::call::{Belief, Bounds, Call, Lent, Outcome, PartEnding, Settings};

/// The words of a text, read one by one.
pub struct Reader<'a>(SplitWhitespace<'a>);

impl<'a> Reader<'a> {
    pub fn new(text: &'a str) -> Reader<'a> {
        Reader(text.split_whitespace())
    }

    fn word(&mut self) -> Result<&'a str, String> {
        self.0.next().ok_or_else(|| "the text ends too early".to_string())
    }

    pub fn expect(&mut self, name: &str) -> Result<(), String> {
        let word = self.word()?;
        if word == name { Ok(()) } else { Err(format!("{name} expected, not {word}")) }
    }

    pub fn number<T: FromStr>(&mut self) -> Result<T, String> {
        let word = self.word()?;
        word.parse().map_err(|_| format!("a number expected, not {word}"))
    }

    pub fn float(&mut self) -> Result<f32, String> {
        let word = self.word()?;
        let bits = if word.len() == 8 { u32::from_str_radix(word, 16).ok() } else { None };
        bits.map(f32::from_bits).ok_or_else(|| format!("eight hexadecimal digits expected, not {word}"))
    }

    pub fn floats(&mut self, name: &str) -> Result<Vec<f32>, String> {
        self.expect(name)?;
        let count: usize = self.number()?;
        (0..count).map(|_| self.float()).collect()
    }

    pub fn end(&mut self) -> Result<(), String> {
        match self.0.next() {
            None => Ok(()),
            Some(word) => Err(format!("nothing expected, not {word}")),
        }
    }
}

/// Reads one call, and nothing after it.
pub fn read_call(text: &str) -> Result<Call, String> {
    let mut reader = Reader::new(text);
    let settings = read_settings(&mut reader)?;
    reader.expect("grades")?;
    let grades = reader.number()?;
    let evidence = reader.floats("evidence")?;
    reader.expect("pairs")?;
    let count: usize = reader.number()?;
    let pairs = (0..count).map(|_| reader.number()).collect::<Result<_, _>>()?;
    let lent = read_lent(&mut reader)?;
    reader.end()?;
    Ok(Call { settings, grades, evidence, pairs, lent })
}

fn read_settings(reader: &mut Reader) -> Result<Settings, String> {
    reader.expect("settings")?;
    Ok(Settings {
        alpha: reader.float()?,
        beta: reader.float()?,
        prior: reader.float()?,
        regularised: reader.number::<u8>()? != 0,
        tolerance: reader.float()?,
        loop_limit: reader.number()?,
    })
}

fn read_lent(reader: &mut Reader) -> Result<Lent, String> {
    reader.expect("lent")?;
    Ok(Lent {
        work_floats: reader.number()?,
        work_words: reader.number()?,
        belief_numbers: reader.number()?,
        belief_floats: reader.number()?,
        ending_numbers: reader.number()?,
        ending_floats: reader.number()?,
    })
}

pub fn bits(float: f32) -> String {
    format!("{:08X}", float.to_bits())
}

pub fn write_call(call: &Call) -> String {
    let (settings, lent) = (&call.settings, &call.lent);
    let mut text = format!(
        "settings {} {} {} {} {} {}\n",
        bits(settings.alpha), bits(settings.beta), bits(settings.prior),
        settings.regularised as u8, bits(settings.tolerance), settings.loop_limit
    );
    writeln!(text, "grades {}", call.grades).unwrap();
    write!(text, "evidence {}", call.evidence.len()).unwrap();
    call.evidence.iter().for_each(|&entry| write!(text, " {}", bits(entry)).unwrap());
    write!(text, "\npairs {}", call.pairs.len()).unwrap();
    call.pairs.iter().for_each(|word| write!(text, " {word}").unwrap());
    writeln!(
        text, "\nlent {} {} {} {} {} {}",
        lent.work_floats, lent.work_words, lent.belief_numbers,
        lent.belief_floats, lent.ending_numbers, lent.ending_floats
    ).unwrap();
    text
}

pub fn write_outcome(outcome: &Outcome) -> String {
    let (beliefs, endings) = match outcome {
        Outcome::Refused(refusal) => return refused(*refusal),
        Outcome::Answered { beliefs, endings } => (beliefs, endings),
    };
    let mut text = format!("answered {} {}\n", beliefs.len(), endings.len());
    for Belief { grade, absent, present } in beliefs {
        writeln!(text, "belief {grade} {} {}", bits(*absent), bits(*present)).unwrap();
    }
    for PartEnding { part, ending, steps, beliefs } in endings {
        let (number, residual) = (ending.number(), bits(ending.residual()));
        writeln!(text, "ending {part} {number} {steps} {beliefs} {residual}").unwrap();
    }
    text
}

pub fn write_bounds(bounds: Option<Bounds>) -> String {
    match bounds {
        None => "bounds none\n".to_string(),
        Some(Bounds { least, largest, events, outside }) => {
            format!("bounds {} {} {events} {outside}\n", bits(least), bits(largest))
        }
    }
}
