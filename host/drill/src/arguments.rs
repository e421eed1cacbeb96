//! The words of the command.

use crate::run::Rule;
use crate::terminal::LEAST_WIDTH;

pub const USAGE: &str = "\
usage: drill [SCENARIO] [--page F.html] [--rule printed] [--worst N] [--width N]

SCENARIO is a file, - for standard input, or a name from the list below.
  --page F.html   also write a page with pictures of it; F.svg: the picture of the lanes alone
  --rule printed  the correct ones stop as the published method prints it, when a king is
                  named twice; on the reference, not on the engine
  --worst N       try N random liars on the scenario's line and print, as a scenario, the one
                  by which it decides last or breaks: drill --worst 1000 incident | drill -
  --width N       so many columns wide; else as wide as the terminal
It ends with 0 if the correct ones agree, 1 if that is broken, 2 if something is wrong.
docs/DRILL.md says how to write a scenario. These come with the drill:
";

#[derive(Debug, PartialEq, Eq)]
pub struct Arguments {
    pub scenario: Option<String>,
    pub page: Option<String>,
    pub rule: Rule,
    pub worst: Option<u64>,
    pub width: Option<usize>,
    pub help: bool,
}

impl Arguments {
    /// The arguments, or what is wrong with them.
    pub fn read(words: &[String]) -> Result<Arguments, String> {
        let mut arguments = Arguments {
            scenario: None,
            page: None,
            rule: Rule::Engine,
            worst: None,
            width: None,
            help: false,
        };
        let mut rest = words.iter();
        while let Some(word) = rest.next() {
            arguments.take(word, &mut rest)?;
        }
        Ok(arguments)
    }

    fn take<'a>(
        &mut self,
        word: &str,
        rest: &mut impl Iterator<Item = &'a String>,
    ) -> Result<(), String> {
        let mut value = || rest.next().ok_or(wrong(&format!("{word} lacks its value")));
        match word {
            "--help" | "-h" => self.help = true,
            "--page" => self.page = Some(page(value()?)?),
            "--rule" => match value()?.as_str() {
                "printed" => self.rule = Rule::Printed,
                other => return Err(wrong(&format!("--rule {other}: there is only printed"))),
            },
            "--worst" => self.worst = Some(number(word, value()?, 1)?),
            "--width" => self.width = Some(number(word, value()?, LEAST_WIDTH as u64)? as usize),
            _ if word.starts_with("--") => return Err(wrong(&format!("{word} is unknown"))),
            _ if self.scenario.is_some() => {
                return Err(wrong(&format!("{word}: one scenario at a time")))
            }
            _ => self.scenario = Some(word.into()),
        }
        Ok(())
    }
}

/// A page's name says what it is, so that no scenario is written over.
fn page(file: &str) -> Result<String, String> {
    match file.ends_with(".html") || file.ends_with(".svg") {
        true => Ok(file.into()),
        false => Err(wrong(&format!(
            "--page {file}: a name in .html or .svg is wanted"
        ))),
    }
}

fn number(word: &str, value: &str, least: u64) -> Result<u64, String> {
    let number = value
        .parse()
        .ok()
        .filter(|&number| number >= least && number <= 1_000_000);
    number.ok_or_else(|| {
        wrong(&format!(
            "{word} {value}: a number from {least} to 1000000 is wanted"
        ))
    })
}

fn wrong(what: &str) -> String {
    format!("{what}\n\n{USAGE}{}", crate::bundled::listing())
}
