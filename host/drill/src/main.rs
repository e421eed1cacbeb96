//! The command: runs a scenario and shows what happened.
//!
//! It ends with 0 if the correct ones agree, 1 if agreement is broken, 2 if the scenario or
//! the words of the command are wrong, and then nothing is run; also if something cannot be
//! written.

#![forbid(unsafe_code)]

use std::io::{self, Read, Write};
use std::process::ExitCode;
use std::{env, fs};

use drill::arguments::{Arguments, USAGE};
use drill::run::{run, Run};
use drill::scenario::Scenario;
use drill::verdict::verdict;
use drill::{bundled, mistake, page, parse, table, terminal, worst, write};

fn main() -> ExitCode {
    let words = env::args_os().skip(1);
    let words: Vec<String> = words.map(|word| word.to_string_lossy().into()).collect();
    match drill(&words) {
        Ok(agreed) => ExitCode::from(u8::from(!agreed)),
        Err(message) => {
            eprint!("{message}");
            ExitCode::from(2)
        }
    }
}

/// Whether the correct ones agreed; else what is wrong with what was asked.
fn drill(words: &[String]) -> Result<bool, String> {
    let arguments = Arguments::read(words)?;
    if arguments.help {
        print(&format!("{USAGE}\n{}", bundled::listing()))?;
        return Ok(true);
    }
    let name = arguments.scenario.as_deref().unwrap_or(bundled::FIRST);
    let text = text(name)?;
    let wrong = |mistakes: &[mistake::Mistake]| mistake::shown(name, &text, mistakes);
    let scenario = parse::parse(&text).map_err(|mistakes| wrong(&mistakes))?;
    if let Some(tries) = arguments.worst {
        return search(&scenario, tries, &arguments);
    }
    let run = run(&scenario, arguments.rule).map_err(|mistake| wrong(&[mistake]))?;
    let (width, colour) = (terminal::width(arguments.width), terminal::has_colour());
    print(&table::shown(&run, width, colour))?;
    if words.is_empty() {
        let more = "What else there is";
        print(&format!("\n{more}:\n\n{USAGE}\n{}", bundled::listing()))?;
    }
    save(&run, &text, arguments.page.as_deref())?;
    Ok(verdict(&run).agreed)
}

/// Prints the scenario of the worst liar found.
fn search(line: &Scenario, tries: u64, arguments: &Arguments) -> Result<bool, String> {
    if line.faulty.is_empty() {
        return Err("--worst: nobody on this line is faulty, so that nobody lies\n".into());
    }
    let text = write::write(&worst::worst(line, tries, arguments.rule));
    print(&text)?;
    let worst = parse::parse(&text).expect("what is written reads");
    let run = run(&worst, arguments.rule).expect("a plan has no junk");
    save(&run, &text, arguments.page.as_deref())?;
    Ok(verdict(&run).agreed)
}

/// A scenario's text: standard input, one that comes with the drill, or a file.
fn text(name: &str) -> Result<String, String> {
    if let Some(text) = bundled::text(name) {
        return Ok(text.into());
    }
    let mut bytes = Vec::new();
    let read = match name {
        "-" => io::stdin().read_to_end(&mut bytes).map(|_| bytes),
        _ => fs::read(name),
    };
    let bytes = read.map_err(|error| {
        let known = bundled::listing();
        format!("{name}: {error}\nThese scenarios come with the drill:\n{known}")
    })?;
    String::from_utf8(bytes).map_err(|error| {
        let good = &error.as_bytes()[..error.utf8_error().valid_up_to()];
        let line = 1 + good.iter().filter(|&&byte| byte == b'\n').count();
        format!("{name}, line {line}: this is no text in UTF-8\n")
    })
}

/// Writes the page, or the picture alone if the file's name ends so.
fn save(run: &Run, text: &str, file: Option<&str>) -> Result<(), String> {
    let Some(file) = file else { return Ok(()) };
    let content = match file.ends_with(".svg") {
        true => page::picture(run),
        false => page::page(run, text),
    };
    fs::write(file, content).map_err(|error| format!("{file}: {error}\n"))?;
    eprintln!("written: {file}");
    Ok(())
}

/// Who reads the output may stop reading, which is no failure.
fn print(text: &str) -> Result<(), String> {
    let mut out = io::stdout();
    let written = out.write_all(text.as_bytes()).and_then(|()| out.flush());
    match written {
        Err(error) if error.kind() != io::ErrorKind::BrokenPipe => {
            Err(format!("standard output: {error}\n"))
        }
        _ => Ok(()),
    }
}
