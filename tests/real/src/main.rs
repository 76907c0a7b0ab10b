//! Opens compound files, and edits chains of them, for tests/real/check.py. A user of the package like any other.
//!
//!     real open FILE..                   a line for each: `opened VERSION SECTORS FREE`, or `refused NUMBER REASON`
//!     real chain FILE START              a line: the number of its bytes, or `refused NUMBER REASON`
//!     real edit IN OUT STEP..            makes the steps one after the other, and writes OUT
//!
//! A step is `write:START:OFFSET:DATA`, DATA the name of a file that holds the bytes, or `resize:START:LENGTH`. After each
//! step state and tables are compared with those of a fresh strict opening. At the first step that is refused nothing is
//! written, and the line is `refused NUMBER REASON`; else there is a line for each step, the chain's bytes and start.
//! Exit status: 0 there is an answer, a refusal among them; 2 wrong usage, or a file that cannot be read or written.

use rasuvelk::{Growth, Image, Refusal, Validation};
use std::error::Error;
use std::process::ExitCode;

const USAGE: &str = "say what to do: real open FILE.. | real chain FILE START | real edit IN OUT STEP..";

type Answer<T> = Result<T, Box<dyn Error>>;

fn main() -> ExitCode {
    let arguments: Vec<String> = std::env::args().skip(1).collect();
    let words: Vec<&str> = arguments.iter().map(String::as_str).collect();
    let done = match &words[..] {
        ["open", files @ ..] if !files.is_empty() => files.iter().try_for_each(|file| told(open(file).map(shown))),
        ["chain", file, start] => told(chain(file, start)),
        ["edit", input, output, steps @ ..] if !steps.is_empty() => told(edit(input, output, steps)),
        _ => Err(USAGE.into()),
    };
    match done {
        Ok(()) => ExitCode::SUCCESS,
        Err(error) => {
            eprintln!("real: {error}");
            ExitCode::from(2)
        }
    }
}

/// Prints an answer, or the refusal; anything else that went wrong is handed on.
fn told(answer: Answer<String>) -> Answer<()> {
    match answer {
        Ok(text) => println!("{text}"),
        Err(error) => match error.downcast_ref::<Refusal>() {
            Some(refusal) => println!("refused {} {}", refusal.number(), refusal.reason()),
            None => return Err(error),
        },
    }
    Ok(())
}

fn open(file: &str) -> Answer<Image> {
    let bytes = std::fs::read(file).map_err(|error| format!("{file}: {error}"))?;
    Ok(Image::open(bytes, Validation::Strict)?)
}

fn shown(image: Image) -> String {
    let version = image.header().version.number();
    format!("opened {version} {} {}", image.num_sectors(), image.view().free_sectors().len())
}

fn chain(file: &str, start: &str) -> Answer<String> {
    Ok(open(file)?.chain(start.parse()?)?.len().to_string())
}

fn edit(input: &str, output: &str, steps: &[&str]) -> Answer<String> {
    let mut image = open(input)?;
    image.set_growth(Growth::AsNeeded);
    let mut lines = Vec::new();
    for words in steps {
        let words: Vec<&str> = words.splitn(4, ':').collect();
        let chain = match words[..] {
            ["write", start, offset, data] => {
                let bytes = std::fs::read(data).map_err(|error| format!("{data}: {error}"))?;
                image.write(start.parse()?, offset.parse()?, &bytes)?
            }
            ["resize", start, length] => image.resize(start.parse()?, length.parse()?)?,
            _ => return Err(USAGE.into()),
        };
        same_as_fresh(&image)?;
        lines.push(format!("{} {}", chain.len(), chain.start_sector_id()));
    }
    std::fs::write(output, image.bytes()).map_err(|error| format!("{output}: {error}"))?;
    Ok(lines.join("\n"))
}

/// Compares what is in hand with a fresh strict opening of the bytes; the free list may be in another order.
fn same_as_fresh(image: &Image) -> Answer<()> {
    let fresh = Image::open(image.bytes(), Validation::Strict)?;
    let [ours, theirs] = [image, &fresh].map(|image| {
        let view = image.view();
        let mut free = view.free_sectors().to_vec();
        free.sort_unstable();
        (view.fat().to_vec(), view.fat_sectors().to_vec(), view.difat_sectors().to_vec(), free)
    });
    if ours == theirs && image.state() == fresh.state() {
        Ok(())
    } else {
        Err("what is in hand is not what a fresh opening gives".into())
    }
}
