//! Edits one chain of a compound file, and shows each step: open, list, read, overwrite, grow, verify, write.
//!
//!     cargo run --offline --example edit -- IN OUT [START]
//!
//! IN is any compound file of at most 16,384 sectors, OUT the file that is written; IN is left alone. START is the first
//! sector of the chain to edit, in decimal, or the word `directory` for the one that the header names; without it the first
//! chain is taken that is neither the directory nor the MiniFAT. Nothing but that chain's bytes is edited: a directory entry
//! that tells the stream's length still tells the old one, so that other readers do not show the bytes that were added.

use rasuvelk::{prettify, Growth, Image, Validation};
use std::error::Error;
use std::process::ExitCode;

/// What is written, over the chain's last bytes and behind them.
const TEXT: &[u8] = b"edited by rasuvelk";

/// What a user is told where the arguments make no sense.
const USAGE: &str = "say which files: edit IN OUT [START], START a sector's number or `directory`";

fn main() -> ExitCode {
    let arguments: Vec<String> = std::env::args().skip(1).collect();
    match run(&arguments) {
        Ok(()) => ExitCode::SUCCESS,
        Err(error) => {
            eprintln!("edit: {error}");
            if let Some(refusal) = error.downcast_ref::<rasuvelk::Refusal>() {
                eprintln!("edit: {}", refusal.help());
            }
            ExitCode::FAILURE
        }
    }
}

fn run(arguments: &[String]) -> Result<(), Box<dyn Error>> {
    let (input, output, chosen) = match arguments {
        [input, output] => (input, output, None),
        [input, output, chosen] => (input, output, Some(chosen.as_str())),
        _ => return Err(USAGE.into()),
    };
    let file = std::fs::read(input).map_err(|error| format!("{input}: {error}"))?;
    let original = Image::open(file, Validation::Strict)?;
    list(&original)?;
    let start = start_of(&original, chosen)?;
    let edited = edit(&original, start)?;
    verify(&original, &edited, start)?;
    std::fs::write(output, edited.bytes()).map_err(|error| format!("{output}: {error}"))?;
    println!("wrote {output}: {} bytes", edited.bytes().len());
    Ok(())
}

/// Lists what the header and the FAT say, and every chain.
fn list(image: &Image) -> Result<(), Box<dyn Error>> {
    let free = image.view().free_sectors().len();
    println!("{:?}, {} sectors of {} bytes, {free} free", image.version(), image.num_sectors(), image.sector_len());
    println!("FAT: {}", short(image.view().fat()));
    for start in image.chain_starts() {
        let chain = image.chain(start)?;
        println!("chain {start}: {} bytes in sectors {}{}", chain.len(), short(chain.sector_ids()), role(image, start));
    }
    Ok(())
}

/// Entries or ids in short.
fn short(list: &[u32]) -> String {
    prettify(list).iter().map(ToString::to_string).collect::<Vec<_>>().join(" ")
}

/// What the header says of a chain's first sector.
fn role(image: &Image, start: u32) -> &'static str {
    let header = image.header();
    if start == header.first_dir_sector {
        ", the directory"
    } else if start == header.first_minifat_sector {
        ", the MiniFAT"
    } else {
        ""
    }
}

/// The chain to edit.
fn start_of(image: &Image, chosen: Option<&str>) -> Result<u32, Box<dyn Error>> {
    match chosen {
        Some("directory") => Ok(image.header().first_dir_sector),
        Some(number) => number.parse().map_err(|_| USAGE.into()),
        None => {
            let mut starts = image.chain_starts().into_iter();
            starts.find(|&start| role(image, start).is_empty()).ok_or_else(|| "there is no such chain; name one".into())
        }
    }
}

/// The image with the text over the chain's last bytes, and once more behind them.
fn edit(original: &Image, start: u32) -> Result<Image, Box<dyn Error>> {
    let length = original.chain(start)?.len();
    if length == 0 {
        return Err(format!("chain {start} has no sectors, and so nothing to edit").into());
    }
    let mut front = [0; 16];
    let read = original.read(start, 0, &mut front)?;
    println!("chain {start} begins with {:02x?}", &front[..read]);

    let mut image = original.clone();
    image.write(start, length.saturating_sub(TEXT.len() as u64), TEXT)?;
    println!("overwrote its last {} bytes in place", TEXT.len());
    image.set_growth(Growth::AsNeeded);
    let chain = image.write(start, length, TEXT)?;
    println!("wrote as many behind them: it has {} bytes now in sectors {}", chain.len(), short(chain.sector_ids()));
    Ok(image)
}

/// Opens the edited bytes anew, strictly, and compares: the tables are those in hand, the chain has exactly the edit, and
/// every other chain has the bytes that it had.
fn verify(original: &Image, edited: &Image, start: u32) -> Result<(), Box<dyn Error>> {
    let again = Image::open(edited.bytes(), Validation::Strict)?;
    let (ours, theirs) = (edited.view(), again.view());
    let same =
        edited.state() == again.state() && ours.fat() == theirs.fat() && ours.fat_sectors() == theirs.fat_sectors();
    if !same {
        return Err("a fresh opening gives other tables".into());
    }
    let mut expected = original.read_to_vec(start)?;
    let length = expected.len();
    expected.splice(length.saturating_sub(TEXT.len()).., TEXT.iter().copied());
    expected.extend_from_slice(TEXT);
    expected.resize(again.chain(start)?.len() as usize, 0);
    if again.read_to_vec(start)? != expected {
        return Err("the chain has other bytes than the edit".into());
    }
    let mut others = 0;
    for other in original.chain_starts().into_iter().filter(|&other| other != start) {
        if again.read_to_vec(other)? != original.read_to_vec(other)? {
            return Err(format!("chain {other} has other bytes").into());
        }
        others += 1;
    }
    println!("verified by a fresh strict opening: chain {start} has the edit, all others ({others}) what they had");
    Ok(())
}
