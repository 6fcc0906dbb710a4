//! An independent reader of location sheets: computes what each call must
//! answer, and compares the answers with those of the library's programs.

mod asking;
mod batch;
mod breaks;
mod card_cases;
mod card_listing;
mod card_listings;
mod carding;
mod case_files;
mod cases;
mod checking;
mod comparing;
mod contents;
mod damage;
mod decided;
mod draft;
mod examples;
mod faults;
mod fields;
mod folders;
mod frames;
mod identifiers;
mod joining;
mod judging;
mod large;
mod lawful;
mod limits;
mod lines;
mod listing;
mod listings;
mod making;
mod misspellings;
mod naming;
mod overlap_breaks;
mod overlap_cases;
mod page_cases;
mod page_listing;
#[macro_use]
mod page_readings;
mod paging;
mod placing;
mod random;
mod reading;
mod readings;
mod run;
mod seconds;
mod sheets;
mod shortest;
mod smallest;
mod smallest_overlap;
mod smallest_page;
mod spelling;
mod streams;
mod switched;
mod tally;
mod wrong;

use std::env;
use std::fs;
use std::io::{self, Write};
use std::path::Path;
use std::process::ExitCode;

const USAGE: &str = "usage:
  reader cases --seed N --cases M --out DIR [--wrong X]
  reader run --seed N --cases M [--trial COMMAND] [--listing COMMAND] [--cards COMMAND] [--wrong X]
  reader switches
  reader switched --seed N --cases M [--jobs J]
  reader answers FILE
  reader smallest [--out FILE]
  reader list [--card] DIR
  reader page DIR
  reader judge FILE";

fn main() -> ExitCode {
    let arguments: Vec<String> = env::args().skip(1).collect();
    match command(&arguments) {
        Ok(true) => ExitCode::SUCCESS,
        Ok(false) => ExitCode::FAILURE,
        Err(message) => {
            eprintln!("{message}");
            ExitCode::from(2)
        }
    }
}

/// Answers whether all went well.
fn command(arguments: &[String]) -> Result<bool, String> {
    let (name, rest) = arguments.split_first().ok_or(USAGE)?;
    match (name.as_str(), rest) {
        ("cases", options) => write_cases(options),
        ("run", options) => run_programs(options),
        ("switches", []) => list_switches(),
        ("switched", options) => {
            let jobs = option(options, "--jobs").map_or(Ok(1), |jobs| jobs.parse().map_err(|_| USAGE))?;
            Ok(switched::switched(number(options, "--seed")?, number(options, "--cases")? as usize, jobs))
        }
        ("answers", [file]) => answers(Path::new(file)),
        ("smallest", options) => smallest(option(options, "--out").map(Path::new)),
        ("list", [folder]) => list(Path::new(folder)),
        ("list", [option, folder]) if option == "--card" => list_card(Path::new(folder)),
        ("page", [folder]) => page(Path::new(folder)),
        ("judge", [file]) => judge(Path::new(file)),
        _ => Err(USAGE.to_string()),
    }
}

fn option<'o>(options: &'o [String], name: &str) -> Option<&'o str> {
    let at = options.iter().position(|option| option == name)?;
    options.get(at + 1).map(String::as_str)
}

fn number(options: &[String], name: &str) -> Result<u64, String> {
    let text = option(options, name).ok_or(USAGE)?;
    text.parse().map_err(|_| format!("{name} wants a number"))
}

fn said(error: io::Error) -> String {
    error.to_string()
}

/// The batch is made by the plain reading; only answers follow the switch.
fn switch_on_after_making(options: &[String]) -> Result<Option<wrong::Wrong>, String> {
    match option(options, "--wrong") {
        None => Ok(None),
        Some(name) => wrong::named(name).map(Some).ok_or(format!("no switch {name}")),
    }
}

fn write_cases(options: &[String]) -> Result<bool, String> {
    let switch = switch_on_after_making(options)?;
    let out = Path::new(option(options, "--out").ok_or(USAGE)?);
    if fs::read_dir(out).is_ok_and(|mut entries| entries.next().is_some()) {
        return Err(format!("{} is not empty", out.display()));
    }
    let batch = batch::batch(number(options, "--seed")?, number(options, "--cases")? as usize);
    wrong::switch_on(switch);
    let lines: Vec<String> = batch.cases.iter().map(|case| case.line()).collect();
    for (number, packed) in folders::pack(&batch).iter().enumerate() {
        folders::write_packed(out, number, packed, &lines).map_err(said)?;
    }
    for (number, listing) in batch.listings.iter().enumerate() {
        folders::write_listing(out, number, listing).map_err(said)?;
    }
    for (number, listing) in batch.card_listings.iter().enumerate() {
        folders::write_card_listing(out, number, listing).map_err(said)?;
    }
    let tally = run::tally_of(&batch, &lines);
    tally.print();
    println!(
        "tally: cases {} least-number-count {}",
        batch.cases.len() + batch.listings.len() + batch.card_listings.len(),
        tally.least()
    );
    Ok(true)
}

fn run_programs(options: &[String]) -> Result<bool, String> {
    let owned = |name| option(options, name).map(str::to_string);
    let [trial, listing, cards] = ["--trial", "--listing", "--cards"].map(owned);
    let commands = run::Commands { trial, listing, cards };
    let seed = number(options, "--seed")?;
    let switch = switch_on_after_making(options)?;
    run::run(seed, number(options, "--cases")? as usize, &commands, switch).map_err(said)
}

fn list_switches() -> Result<bool, String> {
    for (_, name, what) in wrong::ALL {
        println!("{name}: {what}");
    }
    for (point, reason) in wrong::UNSEEN {
        println!("no switch for {point}: {reason}");
    }
    Ok(true)
}

fn answers(file: &Path) -> Result<bool, String> {
    for line in case_files::answers(&fs::read(file).map_err(said)?) {
        println!("{line}");
    }
    Ok(true)
}

/// Three lines a case: what it shows, its bytes where they are few, its answer.
fn smallest(out: Option<&Path>) -> Result<bool, String> {
    let mut file = Vec::new();
    for (what, case) in smallest::cases() {
        let bytes = case.bytes();
        let digits: String = bytes.iter().map(|byte| format!("{byte:02x}")).collect();
        let digits = if bytes.len() > 1000 { format!("({} bytes)", bytes.len()) } else { digits };
        println!("# {what}\n{digits}\n{}", case.line());
        file.extend(bytes);
    }
    out.map_or(Ok(true), |out| fs::write(out, file).map(|()| true).map_err(said))
}

/// A missing file counts as empty.
fn file_or_empty(path: &Path) -> Vec<u8> {
    fs::read(path).unwrap_or_default()
}

fn list(folder: &Path) -> Result<bool, String> {
    let sheet = file_or_empty(&folder.join("sheet.frcs"));
    let frame = file_or_empty(&folder.join("frame.bin"));
    io::stdout().write_all(&listing::listing(&sheet, &frame)).map_err(said)?;
    Ok(true)
}

fn list_card(folder: &Path) -> Result<bool, String> {
    let sheet = file_or_empty(&folder.join("sheet.frcs"));
    let stream = file_or_empty(&folder.join("card.bin"));
    io::stdout().write_all(&card_listing::listing(&sheet, &stream)).map_err(said)?;
    Ok(true)
}

fn page(folder: &Path) -> Result<bool, String> {
    let file = |name| file_or_empty(&folder.join(name));
    let text = page_listing::listing(&file("sheet.frcs"), &file("frame.bin"), &file("page.txt"))?;
    io::stdout().write_all(&text).map_err(said)?;
    Ok(true)
}

fn judge(file: &Path) -> Result<bool, String> {
    match judging::judge(&fs::read(file).map_err(said)?) {
        Ok(contents) => println!("accepted {}", making::table_bytes(&contents).len()),
        Err(refusal) => println!("refused {} {}", refusal.number, refusal.line),
    }
    Ok(true)
}
