//! The command: `report`, `rewrite`, `generate`, `sessions` and `coverage`.

use reference::coverage::Coverage;
use reference::generate::sessions::folder;
use reference::generate::stored::{MOST_INPUT, cases, long, with_drills};
use reference::generate::{Rng, Size};
use reference::limits::{LINE_LIMIT, SESSION_LIMIT};
use reference::{report, rewriting};
use std::fs::{self, File};
use std::io::{self, ErrorKind, Read, Write};
use std::path::Path;
use std::process::ExitCode;

const USAGE: &str = "usage:
  reference report FOLDER
  reference rewrite FOLDER OUT
  reference generate [--seed S] [--count C] [--records R] [--size tiny|small|medium|deep|full|wide] FOLDER
  reference sessions [--seed S] [--count C] [--bytes B] [--long yes] OUT_STDIN OUT_STDOUT
  reference coverage STDIN";

fn main() -> ExitCode {
    let words: Vec<String> = std::env::args().skip(1).collect();
    match run(&words) {
        Ok(()) => ExitCode::SUCCESS,
        Err(message) => {
            eprintln!("{message}");
            ExitCode::FAILURE
        }
    }
}

fn run(words: &[String]) -> Result<(), String> {
    let options = Options::read(words.get(1..).unwrap_or_default())?;
    match (words.first().map(String::as_str), &options.places[..]) {
        (Some("report"), [folder]) => print_report(Path::new(folder)),
        (Some("rewrite"), [folder, out]) => rewrite(Path::new(folder), Path::new(out)),
        (Some("generate"), [folder]) => generate(&options, Path::new(folder)),
        (Some("sessions"), [input, expected]) => sessions(&options, input, expected),
        (Some("coverage"), [input]) => coverage(Path::new(input)),
        _ => Err(USAGE.to_string()),
    }
}

/// Options come as a name with two dashes and a word; all other words are places.
#[derive(Default)]
struct Options {
    named: Vec<(String, String)>,
    places: Vec<String>,
}

impl Options {
    fn read(words: &[String]) -> Result<Options, String> {
        let mut options = Options::default();
        let mut words = words.iter();
        while let Some(word) = words.next() {
            match word.strip_prefix("--") {
                Some(name) => {
                    let value = words.next().ok_or(USAGE)?;
                    options.named.push((name.to_string(), value.clone()));
                }
                None => options.places.push(word.clone()),
            }
        }
        let known = ["seed", "count", "records", "size", "bytes", "long"];
        let all_known = options.named.iter().all(|(name, _)| known.contains(&name.as_str()));
        if all_known { Ok(options) } else { Err(USAGE.to_string()) }
    }

    fn word(&self, name: &str) -> Option<&str> {
        self.named.iter().find(|(known, _)| known == name).map(|(_, value)| value.as_str())
    }

    fn number(&self, name: &str, usual: usize) -> Result<usize, String> {
        self.word(name).map_or(Ok(usual), |word| word.parse().map_err(|_| format!("--{name} takes a number")))
    }

    fn size(&self) -> Result<Option<Size>, String> {
        Ok(Some(match self.word("size") {
            None => return Ok(None),
            Some("tiny") => Size::Tiny,
            Some("small") => Size::Small,
            Some("medium") => Size::Medium,
            Some("deep") => Size::Deep,
            Some("full") => Size::Full,
            Some("wide") => Size::Wide,
            Some(_) => return Err(USAGE.to_string()),
        }))
    }
}

fn put(path: &Path, bytes: &[u8]) -> Result<(), String> {
    fs::write(path, bytes).map_err(|error| format!("{}: {error}", path.display()))
}

/// A file's first `limit` + 1 bytes; an absent file is empty.
fn read_file(path: &Path, limit: usize) -> Result<Vec<u8>, String> {
    let failed = |error: io::Error| format!("{}: {error}", path.display());
    let mut bytes = Vec::new();
    match File::open(path) {
        Err(error) if error.kind() == ErrorKind::NotFound => Ok(bytes),
        Err(error) => Err(failed(error)),
        Ok(file) => file.take(limit as u64 + 1).read_to_end(&mut bytes).map(|_| bytes).map_err(failed),
    }
}

fn print_report(folder: &Path) -> Result<(), String> {
    let line = read_file(&folder.join("line.bin"), LINE_LIMIT)?;
    let session = read_file(&folder.join("session.bin"), SESSION_LIMIT)?;
    io::stdout().write_all(&report(&line, &session)).map_err(|error| error.to_string())
}

/// Prints what the rewriting program prints; what it would write as line.out goes to `out`, and else `out` stays.
fn rewrite(folder: &Path, out: &Path) -> Result<(), String> {
    let (text, file) = rewriting(&read_file(&folder.join("line.bin"), LINE_LIMIT)?);
    print!("{text}");
    file.map_or(Ok(()), |bytes| put(out, &bytes))
}

/// Writes folders 1, 2 and so on, each with line.bin, session.bin and the expected report.
fn generate(options: &Options, out: &Path) -> Result<(), String> {
    let seed = options.number("seed", 1)? as u64;
    let size = options.size()?;
    for place in 1..=options.number("count", 10)? {
        let mut rng = Rng::part(seed, place as u64);
        let size = size.unwrap_or_else(|| Size::any(&mut rng));
        let records = options.number("records", rng.between(0, 60))?;
        let focus = rng.percent(12).then(|| rng.between(1, 6) as u8);
        let made = folder(&mut rng, size, records, focus);
        let folder = out.join(place.to_string());
        fs::create_dir_all(&folder).map_err(|error| format!("{}: {error}", folder.display()))?;
        put(&folder.join("line.bin"), &made.line)?;
        put(&folder.join("session.bin"), &made.session)?;
        put(&folder.join("expected.txt"), &report(&made.line, &made.session))?;
    }
    Ok(())
}

/// Writes the stored cases and what must come out, and says on standard error what they show.
fn sessions(options: &Options, input: &str, expected: &str) -> Result<(), String> {
    let seed = options.number("seed", 1)? as u64;
    let mut cases = with_drills(seed, options.number("count", 300)?, options.number("bytes", 120_000)?);
    if options.word("long").is_some() {
        long().iter().for_each(|folder| cases.push(folder));
    }
    put(Path::new(input), &cases.input)?;
    put(Path::new(expected), &cases.expected)?;
    eprint!("{}", cases.tally);
    eprintln!("{} bytes of input, {} of output", cases.input.len(), cases.expected.len());
    let rare = cases.tally.rare(5);
    if !rare.is_empty() {
        return Err(format!("shown fewer than five times: {rare:?}"));
    }
    let fits = cases.input.len() <= MOST_INPUT || options.word("long").is_some();
    if fits { Ok(()) } else { Err(format!("more than the {MOST_INPUT} bytes that stored cases may have")) }
}

/// Prints what stored cases show; fails if anything is shown less often than it must be.
fn coverage(input: &Path) -> Result<(), String> {
    let bytes = fs::read(input).map_err(|error| format!("{}: {error}", input.display()))?;
    let cases = cases(&bytes).ok_or_else(|| format!("{}: the last case is cut", input.display()))?;
    let coverage = Coverage::of(&cases);
    print!("{coverage}");
    let missing = coverage.missing();
    if missing.is_empty() { Ok(()) } else { Err(format!("shown too seldom:\n{}", missing.join("\n"))) }
}
