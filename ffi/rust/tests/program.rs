//! The library answers of each file of examples/ what the program answers.
//!
//! `GEDTOOL_PROGRAM` names the program; where it does not, it is the one that is built in the repository, and if there is none nothing
//! is compared.

use gedtool::{canon, check, digest, lines, same, show, Error, FileFault, Settings};
use std::path::{Path, PathBuf};
use std::process::Command;
use std::{env, fs};

const ROOT: &str = concat!(env!("CARGO_MANIFEST_DIR"), "/../..");

fn program() -> Option<PathBuf> {
    if let Some(named) = env::var_os("GEDTOOL_PROGRAM") {
        return Some(PathBuf::from(named));
    }
    let built = Path::new(ROOT).join("crates/gedtool/out/gedtool");
    built.is_file().then_some(built)
}

fn examples() -> Vec<PathBuf> {
    let folder = Path::new(ROOT).join("examples");
    let mut files: Vec<_> = fs::read_dir(folder).unwrap().map(|entry| entry.unwrap().path()).collect();
    files.retain(|path| path.extension() == Some("ged".as_ref()));
    files.sort();
    assert!(!files.is_empty());
    files
}

/// What the program writes, or else what it tells.
fn told(program: &Path, words: &[&str], files: &[&Path]) -> Result<Vec<u8>, String> {
    let ended = Command::new(program).args(words).args(files).output().unwrap();
    if ended.stderr.is_empty() {
        Ok(ended.stdout)
    } else {
        Err(String::from_utf8(ended.stderr).unwrap().trim_end().to_owned())
    }
}

/// The text of notices, as the program writes it.
fn check_text(file: &[u8], settings: Settings) -> Result<Vec<u8>, Error> {
    let notices = check(file, settings)?;
    let rows: String = notices.iter().map(|notice| format!("{notice}\n")).collect();
    Ok((rows + "accepted\n").into_bytes())
}

/// The line of a digest, as the program writes it.
fn digest_line(file: &[u8], settings: Settings, name: &str) -> Result<Vec<u8>, String> {
    let digest = digest(file, settings).map_err(|error| format!("{name}: {error}"))?;
    let digits: String = digest.iter().map(|byte| format!("{byte:02x}")).collect();
    Ok(format!("{digits}  {name}\n").into_bytes())
}

/// All settings, each with the words by which the program is told of it.
fn all_settings() -> [(Settings, &'static [&'static str]); 4] {
    let new = Settings::new();
    [
        (new, &[]),
        (new.strict(), &["--strict"]),
        (new.second(), &["--second"]),
        (new.strict().second(), &["--strict", "--second"]),
    ]
}

#[test]
fn explanations() {
    let Some(program) = program() else {
        return eprintln!("skipped: the program is not built");
    };
    let of_files = FileFault::ALL.iter().map(|&kind| Error::InFile { line: 1, kind });
    for error in of_files.chain([Error::TooLong, Error::Memory]) {
        let text = told(&program, &["explain", &error.number().to_string()], &[]).unwrap();
        let text = String::from_utf8(text).unwrap();
        let part = |name| text.lines().find_map(|line| line.strip_prefix(name)).unwrap();
        assert_eq!(part("fault "), format!("{}: {}", error.number(), error.name()));
        assert_eq!(error.explanation(), format!("{} {}", part("  meaning: "), part("  cause: ")));
    }
}

#[test]
fn one_file() {
    let Some(program) = program() else {
        return eprintln!("skipped: the program is not built");
    };
    for path in examples() {
        let file = fs::read(&path).unwrap();
        let answers = |command, flags: &[&str]| told(&program, &[&[command], flags].concat(), &[&path]);
        let name = path.display();
        assert_eq!(lines(&file).map_err(|error| error.to_string()), answers("lines", &[]), "{name}");
        for (settings, flags) in all_settings() {
            let canonical = canon(&file, settings).map_err(|error| error.to_string());
            assert_eq!(canonical, answers("canon", flags), "{name}: canon {flags:?}");
            let line = digest_line(&file, settings, &name.to_string());
            assert_eq!(line, answers("digest", flags), "{name}: digest {flags:?}");
            // the editions differ in the canonical spelling alone
            let flags: Vec<_> = flags.iter().copied().filter(|&flag| flag != "--second").collect();
            let notices = check_text(&file, settings).map_err(|error| error.to_string());
            assert_eq!(notices, answers("check", &flags), "{name}: check {flags:?}");
            let shown = show(&file, settings).map_err(|error| error.to_string());
            assert_eq!(shown, answers("show", &flags), "{name}: show {flags:?}");
        }
    }
}

#[test]
fn two_files() {
    let Some(program) = program() else {
        return eprintln!("skipped: the program is not built");
    };
    for one in examples() {
        for other in examples() {
            let files = (fs::read(&one).unwrap(), fs::read(&other).unwrap());
            for (settings, flags) in all_settings() {
                let word = |is_same| if is_same { "same\n" } else { "different\n" };
                let answer = same(&files.0, &files.1, settings).map(|is_same| word(is_same).as_bytes().to_vec());
                let wanted = told(&program, &[&["same"], flags].concat(), &[&one, &other]);
                assert_eq!(answer.map_err(|error| error.to_string()), wanted, "{} {}", one.display(), other.display());
            }
        }
    }
}
