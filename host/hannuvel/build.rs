//! Links the proved library, target/staticlib/libhannuvel.a of the repository. Where the archive is missing or older
//! than the sources, `tools/archives.sh hannuvel` proves and writes it first. The environment variable HANNUVEL_ARCHIVES
//! names a folder that holds an archive made elsewhere.

use std::env;
use std::fs::{self, File};
use std::io::{self, BufRead, BufReader, Write};
use std::path::{Path, PathBuf};
use std::process::{Command, ExitStatus, Stdio, exit};
use std::time::SystemTime;

const ARCHIVE: &str = "libhannuvel.a";

fn main() {
    println!("cargo::rerun-if-changed=build.rs");
    println!("cargo::rerun-if-env-changed=HANNUVEL_ARCHIVES");
    let target = env::var("TARGET").unwrap_or_default();
    if !target.starts_with("x86_64-") || !target.contains("linux") {
        stop(&format!("the proved library is for x86-64 Linux, and this is {target}"));
    }
    let folder = match env::var_os("HANNUVEL_ARCHIVES") {
        Some(folder) => given(PathBuf::from(folder)),
        None => made(&repository()),
    };
    println!("cargo::rerun-if-changed={}", folder.join(ARCHIVE).display());
    println!("cargo::rustc-link-search=native={}", folder.display());
    println!("cargo::rustc-link-lib=static=hannuvel");
}

/// Says why there is no library, which ends the build: cargo fails once the script that said so has ended.
fn stop(reason: &str) -> ! {
    println!("cargo::error={reason}");
    exit(0);
}

fn given(folder: PathBuf) -> PathBuf {
    let folder = fs::canonicalize(&folder).unwrap_or(folder);
    if !folder.join(ARCHIVE).is_file() {
        stop(&format!("HANNUVEL_ARCHIVES names {}, where no {ARCHIVE} is", folder.display()));
    }
    folder
}

fn repository() -> PathBuf {
    let here = PathBuf::from(env::var_os("CARGO_MANIFEST_DIR").expect("cargo runs this"));
    here.ancestors().nth(2).expect("the crate is host/hannuvel of the repository").to_owned()
}

fn made(repository: &Path) -> PathBuf {
    let sources = sources(repository);
    for source in &sources {
        println!("cargo::rerun-if-changed={}", source.display());
    }
    let folder = repository.join("target/staticlib");
    let written = fs::metadata(folder.join(ARCHIVE)).and_then(|archive| archive.modified());
    let changed = sources.iter().map(|source| newest(source)).max().flatten();
    if !matches!((written, changed), (Ok(written), Some(changed)) if changed <= written) {
        prove(repository);
    }
    folder
}

/// What the archive is made of. rt writes beside it, to crates/NAME/out, whatever it does.
fn sources(repository: &Path) -> Vec<PathBuf> {
    let crates = fs::read_dir(repository.join("crates")).into_iter().flatten().flatten();
    let parts = crates.flat_map(|entry| ["src", "specs", "proofs"].map(|part| entry.path().join(part)));
    let mut found: Vec<PathBuf> = parts.filter(|part| part.is_dir()).collect();
    found.push(repository.join("crates.txt"));
    found
}

/// When a file, or the newest file in a folder, was changed.
fn newest(path: &Path) -> Option<SystemTime> {
    let Ok(entries) = fs::read_dir(path) else {
        return fs::metadata(path).and_then(|file| file.modified()).ok();
    };
    entries.flatten().filter_map(|entry| newest(&entry.path())).max()
}

/// Proves and writes the archive, which needs nothing done before: rt proves one crate after the other, each behind those
/// that it uses, and takes what is proved already.
fn prove(repository: &Path) {
    let mut teller = Teller::new();
    teller.tell("proving and building the library, which takes minutes the first time");
    let mut said = Vec::new();
    let ended = run_archives(repository, |line| {
        if let Some((_, name)) = line.strip_prefix("rt: chose --jobs ").and_then(|rest| rest.rsplit_once(' ')) {
            teller.tell(&format!("proving {name}"));
        }
        said.push(line);
    });
    teller.wipe();
    match ended {
        Ok(status) if status.success() => {}
        Ok(status) if status.code() == Some(127) => stop(
            "rt is not on the PATH. The library is proved and built with the Rattle kit: put its rt on the PATH, or \
             name a folder that holds libhannuvel.a in the environment variable HANNUVEL_ARCHIVES",
        ),
        Ok(status) => {
            for line in &said[said.len().saturating_sub(40)..] {
                println!("cargo::error={line}");
            }
            stop(&format!("tools/archives.sh hannuvel: {status}"));
        }
        Err(error) => stop(&format!("tools/archives.sh does not run: {error}")),
    }
}

/// Runs tools/archives.sh and hands on each line that it says, on either stream.
fn run_archives(repository: &Path, mut hear: impl FnMut(String)) -> io::Result<ExitStatus> {
    let (lines, said) = io::pipe()?;
    let mut run = Command::new(repository.join("tools/archives.sh"))
        .arg("hannuvel")
        .current_dir(repository)
        .stdin(Stdio::null())
        .stdout(said.try_clone()?)
        .stderr(said)
        .spawn()?;
    BufReader::new(lines).lines().map_while(Result::ok).for_each(&mut hear);
    run.wait()
}

/// Tells how far the proving is in one line of the terminal, written anew: cargo shows what a build script prints only
/// once it has ended.
struct Teller(Option<File>);

impl Teller {
    fn new() -> Self {
        Teller(File::options().write(true).open("/dev/tty").ok())
    }

    fn tell(&mut self, line: &str) {
        self.put(&format!("\r\x1b[K  hannuvel: {line}"));
    }

    fn wipe(&mut self) {
        self.put("\r\x1b[K");
    }

    /// A terminal that cannot be written to is no reason to stop.
    fn put(&mut self, text: &str) {
        if let Some(terminal) = &mut self.0 {
            let _ = terminal.write_all(text.as_bytes());
        }
    }
}
