//! Where the engine's archive is, and its making where the sources are newer.

use std::collections::VecDeque;
use std::env;
use std::fs::{self, File, OpenOptions};
use std::io::{BufRead, BufReader, Write};
use std::path::{Path, PathBuf};
use std::process::{Child, Command, Stdio};
use std::time::{Instant, SystemTime};

use crate::{rerun_if_changed, Outcome};

pub const NAME: &str = "librights_c.a";

/// The lines of a failed script that are shown.
const TAIL: usize = 30;

/// The archive's folder, absolute: RIGHTS_LIB_DIR, or target/staticlib, where the archive is made
/// if it is missing or older than the engine's sources.
pub fn folder(top: &Path, package: &Path) -> Outcome<PathBuf> {
    println!("cargo::rerun-if-env-changed=RIGHTS_LIB_DIR");
    if let Some(named) = env::var_os("RIGHTS_LIB_DIR").filter(|named| !named.is_empty()) {
        return named_folder(Path::new(&named), package);
    }
    for source in ["crates.txt", "crates", "scripts/build"] {
        rerun_if_changed(&top.join(source));
    }
    let folder = top.join("target/staticlib");
    make(top, &folder.join(NAME))?;
    Ok(folder)
}

/// A relative name counts from the folder that cargo was started in, then from the package's.
fn named_folder(named: &Path, package: &Path) -> Outcome<PathBuf> {
    let mut tried = vec![package.join(named)];
    if named.is_relative() {
        println!("cargo::rerun-if-env-changed=PWD");
        tried.splice(0..0, env::var_os("PWD").map(|from| Path::new(&from).join(named)));
    }
    if let Some(folder) = tried.iter().find(|folder| folder.join(NAME).is_file()) {
        return fs::canonicalize(folder).map_err(|error| format!("{}: {error}", folder.display()));
    }
    let places: Vec<String> = tried.iter().map(|folder| folder.display().to_string()).collect();
    Err(format!(
        "RIGHTS_LIB_DIR is {}, and there is no {NAME} in {}",
        named.display(),
        places.join(" nor in ")
    ))
}

/// Has scripts/build make the archive where a source is newer; it decides that by date.
fn make(top: &Path, archive: &Path) -> Outcome<()> {
    let (before, began) = (modified(archive), Instant::now());
    let script = top.join("scripts/build");
    let child = Command::new("sh")
        .arg(&script)
        .arg("archive")
        .current_dir(top)
        .stdin(Stdio::null())
        .stdout(Stdio::null())
        .stderr(Stdio::piped())
        .spawn();
    let mut child = child.map_err(|error| format!("{}: {error}", script.display()))?;
    let tail = follow(&mut child);
    let status = child.wait().map_err(|error| error.to_string())?;
    if !status.success() || !archive.is_file() {
        return Err(format!(
            "scripts/build archive: {status}; there is no archive of these sources. RIGHTS_LIB_DIR \
             can name a folder that has one. Its last lines:\n{tail}"
        ));
    }
    if modified(archive) != before {
        let seconds = began.elapsed().as_secs();
        println!("cargo::warning=the engine was proved and its archive made anew: {seconds} s");
    }
    Ok(())
}

/// Shows the child's lines as they come, and gives the last of them. Cargo holds back what a build
/// script writes until it ends, so they go to the terminal itself where there is one.
fn follow(child: &mut Child) -> String {
    let mut terminal: Option<File> = OpenOptions::new().write(true).open("/dev/tty").ok();
    let mut tail = VecDeque::new();
    let lines =
        child.stderr.take().into_iter().flat_map(|stderr| BufReader::new(stderr).split(b'\n'));
    for line in lines.map_while(Result::ok) {
        let line = String::from_utf8_lossy(&line).into_owned();
        // A terminal that is gone is no reason to stop.
        terminal = terminal.take().filter(|mut to| writeln!(to, "{line}").is_ok());
        tail.push_back(line);
        if tail.len() > TAIL {
            tail.pop_front();
        }
    }
    Vec::from(tail).join("\n")
}

fn modified(file: &Path) -> Option<SystemTime> {
    fs::metadata(file).and_then(|data| data.modified()).ok()
}
