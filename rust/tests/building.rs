//! The build script, on copies of the package: other targets, archives elsewhere, an archive that
//! is made, and headers that are not the archive's.

use std::env;
use std::fs;
use std::path::{Path, PathBuf};
use std::process::{Command, Output};

/// The package, and the archive that this build of it has.
const PACKAGE: &str = env!("CARGO_MANIFEST_DIR");
const ARCHIVE: &str = env!("RIGHTS_ARCHIVE");

/// A program over the copy.
const EXAMPLE: &str = "fn main() { println!(\"{}\", rights::archive_matches_header()); }\n";

/// A copy of the repository's header and package, in a folder of its own.
struct Copy {
    top: PathBuf,
}

/// A copy that stayed would have sources that `rt` finds in no crate of this repository.
impl Drop for Copy {
    fn drop(&mut self) {
        let _ = fs::remove_dir_all(&self.top);
    }
}

impl Copy {
    fn new(name: &str) -> Self {
        let top = Path::new(env!("CARGO_TARGET_TMPDIR")).join(format!("building {name}"));
        let _ = fs::remove_dir_all(&top);
        let copy = Self { top };
        let package = Path::new(PACKAGE);
        copy.put("include/rights.h", &read(&package.join("../include/rights.h")));
        copy.put("rust/examples/matches.rs", EXAMPLE);
        for name in ["Cargo.toml", "Cargo.lock"] {
            copy.put(&format!("rust/{name}"), &read(&package.join(name)));
        }
        for folder in ["build", "src"] {
            for entry in fs::read_dir(package.join(folder)).expect(folder) {
                let path = entry.expect(folder).path();
                let name = path.file_name().expect("a file").to_string_lossy().into_owned();
                copy.put(&format!("rust/{folder}/{name}"), &read(&path));
            }
        }
        copy
    }

    fn put(&self, name: &str, content: &str) {
        let path = self.top.join(name);
        fs::create_dir_all(path.parent().expect("a folder")).expect(name);
        fs::write(path, content).expect(name);
    }

    /// Puts the archive into a folder of the copy.
    fn put_archive(&self, folder: &str) {
        let folder = self.top.join(folder);
        fs::create_dir_all(&folder).expect("a folder");
        fs::copy(ARCHIVE, folder.join("librights_c.a")).expect("the archive");
    }

    /// Replaces a text in the header; it is there.
    fn edit_header(&self, from: &str, to: &str) {
        let header = read(&Path::new(PACKAGE).join("../include/rights.h"));
        assert!(header.contains(from), "{from}");
        self.put("include/rights.h", &header.replacen(from, to, 1));
    }

    /// cargo over the copy's package, started in a folder of the copy.
    fn cargo(&self, folder: &str, lib_dir: Option<&str>, arguments: &[&str]) -> Output {
        let from = self.top.join(folder);
        let mut cargo = Command::new(env!("CARGO"));
        cargo.current_dir(&from).env("PWD", &from).env_remove("RIGHTS_LIB_DIR");
        cargo.env("CARGO_TARGET_DIR", self.top.join("built"));
        cargo.envs(lib_dir.map(|folder| ("RIGHTS_LIB_DIR", folder)));
        cargo.args(arguments).args(["--offline", "--manifest-path"]);
        cargo.arg(self.top.join("rust/Cargo.toml")).output().expect("cargo")
    }

    /// What the program says of header and archive.
    fn matches(&self) -> String {
        let output = self.cargo("rust", Some("lib"), &["run", "--example", "matches"]);
        assert!(output.status.success(), "{}", errors(&output));
        String::from_utf8(output.stdout).expect("text")
    }
}

fn read(path: &Path) -> String {
    fs::read_to_string(path).unwrap_or_else(|error| panic!("{}: {error}", path.display()))
}

fn errors(output: &Output) -> String {
    String::from_utf8_lossy(&output.stderr).into_owned()
}

/// cargo failed, and said each of these.
#[track_caller]
fn assert_fails(output: &Output, says: &[&str]) {
    let said = errors(output);
    assert!(!output.status.success(), "{said}");
    assert!(says.iter().all(|says| said.contains(says)), "{says:?} in {said}");
}

#[test]
fn other_targets() {
    let copy = Copy::new("targets");
    copy.put_archive("lib");
    let targets = [
        "aarch64-unknown-linux-gnu",
        "i686-unknown-linux-gnu",
        "x86_64-unknown-linux-gnux32",
        "x86_64-pc-windows-gnu",
        "x86_64-apple-darwin",
        "x86_64-unknown-none",
    ];
    for target in targets {
        let output = copy.cargo("", Some("lib"), &["check", "--target", target]);
        let says = format!("rights: the target {target} is not supported");
        assert_fails(&output, &[&says, "x86-64 ELF code with SSE2", "x86_64-unknown-linux-gnu"]);
    }
}

/// A relative RIGHTS_LIB_DIR, from the folder cargo was started in or else from the package's; an
/// absolute one; and one without an archive.
#[test]
fn archive_elsewhere() {
    let copy = Copy::new("elsewhere");
    copy.put_archive("lib");
    copy.put_archive("rust/own");
    let whole = copy.top.join("lib").display().to_string();
    for (from, lib_dir) in [("", "lib"), ("rust", "../lib"), ("rust/src", "own"), ("", &whole)] {
        let output = copy.cargo(from, Some(lib_dir), &["run", "--example", "matches"]);
        assert!(output.status.success(), "{from}, {lib_dir}: {}", errors(&output));
    }
    let output = copy.cargo("rust/src", Some("none"), &["check"]);
    let places = ["rust/src/none", "rust/none"].map(|place| copy.top.join(place));
    let places = places.map(|place| place.display().to_string());
    assert_fails(&output, &["RIGHTS_LIB_DIR is none", &places[0], &places[1]]);
}

/// A script in the place of scripts/build: it puts the archive where it is missing.
const SCRIPT: &str = "set -eu\n\
    cd \"$(dirname \"$0\")/..\"\n\
    echo asked >>asked\n\
    ! [ -e broken ] || { echo a proof is missing >&2; exit 3; }\n\
    [ -e target/staticlib/librights_c.a ] && exit\n\
    mkdir -p target/staticlib\n\
    cp lib/librights_c.a target/staticlib\n";

/// Without RIGHTS_LIB_DIR the repository's script is asked, again when a source changed; cargo
/// tells that the archive was made, or the script's last lines where it was not.
#[test]
fn archive_made() {
    let copy = Copy::new("made");
    copy.put_archive("lib");
    copy.put("scripts/build", SCRIPT);
    copy.put("crates.txt", "");
    copy.put("crates/bits/src/lib.rt", "");
    let check = || copy.cargo("", None, &["check"]);
    let asked = || read(&copy.top.join("asked")).lines().count();
    let first = check();
    assert!(first.status.success() && errors(&first).contains("made anew"), "{}", errors(&first));
    for source in ["crates/bits/src/lib.rt", "crates.txt", "scripts/build", "include/rights.h"] {
        assert!(check().status.success());
        let before = asked();
        let content = read(&copy.top.join(source));
        copy.put(source, &(content + "\n"));
        let again = check();
        assert!(again.status.success() && !errors(&again).contains("made anew"), "{source}");
        assert_eq!(asked(), before + 1, "{source}");
    }
    copy.put("broken", "");
    copy.put("crates.txt", "changed");
    assert_fails(&check(), &["scripts/build archive: exit status: 3", "a proof is missing"]);
}

/// A header of another version or layout date is not the archive's.
#[test]
fn other_header() {
    let copy = Copy::new("header");
    copy.put_archive("rust/lib");
    assert_eq!(copy.matches(), "true\n");
    copy.edit_header("#define RIGHTS_VERSION ", "#define RIGHTS_VERSION 9");
    assert_eq!(copy.matches(), "false\n");
    copy.edit_header("#define RIGHTS_LAYOUT_DATE 2", "#define RIGHTS_LAYOUT_DATE 3");
    assert_eq!(copy.matches(), "false\n");
}

/// A prototype that cannot be read is told, and one that does not begin as all do.
#[test]
fn unread_header() {
    let copy = Copy::new("unread");
    copy.put_archive("rust/lib");
    let begin = "RIGHTS_NODISCARD uint32_t rights_lists_create(uint64_t *image";
    let edits = [
        ("(uint64_t *image", "(float *image", "`uint32_t rights_lists_create(float *image"),
        ("RIGHTS_NODISCARD ", "", "prototypes, of which"),
        ("rights_lists_create", "rights_Lists_create", "its name"),
    ];
    for (from, to, says) in edits {
        copy.edit_header(begin, &begin.replacen(from, to, 1));
        let output = copy.cargo("rust", Some("lib"), &["check"]);
        assert_fails(&output, &["include/rights.h", says]);
    }
    copy.edit_header("/* 10000 * major + 100 * minor + patch. */\n", "");
    let output = copy.cargo("rust", Some("lib"), &["check"]);
    assert_fails(&output, &["rights_version", "no comment stands above it"]);
}

/// A record of the header whose fields are not those of the crate's, in name, kind, number or order,
/// does not compile; one that cannot be read is told.
#[test]
fn other_record() {
    let copy = Copy::new("record");
    copy.put_archive("rust/lib");
    let (item, issuer) = ("    uint8_t item;\n", "    uint16_t issuer;\n");
    let right = "    uint8_t right;\n";
    let edits = [
        (item.to_string(), "    uint16_t item;\n".to_string(), "mismatched types"),
        (item.to_string(), "    uint8_t thing;\n".to_string(), "thing"),
        (issuer.to_string(), String::new(), "missing field"),
        (issuer.to_string(), format!("{issuer}    uint64_t since;\n"), "since"),
        (format!("{item}{right}"), format!("{right}{item}"), "offset_of"),
        (
            item.to_string(),
            "    float item;\n".to_string(),
            "cannot read the record `rights_ticket`",
        ),
        ("typedef struct".to_string(), "struct".to_string(), "cannot read the record"),
    ];
    for (from, to, says) in edits {
        copy.edit_header(&from, &to);
        let output = copy.cargo("rust", Some("lib"), &["check"]);
        assert_fails(&output, &[says]);
    }
    copy.edit_header(
        "RIGHTS_NODISCARD rights_ticket rights_tickets_at",
        "rights_ticket rights_tickets_at",
    );
    let output = copy.cargo("rust", Some("lib"), &["check"]);
    assert_fails(&output, &["prototypes, of which"]);
    copy.edit_header("RIGHTS_NODISCARD rights_ticket", "RIGHTS_NODISCARD rights_other");
    let output = copy.cargo("rust", Some("lib"), &["check"]);
    assert_fails(&output, &["its result"]);
}
