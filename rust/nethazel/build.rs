//! Finds the proved archive, or makes it, looks that it has this crate's layout, and has it linked.
//!
//! `NETHAZEL_ARCHIVE` may name the archive, for a host that has no `rt`. Else it is the repository's own,
//! `crates/host/out/libhost.a`, which `tools/archive` makes again where it is older than the code that it was made from.
//!
//! A wrong archive ends the build at once. Where there is none that could be linked, checking and documenting still work,
//! for they link nothing: see `link_nothing`.

use std::collections::BTreeSet;
use std::path::{Path, PathBuf};
use std::process::{exit, Command};
use std::{env, fs};

include!("src/layout.rs");

const ARCHIVE_MARK: &[u8] = b"!<arch>\n";
const INDEX_NAME: &[u8; 16] = b"/               ";

/// Why no archive can be linked: in a few words without a colon, and what to do, where that is not what they say.
struct Missing {
    name: String,
    words: Option<String>,
}

fn main() {
    println!("cargo:rerun-if-env-changed=NETHAZEL_ARCHIVE");
    println!("cargo:rerun-if-changed=src/layout.rs");
    match archive() {
        Ok(archive) => link(&archive),
        Err(missing) => link_nothing(&missing),
    }
}

fn fail(words: &str) -> ! {
    eprintln!("nethazel: {words}");
    exit(1)
}

fn archive() -> Result<PathBuf, Missing> {
    let named = env::var_os("NETHAZEL_ARCHIVE").filter(|named| !named.is_empty());
    let named = named.map(|named| named_archive(PathBuf::from(named)));
    can_be_linked()?; // a wrong archive has failed before, whatever the target is
    match named {
        Some(archive) => Ok(archive),
        None => repository_archive(),
    }
}

fn can_be_linked() -> Result<(), Missing> {
    let architecture = env::var("CARGO_CFG_TARGET_ARCH").unwrap_or_default();
    let system = env::var("CARGO_CFG_TARGET_OS").unwrap_or_default();
    if (architecture.as_str(), system.as_str()) == ("x86_64", "linux") {
        return Ok(());
    }
    let name = format!(
        "nethazel is x86-64 code for Linux and can't be linked for {architecture} {system}"
    );
    Err(Missing { name, words: None })
}

fn named_archive(archive: PathBuf) -> PathBuf {
    let shown = archive.display();
    println!("cargo:rerun-if-changed={shown}");
    if archive.is_relative() {
        fail(&format!(
            "NETHAZEL_ARCHIVE is the relative path {shown}, and cargo doesn't tell from which folder; give the whole \
             path, or have cargo make it whole by `NETHAZEL_ARCHIVE = {{ value = \"{shown}\", relative = true }}` below \
             `[env]` in .cargo/config.toml"
        ));
    }
    if !archive.is_file() {
        fail(&format!("NETHAZEL_ARCHIVE names {shown}, which is no file"));
    }
    folder_and_name(&archive);
    look_at_layout(&archive);
    archive
}

fn repository_archive() -> Result<PathBuf, Missing> {
    let package = env::var_os("CARGO_MANIFEST_DIR").expect("cargo names the package's folder");
    let repository = match Path::new(&package).ancestors().nth(2) {
        Some(folder) if folder.join("crates/host/nethazel.h").is_file() => folder.to_path_buf(),
        _ => return Err(outside_the_repository()),
    };
    let crates = repository.join("crates");
    let archive = repository.join("crates/host/out/libhost.a");
    look_at_sources(&crates);
    println!("cargo:rerun-if-changed={}", archive.display());
    make(&repository)?;
    if !archive.is_file() {
        let archive = archive.display();
        fail(&format!("tools/archive left no {archive}"));
    }
    look_at_layout(&archive);
    Ok(archive)
}

/// What the archive is made from: each crate's src/, and not its out/, where making it writes.
fn look_at_sources(crates: &Path) {
    let entries = fs::read_dir(crates).into_iter().flatten().flatten();
    let sources = entries.map(|entry| entry.path().join("src"));
    for source in sources.filter(|source| source.is_dir()) {
        println!("cargo:rerun-if-changed={}", source.display());
    }
}

/// A file that is nowhere has cargo look again each time: what is missing may be there then, and not every cargo sees that
/// its `[env]` names an archive now.
fn look_again() {
    println!("cargo:rerun-if-changed=no archive yet");
}

fn outside_the_repository() -> Missing {
    look_again();
    Missing {
        name: "nethazel outside its repository needs NETHAZEL_ARCHIVE to name the archive".to_string(),
        words: Some("this copy of nethazel stands outside its repository and has no archive; name one by \
                NETHAZEL_ARCHIVE=/WHOLE/PATH/libnethazel.a: the one that is installed with Nethazel's header, or \
                crates/host/out/libhost.a, which `rt lib` makes in the repository's crates/host"
            .to_string()),
    }
}

/// Makes the archive where it has to be made, one after another where several want to.
fn make(repository: &Path) -> Result<(), Missing> {
    let archive = repository.join("tools/archive");
    let output = match Command::new(&archive).output() {
        Ok(output) => output,
        Err(error) => fail(&format!("{} can't be run ({error})", archive.display())),
    };
    match output.status.code() {
        Some(0) => Ok(()),
        Some(3) => Err(without_rt()),
        _ => fail(&format!(
            "tools/archive failed:\n{}",
            String::from_utf8_lossy(&output.stderr)
        )),
    }
}

fn without_rt() -> Missing {
    look_again();
    Missing {
        name: "nethazel has no archive that is up to date, and no rt to make it".to_string(),
        words: Some(
            "the archive crates/host/out/libhost.a is missing or older than the code, and there is no `rt`, which \
             makes it; install the Rattle kit, or name an archive in NETHAZEL_ARCHIVE"
                .to_string(),
        ),
    }
}

/// An archive of another layout would not be linked either, but the linker names only the symbols that it misses.
fn look_at_layout(archive: &Path) {
    let shown = archive.display();
    let bytes = match fs::read(archive) {
        Ok(bytes) => bytes,
        Err(error) => fail(&format!("the archive {shown} can't be read ({error})")),
    };
    let members = match bytes.strip_prefix(ARCHIVE_MARK) {
        Some(members) => members,
        None => fail(&format!(
            "{shown} is no archive: it doesn't begin with `!<arch>`"
        )),
    };
    if !is_whole(members) {
        fail(&format!(
            "the archive {shown} is cut off, or no ar made it: copy it again"
        ));
    }
    let defined = match indexed(members) {
        Some(names) => names,
        None => fail(&format!(
            "the archive {shown} has no index of its symbols; `ranlib` makes one"
        )),
    };
    if let Err(has) = has_layout(&defined) {
        fail(&format!(
            "the archive {shown} {has}. This crate, version {}, needs layout {LAYOUT}: take archive and crate from one \
             version of Nethazel",
            env!("CARGO_PKG_VERSION")
        ));
    }
}

/// Whether the members, each a header of 60 bytes and as many bytes as it says, end where the file does.
fn is_whole(mut members: &[u8]) -> bool {
    while !members.is_empty() {
        let length = members
            .get(48..58)
            .and_then(|digits| std::str::from_utf8(digits).ok());
        let length = length.and_then(|digits| digits.trim_end().parse::<usize>().ok());
        match length.and_then(|length| members.get(60..)?.get(length + length % 2..)) {
            Some(rest) => members = rest,
            None => return false,
        }
    }
    true
}

/// The names in the index, which comes first in an archive: of 60 bytes a header with name and length, then big-endian
/// the count of the symbols and a place for each, then their names, each with a 0 after it.
fn indexed(members: &[u8]) -> Option<Vec<&[u8]>> {
    let (header, rest) = (members.get(..60)?, &members[60..]);
    if header[..16] != *INDEX_NAME {
        return None;
    }
    let length = std::str::from_utf8(&header[48..58]).ok()?;
    let index = rest.get(..length.trim_end().parse().ok()?)?;
    let count = u32::from_be_bytes(index.get(..4)?.try_into().ok()?) as usize;
    let names = index.get(count.checked_add(1)?.checked_mul(4)?..)?;
    Some(names.split(|byte| *byte == 0).take(count).collect())
}

/// Or what the archive has in place of this crate's layout.
fn has_layout(defined: &[&[u8]]) -> Result<(), String> {
    let layouts: BTreeSet<&str> = defined.iter().filter_map(|name| layout_of(name)).collect();
    if layouts.contains(LAYOUT.to_string().as_str()) {
        return Ok(());
    }
    if !layouts.is_empty() {
        let numbers: Vec<&str> = layouts.into_iter().collect();
        return Err(format!("has layout {}", numbers.join(" and ")));
    }
    Err(if defined.contains(&&b"nethazel_open"[..]) {
        "has its calls without a layout's number in their names: it is older than version 0.2.0"
    } else {
        "has no call of Nethazel: it is not Nethazel's archive"
    }
    .to_string())
}

/// The digits after `nethazel_open_layout_`, where the name is that of a call.
fn layout_of(name: &[u8]) -> Option<&str> {
    let digits = std::str::from_utf8(name.strip_prefix(b"nethazel_open_layout_")?).ok()?;
    let number = !digits.is_empty() && digits.bytes().all(|byte| byte.is_ascii_digit());
    number.then_some(digits)
}

fn link(archive: &Path) {
    let (folder, name) = folder_and_name(archive);
    println!("cargo:rustc-link-search=native={folder}");
    println!("cargo:rustc-link-lib=static={name}");
}

/// The folder and the name by which rustc finds the archive.
fn folder_and_name(archive: &Path) -> (&str, &str) {
    let file = archive.file_name().and_then(|name| name.to_str());
    let name = file
        .and_then(|file| file.strip_prefix("lib"))
        .and_then(|rest| rest.strip_suffix(".a"))
        .filter(|name| !name.is_empty() && !name.contains(':')) // rustc takes what follows a colon for another name
        .filter(|name| fits_a_line(name));
    let folder = archive.parent().and_then(Path::to_str);
    match (folder.filter(|folder| fits_a_line(folder)), name) {
        (Some(folder), Some(name)) => (folder, name),
        _ => fail(&format!(
            "an archive's name is libNAME.a, where NAME is not empty and has no colon, in a folder whose path is UTF-8, \
             neither of them ending in a blank, and not {}",
            archive.display()
        )),
    }
}

/// Cargo reads a line, and leaves out blanks at its end.
fn fits_a_line(text: &str) -> bool {
    !text.contains('\n') && !text.ends_with(char::is_whitespace)
}

/// Cargo doesn't tell a build script whether something will be linked. So a library is asked for that is nowhere, by a name
/// that says what is missing: rustc looks for it, and shows the name, only where it links.
fn link_nothing(missing: &Missing) {
    if let Some(words) = &missing.words {
        println!("cargo:warning={words}");
    }
    println!("cargo:rustc-link-lib=static={}", missing.name);
}
