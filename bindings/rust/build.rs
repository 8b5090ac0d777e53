//! Finds the archive of the proved functions, sees that it belongs to the crate's declarations, and links it.
//!
//! It is the file that PROMISEBOOK_ARCHIVE names; else the one in the repository's dist/ or target/bindings that was made
//! from the crates as they are; else the Rattle kit makes one now. With the feature `inlined` it is the second archive,
//! libpromisebook_inlined.a. What goes wrong is said in two lines: what it is, and what helps.
use std::collections::BTreeSet;
use std::env;
use std::fs::{self, File};
use std::path::{Path, PathBuf};
use std::process::{self, Command, Stdio};

const VARIABLE: &str = "PROMISEBOOK_ARCHIVE";

/// What is wrong, and what helps.
struct Fault(String, String);

fn fault<T>(wrong: impl Into<String>, help: impl Into<String>) -> Result<T, Fault> {
    Err(Fault(wrong.into(), help.into()))
}

fn cargo_says(name: &str) -> String {
    env::var(name).unwrap_or_default()
}

fn main() {
    if let Err(Fault(wrong, help)) = linked() {
        eprintln!("promisebook: {wrong}\npromisebook: {help}");
        process::exit(1)
    }
}

fn linked() -> Result<(), Fault> {
    println!("cargo:rerun-if-env-changed={VARIABLE}");
    println!("cargo:rerun-if-changed=build.rs");
    this_machine()?;
    let own_folder = PathBuf::from(cargo_says("CARGO_MANIFEST_DIR"));
    let repository = Some(own_folder.join("../..")).filter(|folder| folder.join("crates.txt").is_file());
    for part in repository.iter().flat_map(|folder| ["crates", "crates.txt", "dist"].map(|name| folder.join(name))).filter(|path| path.exists()) {
        println!("cargo:rerun-if-changed={}", part.display());
    }
    let inlined = env::var_os("CARGO_FEATURE_INLINED").is_some();
    let path = match (env::var_os(VARIABLE), &repository) {
        (Some(named), _) => named_archive(PathBuf::from(named), repository.as_deref())?,
        (None, Some(folder)) => archive_of(folder, if inlined { "libpromisebook_inlined.a" } else { "libpromisebook.a" })?,
        (None, None) => {
            return fault(
                "this crate stands outside its repository, and no archive is named",
                format!("set {VARIABLE} to the path of libpromisebook.a, as the repository has it in dist/"),
            )
        }
    };
    println!("cargo:rerun-if-changed={}", path.display());
    let declared = declared_in(&own_folder.join("src/exported.rs"))?;
    let bytes = fs::read(&path).map_err(|error| Fault(format!("{} cannot be read: {error}", path.display()), "see who may read it".into()))?;
    let archive = Archive::of(&bytes)
        .map_err(|wrong| Fault(format!("{} {wrong}", path.display()), "name libpromisebook.a, as dist/ has it or bindings/archive writes it".into()))?;
    same_names(&path, &declared, &archive.exported)?;
    modules_fit(&path, inlined, archive.modules_of.as_deref())?;
    // A copy under the name that the linker looks for, whatever the file is called.
    let folder = PathBuf::from(cargo_says("OUT_DIR"));
    fs::write(folder.join("libpromisebook.a"), bytes)
        .map_err(|error| Fault(format!("{} cannot be written to: {error}", folder.display()), "see who may write there".into()))?;
    println!("cargo:rustc-link-search=native={}", folder.display());
    println!("cargo:rustc-link-lib=static=promisebook");
    Ok(())
}

/// The code is for x86-64 with pointers of 64 bits, in ELF objects.
fn this_machine() -> Result<(), Fault> {
    let elf = !["windows", "uefi", "cygwin"].contains(&&*cargo_says("CARGO_CFG_TARGET_OS")) && cargo_says("CARGO_CFG_TARGET_VENDOR") != "apple";
    if elf && cargo_says("CARGO_CFG_TARGET_ARCH") == "x86_64" && cargo_says("CARGO_CFG_TARGET_POINTER_WIDTH") == "64" {
        return Ok(());
    }
    fault(
        format!("the proved functions are compiled for x86-64 and ELF, as Linux has it, and this build is for {}", cargo_says("TARGET")),
        "build for such a machine, as by: cargo build --target x86_64-unknown-linux-gnu",
    )
}

// ---- where the archive is

fn named_archive(path: PathBuf, repository: Option<&Path>) -> Result<PathBuf, Fault> {
    let named = path.display();
    if path.as_os_str().is_empty() {
        return fault(format!("{VARIABLE} is set, but empty"), "have it name an archive by its whole path, or unset it");
    }
    if path.is_relative() {
        return fault(
            format!("{VARIABLE} is {named}, which does not begin at the root, and build scripts run in a folder of their own"),
            format!("name the archive by its whole path, as by: {VARIABLE}=\"$PWD/{named}\""),
        );
    }
    if path.is_dir() {
        return fault(format!("{VARIABLE} is {named}, which is a folder"), format!("name the file in it: {}", path.join("libpromisebook.a").display()));
    }
    if !path.is_file() {
        return fault(format!("{VARIABLE} is {named}, and there is no such file"), "have it name an archive that is there, or unset it");
    }
    if path.with_file_name("MADE_FROM").is_file() {
        if let Err(why) = belongs(&path, repository) {
            let help =
                format!("take the archive and this crate from one version; bindings/archive writes it anew, and without {VARIABLE} the one in dist/ is taken");
            return fault(format!("{named} does not belong to this crate: {why}"), help);
        }
    }
    Ok(path)
}

fn archive_of(repository: &Path, name: &str) -> Result<PathBuf, Fault> {
    let mut why_not = Vec::new();
    for folder in ["dist", "target/bindings"] {
        let path = repository.join(folder).join(name);
        match belongs(&path, Some(repository)) {
            Ok(()) => return Ok(path),
            Err(why) => why_not.push(format!("{folder}/{name}: {why}")),
        }
    }
    let why_not = why_not.join("; ");
    if !env::split_paths(&env::var_os("PATH").unwrap_or_default()).any(|folder| folder.join("rt").is_file()) {
        return fault(
            format!("there is no archive of the crates as they are ({why_not}), and no rt on the PATH to prove them and write one"),
            format!("take crates/ and dist/ from one commit, or set {VARIABLE}, or put the command rt of the Rattle kit on the PATH"),
        );
    }
    // cargo keeps to itself what a build script prints: on a terminal, how far the proofs are is told there.
    let terminal = File::options().write(true).open("/dev/tty");
    let script = repository.join("bindings/archive");
    let run = Command::new(&script).arg("--inlined").stderr(terminal.map_or_else(|_| Stdio::piped(), Stdio::from)).output();
    match run {
        Err(error) => {
            return fault(
                format!("there is no archive ({why_not}), and {} cannot be run: {error}", script.display()),
                format!("set {VARIABLE} to the path of one"),
            )
        }
        Ok(output) if !output.status.success() => {
            eprint!("{}{}", String::from_utf8_lossy(&output.stdout), String::from_utf8_lossy(&output.stderr));
            return fault(format!("there is no archive ({why_not}), and bindings/archive failed to write one"), "see what it says, by running it alone");
        }
        Ok(_) => Ok(repository.join("target/bindings").join(name)),
    }
}

/// Whether MADE_FROM beside the archive names this version and, where the crates are at hand, these crates; else why not.
fn belongs(path: &Path, repository: Option<&Path>) -> Result<(), String> {
    if !path.is_file() {
        return Err("it is not there".into());
    }
    let made_from = fs::read_to_string(path.with_file_name("MADE_FROM")).map_err(|_| "no MADE_FROM beside it says what it was made from".to_string())?;
    let said = |what: &str| made_from.lines().find_map(|line| line.strip_prefix(what)?.strip_prefix(": ")).unwrap_or("none");
    let own = cargo_says("CARGO_PKG_VERSION");
    if said("version") != own {
        return Err(format!("it is of version {}, and this crate of {own}", said("version")));
    }
    let Some(repository) = repository else { return Ok(()) };
    // What the hash is of is written once, in that script.
    let run = Command::new("sh").arg(repository.join("bindings/crates_hash")).output();
    match run.map(|output| String::from_utf8_lossy(&output.stdout).trim().to_string()) {
        Ok(now) if now.len() == 64 && now == said("crates") => Ok(()),
        Ok(now) if now.len() == 64 => Err("the crates were changed since it was made".into()),
        _ => Err("whether the crates were changed since cannot be told: bindings/crates_hash needs sh, find, sort and sha256sum".into()),
    }
}

// ---- what is in it

struct Archive {
    /// The library's functions, by the archive's index.
    exported: BTreeSet<String>,
    /// The version of LLVM whose modules it has besides the machine code.
    modules_of: Option<String>,
}

impl Archive {
    /// Of an archive as ar writes it for ELF: members, each behind a header of 60 bytes; `/` is the index and `//` has the long names.
    fn of(bytes: &[u8]) -> Result<Archive, &'static str> {
        const BROKEN: &str = "is an archive, but not whole";
        let mut rest = bytes.strip_prefix(b"!<arch>\n").ok_or("is not an archive")?;
        let mut archive = Archive { exported: BTreeSet::new(), modules_of: None };
        while rest.len() > 60 {
            let (header, behind) = rest.split_at(60);
            let size: usize = String::from_utf8_lossy(&header[48..58]).trim().parse().map_err(|_| BROKEN)?;
            let content = behind.get(..size).ok_or(BROKEN)?;
            match header[..16].trim_ascii_end() {
                b"/" => archive.exported = names_of_index(content).ok_or(BROKEN)?,
                b"//" => archive.modules_of = String::from_utf8_lossy(content).lines().find_map(llvm_of_module),
                _ if content.starts_with(b"\x7fELF") && content.get(4) == Some(&2) && content.get(18..20) == Some(&[62, 0]) => {}
                _ => return Err("holds other code than x86-64's"),
            }
            rest = behind.get(size + size % 2..).unwrap_or_default();
        }
        Ok(archive)
    }
}

/// How many there are, in four bytes, highest first; so many places of four bytes; so many names, each with a zero behind it.
fn names_of_index(index: &[u8]) -> Option<BTreeSet<String>> {
    let count = u32::from_be_bytes(index.get(..4)?.try_into().ok()?) as usize;
    let names = index.get(4 + 4 * count..)?.split(|byte| *byte == 0).take(count);
    Some(names.map(|name| String::from_utf8_lossy(name).into_owned()).filter(|name| name.starts_with("pb_")).collect())
}

/// The name of a module's member ends in .llvmVERSION.rcgu.o, and its line in a slash.
fn llvm_of_module(line: &str) -> Option<String> {
    line.strip_suffix(".rcgu.o/")?.rsplit_once(".llvm").map(|(_, version)| version.to_string())
}

fn declared_in(source: &Path) -> Result<BTreeSet<String>, Fault> {
    println!("cargo:rerun-if-changed={}", source.display());
    let text = fs::read_to_string(source).map_err(|error| Fault(format!("{} cannot be read: {error}", source.display()), "take the whole crate".into()))?;
    let names = text.lines().filter_map(|line| line.split_once("fn pb_")?.1.split_once('('));
    Ok(names.map(|(name, _)| format!("pb_{name}")).collect())
}

fn same_names(path: &Path, declared: &BTreeSet<String>, exported: &BTreeSet<String>) -> Result<(), Fault> {
    let some = |names: Vec<&String>| format!("{} ({}{})", names.len(), names[0], if names.len() > 1 { ", .." } else { "" });
    let missing: Vec<_> = declared.difference(exported).collect();
    let unknown: Vec<_> = exported.difference(declared).collect();
    let wrong = match (missing.is_empty(), unknown.is_empty()) {
        (true, true) => return Ok(()),
        (false, true) => format!("it lacks {} of the {} functions that this crate declares", some(missing), declared.len()),
        (true, false) => format!("it has {} functions that this crate does not declare", some(unknown)),
        (false, false) => format!("it lacks {} of the {} functions that this crate declares, and has {} others", some(missing), declared.len(), some(unknown)),
    };
    fault(format!("{} is of another version: {wrong}", path.display()), "take the archive and this crate from one version")
}

/// A module can be read by the LLVM that wrote it, and by later ones.
fn modules_fit(path: &Path, wanted: bool, modules_of: Option<&str>) -> Result<(), Fault> {
    let Some(theirs) = modules_of else {
        if !wanted {
            return Ok(());
        }
        let help = "name libpromisebook_inlined.a, which dist/ has and bindings/archive --inlined writes, or leave the feature `inlined` out";
        return fault(format!("{} has machine code alone, and nothing to inline", path.display()), help);
    };
    let said = rustc(&["-vV"]);
    let ours = said.lines().find_map(|line| line.strip_prefix("LLVM version: ")).unwrap_or("unknown");
    let first = |version: &str| version.split('.').next().and_then(|number| number.parse::<u32>().ok());
    if first(ours) < first(theirs) {
        return fault(
            format!("{} has modules that LLVM {theirs} wrote, and this rustc's LLVM, {ours}, cannot read them", path.display()),
            "take a rustc whose LLVM is as new (Rust 1.95 has LLVM 22), or libpromisebook.a and no feature `inlined`",
        );
    }
    if wanted && lists_its_objects() {
        println!("cargo:warning=this rustc takes no modules from archives: the operations are called, and not inlined as by Rust 1.95 (bindings/README.md)");
    }
    Ok(())
}

fn rustc(words: &[&str]) -> String {
    let output = Command::new(env::var_os("RUSTC").unwrap_or("rustc".into())).args(words).output();
    output.map(|output| String::from_utf8_lossy(&output.stdout).into_owned()).unwrap_or_default()
}

/// Whether rustc writes a list of its own objects into a library, as it does from some version on: then it takes no others for its own.
fn lists_its_objects() -> bool {
    let folder = PathBuf::from(cargo_says("OUT_DIR"));
    let (source, library) = (folder.join("empty.rs"), folder.join("libempty.rlib"));
    if fs::write(&source, "#![no_std]\n").is_err() {
        return false;
    }
    rustc(&["--crate-type", "rlib", "-o", &library.to_string_lossy(), &source.to_string_lossy()]);
    fs::read(library).is_ok_and(|bytes| bytes.windows(14).any(|name| name == b"lib.rmeta-link"))
}
