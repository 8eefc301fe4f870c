//! Links the proved static library, `libhost.a`. It is
//!
//! 1. in the folder that the environment variable `MAKVLURIA_LIB` names, where it is set;
//! 2. else in `target/staticlib` of the repository, where `host/library` writes it;
//! 3. else made there by that script, if the kit's `rt` is on the PATH. It proves what it builds: minutes on a fresh clone.
//!
//! A library that stands there is taken as it is, also where it is older than the proved code: only `rt` can tell, and it is asked by
//! running the script again. A copy of it is linked. A build that must not start `rt` beside a running `rt ci` names a copy by the variable.

use std::ffi::OsString;
use std::io::ErrorKind;
use std::path::{Path, PathBuf};
use std::process::{Command, Output};
use std::{env, fs};

const VARIABLE: &str = "MAKVLURIA_LIB";
const FILE: &str = "libhost.a";
const COMMAND: &str = "host/library";
/// Where the command writes the library, from the root of the repository.
const FOLDER: &str = "target/staticlib";
/// What the command writes it for.
const ARCHITECTURE: &str = "x86_64";

fn main() {
    println!("cargo:rerun-if-env-changed={VARIABLE}");
    if let Err(message) = link() {
        eprintln!("{message}");
        std::process::exit(1);
    }
}

fn link() -> Result<(), String> {
    let root = Path::new(&given("CARGO_MANIFEST_DIR")).join("../..");
    let root = root.canonicalize().map_err(|error| format!("{}: {error}", root.display()))?;
    let library = find(env::var_os(VARIABLE), &root, &given("CARGO_CFG_TARGET_ARCH"), run)?;
    // Cargo takes a missing file for a changed one.
    println!("cargo:rerun-if-changed={}", library.display());
    let folder = PathBuf::from(given("OUT_DIR"));
    fs::read(&library)
        .and_then(|bytes| fs::write(folder.join(FILE), bytes))
        .map_err(|error| format!("cannot copy {}: {error}", library.display()))?;
    println!("cargo:rustc-link-search=native={}", folder.display());
    println!("cargo:rustc-link-lib=static=host");
    Ok(())
}

/// A variable that cargo sets for every build script.
fn given(variable: &str) -> String {
    env::var(variable).unwrap_or_else(|error| panic!("{variable}: {error}"))
}

/// Where the library is, made if it has to be; else what to do. `run` runs the command at the root.
pub fn find(
    named: Option<OsString>,
    root: &Path,
    architecture: &str,
    run: impl FnOnce(&Path) -> std::io::Result<Output>,
) -> Result<PathBuf, String> {
    if let Some(folder) = named.filter(|folder| !folder.is_empty()) {
        return find_named(Path::new(&folder));
    }
    if architecture != ARCHITECTURE {
        return Err(format!(
            "`{COMMAND}` writes a library for {ARCHITECTURE}, and this build is for {architecture}: {VARIABLE} has to name a folder that \
             holds a {FILE} for it"
        ));
    }
    let library = root.join(FOLDER).join(FILE);
    if !library.is_file() {
        make(&library, root, run)?;
    }
    Ok(library)
}

fn find_named(folder: &Path) -> Result<PathBuf, String> {
    let library = folder.join(FILE);
    if folder.is_relative() {
        // A build script does not know where the command was given.
        return Err(format!("{VARIABLE} has to be an absolute path, and is {}", folder.display()));
    }
    if !library.is_file() {
        return Err(format!(
            "{VARIABLE} names {}, and there is no {FILE} in it: `{COMMAND}`, run at the root of the repository, writes it to {FOLDER}",
            folder.display()
        ));
    }
    Ok(library)
}

fn make(
    library: &Path,
    root: &Path,
    run: impl FnOnce(&Path) -> std::io::Result<Output>,
) -> Result<(), String> {
    let advice = format!(
        "Run `{COMMAND}` in {}, with the Rattle kit's `rt` on the PATH, or let {VARIABLE} name a folder that holds a {FILE}.",
        root.display()
    );
    match run(root) {
        Ok(output) if output.status.success() && library.is_file() => Ok(()),
        Ok(output) => Err(format!(
            "`{COMMAND}` left no {} ({}).\n{}{}{advice}",
            library.display(),
            output.status,
            String::from_utf8_lossy(&output.stdout),
            String::from_utf8_lossy(&output.stderr),
        )),
        Err(error) if error.kind() == ErrorKind::NotFound => {
            Err(format!("There is no {}, and no `rt` to make it. {advice}", library.display()))
        }
        Err(error) => Err(format!("`{COMMAND}` cannot be run: {error}. {advice}")),
    }
}

/// Its output is kept back: cargo reads what a build script prints.
fn run(root: &Path) -> std::io::Result<Output> {
    Command::new(root.join(COMMAND)).current_dir(root).output()
}
