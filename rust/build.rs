//! Finds the library libaspeyruni.a and has it linked. It does not build it: the library is proved before it is built, which takes minutes,
//! and cargo hides what a build script says while it runs.

use std::env;
use std::ffi::OsString;
use std::path::{absolute, Path, PathBuf};
use std::process::{exit, Command};

const FILE: &str = "libaspeyruni.a";
const FOLDER: &str = "ASPEYRUNI_LIB_DIR";

/// Structs cross to the library by their layout, so an installed one has to be of this very version.
const VERSION: &str = env!("CARGO_PKG_VERSION");

fn main() {
    for variable in [FOLDER, "PKG_CONFIG", "PKG_CONFIG_PATH", "PKG_CONFIG_LIBDIR"] {
        println!("cargo::rerun-if-env-changed={variable}");
    }
    match library() {
        Ok(folder) => link(&folder),
        Err(sentence) => {
            eprintln!("aspeyruni: {sentence}");
            exit(1);
        }
    }
}

/// Only the library that was found is watched: cargo would take one that is not there as changed, and compile all again at every call.
fn link(folder: &Path) {
    println!("cargo::rerun-if-changed={}", folder.join(FILE).display());
    println!("cargo::rustc-link-search=native={}", folder.display());
    println!("cargo::rustc-link-lib=static=aspeyruni");
}

/// The folder that has the library. One that is asked for by name is not passed over in silence: it has it, or nothing is linked.
fn library() -> Result<PathBuf, String> {
    if let Some(named) = variable(FOLDER) {
        // a build script runs in its package's folder, and the linker elsewhere
        let folder = absolute(&named).unwrap_or_else(|_| named.into());
        return holding(&folder)
            .ok_or_else(|| format!("{FOLDER} is {}, which has no {FILE}", folder.display()));
    }
    let repository = Path::new(env!("CARGO_MANIFEST_DIR")).join("..");
    let own = repository
        .canonicalize()
        .unwrap_or(repository)
        .join("build");
    holding(&own).or_else(installed).ok_or_else(|| {
        format!(
            "no {FILE}: {FOLDER} is not set, {} has none, and pkg-config knows no aspeyruni {VERSION}; `make` in the repository's root \
             writes it, in some minutes, since it proves it first",
            own.display()
        )
    })
}

fn holding(folder: &Path) -> Option<PathBuf> {
    folder.join(FILE).is_file().then(|| folder.to_path_buf())
}

/// Where pkg-config says that this version's library was installed.
fn installed() -> Option<PathBuf> {
    pkg_config(&format!("--exact-version={VERSION}"))?;
    holding(Path::new(pkg_config("--variable=libdir")?.trim_end()))
}

/// What it answers about the library; nothing where there is no such program, or where it does not know the library.
fn pkg_config(question: &str) -> Option<String> {
    let program = variable("PKG_CONFIG").unwrap_or_else(|| "pkg-config".into());
    let answer = Command::new(program)
        .args([question, "aspeyruni"])
        .output()
        .ok()?;
    let is_known = answer.status.success();
    is_known.then(|| String::from_utf8_lossy(&answer.stdout).into_owned())
}

/// An empty variable counts as none.
fn variable(name: &str) -> Option<OsString> {
    env::var_os(name).filter(|value| !value.is_empty())
}
