//! Finds the archive `libscopes.a` that `make lib` builds: in the folder that SCOPES_LIB names, else in
//! `target/lib` of the repository. A relative SCOPES_LIB is looked for from the folder where cargo was
//! run, then from the workspace's root, then from this crate's folder.

use std::env;
use std::ffi::OsString;
use std::path::{Path, PathBuf};
use std::process::exit;

const ARCHIVE: &str = "libscopes.a";

fn main() {
    println!("cargo:rerun-if-env-changed=SCOPES_LIB");
    let folders = folders();
    let Some(folder) = folders.iter().find(|folder| folder.join(ARCHIVE).is_file()) else {
        not_found(&folders);
    };
    // A whole path without links, since rustc runs in another folder than this.
    let folder = folder.canonicalize().unwrap_or_else(|_| folder.clone());
    println!("cargo:rerun-if-changed={}", folder.join(ARCHIVE).display());
    println!("cargo:rustc-link-search=native={}", folder.display());
    println!("cargo:rustc-link-lib=static=scopes");
}

/// Where the archive may lie, the likeliest first.
fn folders() -> Vec<PathBuf> {
    let home =
        PathBuf::from(env::var_os("CARGO_MANIFEST_DIR").expect("cargo names the crate's folder"));
    match env::var_os("SCOPES_LIB").filter(|named| !named.is_empty()) {
        None => vec![home.join("../../target/lib")],
        Some(named) if Path::new(&named).is_absolute() => vec![named.into()],
        Some(named) => relative(named, home),
    }
}

/// A relative name from the folders that a user may mean.
fn relative(named: OsString, home: PathBuf) -> Vec<PathBuf> {
    // The shell's own folder: cargo runs this program in the crate's.
    println!("cargo:rerun-if-env-changed=PWD");
    let run_in = env::var_os("PWD").map(PathBuf::from);
    let starts = [run_in, workspace(), Some(home)].into_iter().flatten();
    let mut folders: Vec<PathBuf> = starts.map(|start| start.join(&named)).collect();
    folders.dedup();
    folders
}

/// The workspace's root, as far as the place of its build output tells.
fn workspace() -> Option<PathBuf> {
    let output = PathBuf::from(env::var_os("OUT_DIR")?);
    let mut above = output.ancestors();
    above
        .find(|folder| folder.join("Cargo.toml").is_file())
        .map(Path::to_owned)
}

/// Tells where the archive was looked for, and ends.
fn not_found(folders: &[PathBuf]) -> ! {
    eprintln!(
        "{ARCHIVE} is not there: run `make lib`, or name its folder in SCOPES_LIB. Looked for in"
    );
    for folder in folders {
        eprintln!("  {}", folder.display());
    }
    exit(1)
}
