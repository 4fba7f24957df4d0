//! Links libpbcnf.a: from the folder that PBCNF_LIB_DIR names, else from where pkg-config says that this version is installed, else
//! the one of ./build where it is newer than release/'s, else release/'s.
use std::env;
use std::path::{Path, PathBuf};
use std::process::Command;
use std::time::SystemTime;

const ARCHIVE: &str = "libpbcnf.a";

/// The folder of an installed library of this version.
fn installed() -> Option<PathBuf> {
    let asked = Command::new("pkg-config")
        .arg("--variable=libdir")
        .arg(concat!("pbcnf = ", env!("CARGO_PKG_VERSION")))
        .output()
        .ok()?;
    let folder = String::from_utf8(asked.stdout).ok()?;
    asked
        .status
        .success()
        .then(|| PathBuf::from(folder.trim_end()))
}

/// The folders of the repository that may have it for the system that the crate is built for.
fn in_repository() -> Vec<PathBuf> {
    let library = Path::new(env!("CARGO_MANIFEST_DIR")).join("../..");
    let target = |part| env::var(format!("CARGO_CFG_TARGET_{part}")).unwrap_or_default();
    let system = format!("{}-{}", target("ARCH"), target("OS"));
    vec![library.join("../release").join(system), library.join("out")]
}

/// When the archive in a folder was written, if there is one.
fn built_at(folder: &Path) -> Option<SystemTime> {
    folder.join(ARCHIVE).metadata().ok()?.modified().ok()
}

fn main() {
    let named = env::var_os("PBCNF_LIB_DIR").map(PathBuf::from);
    let folders = match named.or_else(installed) {
        Some(folder) => vec![folder],
        None => in_repository(),
    };
    let newest = folders
        .iter()
        .filter_map(|folder| Some((built_at(folder)?, folder)))
        .max();
    let folder = match newest {
        Some((_, folder)) => folder,
        None => panic!("there is no {ARCHIVE} in {folders:?}; ./build builds it, and PBCNF_LIB_DIR may name its folder"),
    };
    println!("cargo:rerun-if-env-changed=PBCNF_LIB_DIR");
    println!("cargo:rerun-if-env-changed=PKG_CONFIG_PATH");
    // One that is not there would have cargo build anew each time.
    for archive in folders.iter().map(|folder| folder.join(ARCHIVE)) {
        if archive.exists() {
            println!("cargo:rerun-if-changed={}", archive.display());
        }
    }
    println!("cargo:rustc-link-search=native={}", folder.display());
    println!("cargo:rustc-link-lib=static=pbcnf");
}
