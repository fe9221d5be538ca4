//! Links the first implementation's static library, only when the feature `library` is on.
//! The file is `../target/staticlib/libcapi.a` beside this package, or the one named by `KRAMSNEP_STATICLIB`.
//!
//! The library may bring a runtime of its own (a panic handler, say) whose names collide with those of this binary. So
//! it is first made into one object in which only its seven functions are visible. Where the tools for that are missing,
//! it is linked as it is.

use std::env;
use std::ffi::OsStr;
use std::path::{Path, PathBuf};
use std::process::Command;

const FUNCTIONS: [&str; 7] = [
    "kramsnep_respond",
    "kramsnep_job_outcome",
    "kramsnep_save_part",
    "kramsnep_load",
    "kramsnep_find_session",
    "kramsnep_read_config",
    "kramsnep_tray",
];

fn main() {
    println!("cargo:rerun-if-changed=build.rs");
    println!("cargo:rerun-if-env-changed=KRAMSNEP_STATICLIB");
    if env::var_os("CARGO_FEATURE_LIBRARY").is_none() {
        return;
    }
    let file = static_library();
    println!("cargo:rerun-if-changed={}", file.display());
    if !file.is_file() {
        panic!("the feature `library` needs the static library {}", file.display());
    }
    match set_apart(&file) {
        Some(apart) => link(&apart),
        None => {
            println!("cargo:warning=ld, objcopy or ar failed: the static library is linked as it is");
            link(&file);
        }
    }
}

fn static_library() -> PathBuf {
    if let Some(named) = env::var_os("KRAMSNEP_STATICLIB") {
        return PathBuf::from(named);
    }
    let package = env::var_os("CARGO_MANIFEST_DIR").expect("cargo names the package directory");
    PathBuf::from(package).join("../target/staticlib/libcapi.a")
}

/// Makes a static library in which only the seven functions are visible.
fn set_apart(file: &Path) -> Option<PathBuf> {
    let directory = PathBuf::from(env::var_os("OUT_DIR")?);
    let object = directory.join("apart.o");
    let apart = directory.join("libapart.a");
    let _ = std::fs::remove_file(&apart);
    let mut ld = Command::new("ld");
    ld.args(["-r", "--force-group-allocation"])
        .args(FUNCTIONS.iter().flat_map(|function| ["-u", function]));
    succeeds(ld.arg("-o").arg(&object).arg(file))?;
    let mut objcopy = Command::new("objcopy");
    objcopy.args(FUNCTIONS.map(|function| format!("--keep-global-symbol={function}")));
    // Left by some compilers; an older `ar` stumbles over it.
    objcopy.args(["--remove-section=.llvmbc", "--remove-section=.llvmcmd"]);
    succeeds(objcopy.arg(&object))?;
    succeeds(Command::new("ar").args([OsStr::new("crs"), apart.as_os_str(), object.as_os_str()]))?;
    Some(apart)
}

fn succeeds(command: &mut Command) -> Option<()> {
    command.status().ok().filter(|status| status.success()).map(|_| ())
}

fn link(file: &Path) {
    let directory = file.parent().expect("the static library has a directory");
    let stem = file
        .file_stem()
        .and_then(|stem| stem.to_str())
        .expect("the static library has a readable name");
    let name = stem
        .strip_prefix("lib")
        .expect("the static library's name begins with lib");
    println!("cargo:rustc-link-search=native={}", directory.display());
    println!("cargo:rustc-link-lib=static={name}");
}
