// Finds libtaxolbin.a and tells the linker of it. Where there is none it says in plain words what was looked for and what to do.
use std::env;
use std::path::{Path, PathBuf};
use std::process::{exit, Command};

const ARCHIVE: &str = "libtaxolbin.a";
const TO_DO: &str = "\
To mend it, do one of these:
  - run `./install.sh PREFIX` in the Taxolbin repository and set PKG_CONFIG_PATH=PREFIX/lib/pkgconfig
  - set TAXOLBIN_LIB_DIR to the folder that has libtaxolbin.a";

fn main() {
    for name in ["TAXOLBIN_LIB_DIR", "PKG_CONFIG", "PKG_CONFIG_PATH", "PKG_CONFIG_LIBDIR"] {
        println!("cargo:rerun-if-env-changed={name}");
    }
    let found = check_target().and_then(|()| match variable("TAXOLBIN_LIB_DIR") {
        Some(folder) => from_folder(Path::new(&folder), "TAXOLBIN_LIB_DIR"),
        None => from_pkg_config(),
    });
    match found {
        Ok(folder) => {
            println!("cargo:rustc-link-search=native={}", folder.display());
            println!("cargo:rustc-link-lib=static=taxolbin");
            println!("cargo:rerun-if-changed={}", folder.join(ARCHIVE).display());
        }
        Err(why) => {
            eprintln!("taxolbin: {why}");
            exit(1);
        }
    }
}

// A variable that is set to something.
fn variable(name: &str) -> Option<String> {
    env::var(name).ok().filter(|value| !value.is_empty())
}

fn check_target() -> Result<(), String> {
    let part = |name: &str| variable(name).unwrap_or_default();
    let (arch, os, width) = (part("CARGO_CFG_TARGET_ARCH"), part("CARGO_CFG_TARGET_OS"), part("CARGO_CFG_TARGET_POINTER_WIDTH"));
    if arch == "x86_64" && os == "linux" && width == "64" {
        return Ok(());
    }
    Err(format!("the archive is for x86-64 Linux with 64-bit pointers, and this build is for {arch} {os} with {width}-bit pointers."))
}

// The folder in full, if it has the archive; `whence` says who named it. In full, because the linker runs elsewhere than a build script.
fn from_folder(folder: &Path, whence: &str) -> Result<PathBuf, String> {
    let full = env::current_dir().unwrap_or_default().join(folder);
    if full.join(ARCHIVE).is_file() {
        Ok(full.canonicalize().unwrap_or(full))
    } else {
        Err(format!("there is no {ARCHIVE} in {}, the folder that {whence} names.\n{TO_DO}", full.display()))
    }
}

fn from_pkg_config() -> Result<PathBuf, String> {
    let version = ask_pkg_config("--modversion")?;
    let package = env!("CARGO_PKG_VERSION");
    if series(&version) != series(package) {
        return Err(format!(
            "pkg-config finds Taxolbin {version}, and this package is {package}: the first two numbers must be the same.\n\
             To mend it, run `./install.sh PREFIX` in the repository that this package is of, and set PKG_CONFIG_PATH=PREFIX/lib/pkgconfig"
        ));
    }
    let folder = ask_pkg_config("--variable=libdir")?;
    from_folder(Path::new(&folder), "pkg-config")
}

// The first two numbers of a version.
fn series(version: &str) -> Vec<&str> {
    version.split('.').take(2).collect()
}

fn ask_pkg_config(question: &str) -> Result<String, String> {
    let program = variable("PKG_CONFIG").unwrap_or_else(|| "pkg-config".to_string());
    let looked = format!("{ARCHIVE} was not found: TAXOLBIN_LIB_DIR is not set, and `{program} {question} taxolbin`");
    match Command::new(&program).args([question, "taxolbin"]).output() {
        Err(why) => Err(format!("{looked} could not be run ({why}).\n{TO_DO}")),
        Ok(answer) if !answer.status.success() => {
            let said = String::from_utf8_lossy(&answer.stderr);
            let first = said.lines().next().unwrap_or("it says nothing").trim_end_matches('.');
            Err(format!("{looked} finds none ({first}).\n{TO_DO}"))
        }
        Ok(answer) => Ok(String::from_utf8_lossy(&answer.stdout).trim().to_string()),
    }
}
