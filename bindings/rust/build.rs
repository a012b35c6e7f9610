// Finds the library: in the folder BUTTMITREL_LIB_DIR, else where pkg-config says, else in the repository that this crate stands in.
use std::env;
use std::path::{Path, PathBuf};
use std::process::{exit, Command};

const NO_LIBRARY: &str = "there is no library of the judge. Install it with './buttmitrel install', \
    or set BUTTMITREL_LIB_DIR to the folder that has libbuttmitrel.a";

// The library's folder and file, and how it is linked.
struct Library {
    folder: PathBuf,
    file: &'static str,
    kind: &'static str,
}

fn main() {
    println!("cargo:rerun-if-env-changed=BUTTMITREL_LIB_DIR");
    println!("cargo:rerun-if-env-changed=PKG_CONFIG_PATH");
    let library = match env::var_os("BUTTMITREL_LIB_DIR") {
        Some(folder) => named(PathBuf::from(folder)),
        None => installed().or_else(built).unwrap_or_else(|| stop(NO_LIBRARY)),
    };
    println!("cargo:rerun-if-changed={}", library.folder.join(library.file).display());
    println!("cargo:rustc-link-search=native={}", library.folder.display());
    println!("cargo:rustc-link-lib={}=buttmitrel", library.kind);
}

fn stop(message: &str) -> ! {
    eprintln!("buttmitrel: {message}");
    exit(1)
}

fn library_in(folder: PathBuf) -> Option<Library> {
    let kinds = [("libbuttmitrel.a", "static"), ("libbuttmitrel.so", "dylib")];
    let (file, kind) = kinds.into_iter().find(|(file, _)| folder.join(file).is_file())?;
    Some(Library { folder, file, kind })
}

fn named(folder: PathBuf) -> Library {
    let shown = format!("BUTTMITREL_LIB_DIR is '{}'", folder.display());
    if folder.is_relative() {
        stop(&format!("{shown}; set it to a whole path, which begins with /"));
    }
    library_in(folder).unwrap_or_else(|| {
        stop(&format!("{shown}, and no libbuttmitrel.a or libbuttmitrel.so is there; set it to the folder that has one"))
    })
}

// pkg-config puts a backslash before a space.
fn installed() -> Option<Library> {
    let answer = Command::new("pkg-config").args(["--variable=libdir", "buttmitrel"]).output().ok()?;
    let folder = String::from_utf8(answer.stdout).ok()?;
    library_in(PathBuf::from(folder.trim_end().replace("\\ ", " ")))
}

fn built() -> Option<Library> {
    let root = Path::new(&env::var_os("CARGO_MANIFEST_DIR")?).join("../..");
    library_in(root.canonicalize().ok()?.join("target/lib"))
}
