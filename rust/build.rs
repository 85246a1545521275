//! Links the monitor's static library, whose folder the environment names.
use std::path::Path;
use std::process::exit;

const FOLDER: &str = "YOKEMANGO_LIB";

fn main() {
    println!("cargo:rerun-if-env-changed={FOLDER}");
    let Ok(folder) = std::env::var(FOLDER) else {
        fail(&format!("{FOLDER} isn't set; it names the folder that has libyokemango.a, which `tools/build yokemango` writes to target/staticlib"));
    };
    let library = Path::new(&folder).join("libyokemango.a");
    if !library.is_absolute() {
        fail(&format!("{FOLDER} is {folder}, which isn't a whole path"));
    }
    if !library.is_file() {
        fail(&format!("{FOLDER} is {folder}, and there is no libyokemango.a in it"));
    }
    println!("cargo:rerun-if-changed={}", library.display());
    println!("cargo:rustc-link-search=native={folder}");
    println!("cargo:rustc-link-lib=static=yokemango");
}

fn fail(what: &str) -> ! {
    eprintln!("{what}");
    exit(1)
}
