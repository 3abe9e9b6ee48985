//! Reads the seven modules where they are, so that none of their text is kept in the repository. Into OUT_DIR go, for each,
//! its bytes unchanged and after them one line that declares a child module, src/raw/: only a child sees the private fields.

use std::path::{Path, PathBuf};
use std::{env, fs, io};

const AT_THE_ROOT: [&str; 6] = [
    "beta",
    "chi_squared",
    "fisher_f",
    "gamma",
    "pert",
    "student_t",
];
const IN_MULTI: [&str; 1] = ["dirichlet"];

struct Places {
    here: PathBuf,
    out: PathBuf,
}

// A relative path is taken from the root of the repository, as the gate takes it.
fn sources(here: &Path) -> PathBuf {
    let root = here.ancestors().nth(3).expect("compare/oracle/rand_distr");
    let given = env::var_os("EWEB_DOCS_SRC").filter(|path| !path.is_empty());
    let path = given.unwrap_or_else(|| "../shared/docs/src".into());
    root.join(path).join("src")
}

// Writes the modules, and a file of the lines that declare them.
fn declare(names: &[&str], sources: &Path, file: &str, places: &Places) -> io::Result<()> {
    let mut declarations = String::new();
    for name in names {
        let source = sources.join(format!("{name}.rs"));
        println!("cargo::rerun-if-changed={}", source.display());
        let Ok(mut text) = fs::read(&source) else {
            let source = source.display();
            println!(
                "cargo::error=there is no {source}: EWEB_DOCS_SRC is to name rand_distr 0.6.0"
            );
            continue;
        };
        let raw = places.here.join("src/raw").join(format!("{name}.rs"));
        text.extend(format!("\n#[path = {raw:?}] pub mod raw;\n").bytes());
        let copy = places.out.join(format!("{name}.rs"));
        fs::write(&copy, text)?;
        declarations += &format!("#[path = {copy:?}] pub mod {name};\n");
    }
    fs::write(places.out.join(file), declarations)
}

fn main() -> io::Result<()> {
    println!("cargo::rerun-if-env-changed=EWEB_DOCS_SRC");
    println!("cargo::rerun-if-changed=build.rs");
    let directory = |name| PathBuf::from(env::var_os(name).expect("cargo sets it"));
    let places = Places {
        here: directory("CARGO_MANIFEST_DIR"),
        out: directory("OUT_DIR"),
    };
    let sources = sources(&places.here);
    declare(&AT_THE_ROOT, &sources, "modules.rs", &places)?;
    declare(&IN_MULTI, &sources.join("multi"), "multi.rs", &places)?;
    // For the test that the text is unchanged.
    println!("cargo::rustc-env=RAND_DISTR_SOURCES={}", sources.display());
    Ok(())
}
