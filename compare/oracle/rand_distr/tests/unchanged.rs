//! What is compiled is each module's text to the byte, and one line after it.

use std::fs;
use std::path::Path;

#[test]
fn modules_are_unchanged() {
    let sources = Path::new(env!("RAND_DISTR_SOURCES"));
    let compiled = Path::new(env!("OUT_DIR"));
    for module in [
        "gamma",
        "beta",
        "chi_squared",
        "fisher_f",
        "student_t",
        "pert",
        "multi/dirichlet",
    ] {
        let source = fs::read(sources.join(format!("{module}.rs"))).unwrap();
        let name = module.trim_start_matches("multi/");
        let text = fs::read(compiled.join(format!("{name}.rs"))).unwrap();
        let rest = text.strip_prefix(source.as_slice()).expect(module);
        let rest = String::from_utf8(rest.to_vec()).unwrap();
        assert!(rest.starts_with("\n#[path = "), "{module}: {rest}");
        assert!(rest.ends_with("] pub mod raw;\n"), "{module}: {rest}");
        assert_eq!(rest.lines().count(), 2, "{module}: {rest}");
    }
}
