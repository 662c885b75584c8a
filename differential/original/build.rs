//! Writes the list of the original's files, which stay where they are: ORIGINAL names their folder.
use std::path::Path;
use std::{env, fs};

fn main() {
    println!("cargo:rerun-if-env-changed=ORIGINAL");
    let folder = env::var("ORIGINAL").expect("ORIGINAL names the folder of the original's files");
    let mut modules = String::new();
    for name in ["free_list", "gen_arena", "remapper"] {
        let file = Path::new(&folder).join(format!("{name}.rs"));
        modules += &format!("#[path = {file:?}]\npub mod {name};\n");
        println!("cargo:rerun-if-changed={}", file.display());
    }
    // the values of a region are private to its file, so the file is read into a module that lets them be seen
    let region = Path::new(&folder).join("region.rs");
    modules += &format!(
        "pub mod region {{\n    include!({region:?});\n    include!(concat!(env!(\"CARGO_MANIFEST_DIR\"), \"/src/values.rs\"));\n}}\n"
    );
    println!("cargo:rerun-if-changed={}", region.display());
    let out = env::var("OUT_DIR").expect("cargo names the folder");
    fs::write(Path::new(&out).join("modules.rs"), modules).expect("the list of modules is written");
}
