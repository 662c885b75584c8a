//! Links the port's static libraries: PORT names their folder.
use std::env;

fn main() {
    println!("cargo:rerun-if-env-changed=PORT");
    let folder = env::var("PORT").expect("PORT names the folder of the port's libraries");
    println!("cargo:rustc-link-search=native={folder}");
    for library in ["exports", "bundles", "planning"] {
        println!("cargo:rustc-link-lib=static={library}");
        println!("cargo:rerun-if-changed={folder}/lib{library}.a");
    }
}
