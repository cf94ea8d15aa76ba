//! Links libyamlcanon: from the folder that YAMLCANON_LIB_DIR names (its archive, as tools/library puts it there), else from the system.
use std::env;

fn main() {
    println!("cargo:rerun-if-env-changed=YAMLCANON_LIB_DIR");
    match env::var("YAMLCANON_LIB_DIR") {
        Ok(folder) => {
            println!("cargo:rerun-if-changed={folder}/libyamlcanon.a");
            println!("cargo:rustc-link-search=native={folder}");
            println!("cargo:rustc-link-lib=static=yamlcanon");
        }
        Err(_) => println!("cargo:rustc-link-lib=dylib=yamlcanon"),
    }
}
