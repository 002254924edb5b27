//! Finds the original's sources and writes a module file that names them by path.
//!
//! The folder is `LUHETAMI_ORIGINAL`, or `shared/docs/src` beside the repository. Nothing is copied.

use std::path::PathBuf;
use std::{env, fs};

fn main() {
    println!("cargo:rerun-if-env-changed=LUHETAMI_ORIGINAL");
    let here = PathBuf::from(env::var("CARGO_MANIFEST_DIR").unwrap());
    let folder = match env::var("LUHETAMI_ORIGINAL") {
        Ok(given) => PathBuf::from(given),
        Err(_) => here.join("../../../shared/docs/src"),
    };
    let file = |name: &str| {
        let path = folder.join("src").join(name);
        let path = fs::canonicalize(&path)
            .unwrap_or_else(|e| panic!("{}: {e}; set LUHETAMI_ORIGINAL to the folder of the original", path.display()));
        println!("cargo:rerun-if-changed={}", path.display());
        path.to_str().unwrap().to_owned()
    };
    let text = format!(
        "#[path = {:?}]\npub mod ast;\n#[path = {:?}]\npub mod error;\n/// The part of the syntax layer that is compared.\npub mod syntax {{\n    #[path = {:?}]\n    pub mod expand;\n}}\n",
        file("ast.rs"),
        file("error.rs"),
        file("syntax/expand.rs"),
    );
    fs::write(PathBuf::from(env::var("OUT_DIR").unwrap()).join("modules.rs"), text).unwrap();
}
