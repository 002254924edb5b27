//! With the feature `library`: links `libluhetami.a` from the folder `LUHETAMI_LIBRARY`.

fn main() {
    println!("cargo:rerun-if-env-changed=LUHETAMI_LIBRARY");
    if std::env::var_os("CARGO_FEATURE_LIBRARY").is_some() {
        let folder = std::env::var("LUHETAMI_LIBRARY").expect("LUHETAMI_LIBRARY: the folder of libluhetami.a");
        println!("cargo:rerun-if-changed={folder}/libluhetami.a");
        println!("cargo:rustc-link-search=native={folder}");
        println!("cargo:rustc-link-lib=static=luhetami");
    }
}
