//! Links libquicksetter.a and libhandheld.a from the folder that QUICKSETTER_LIB names, by default the repository's target/here.

fn main() {
    let folder = std::env::var("QUICKSETTER_LIB")
        .unwrap_or_else(|_| format!("{}/../../target/here", env!("CARGO_MANIFEST_DIR")));
    println!("cargo:rustc-link-search=native={folder}");
    println!("cargo:rerun-if-env-changed=QUICKSETTER_LIB");
    for library in ["quicksetter", "handheld"] {
        println!("cargo:rustc-link-lib=static={library}");
        println!("cargo:rerun-if-changed={folder}/lib{library}.a");
    }
}
