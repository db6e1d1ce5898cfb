//! Links libjumbetai.a, from the folder that JUMBETAI_LIB_DIR names, or from where the linker looks.

fn main() {
    println!("cargo:rerun-if-env-changed=JUMBETAI_LIB_DIR");
    if let Some(folder) = std::env::var_os("JUMBETAI_LIB_DIR") {
        let folder = std::path::PathBuf::from(folder);
        println!("cargo:rustc-link-search=native={}", folder.display());
        println!(
            "cargo:rerun-if-changed={}",
            folder.join("libjumbetai.a").display()
        );
    }
    println!("cargo:rustc-link-lib=static=jumbetai");
}
