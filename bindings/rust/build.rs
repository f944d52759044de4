//! Finds the library: in the folder that `POLOROWAN_LIBRARY` names, else where the linker looks. `POLOROWAN_SHARED=1` links
//! with the shared object.

fn main() {
    println!("cargo:rerun-if-env-changed=POLOROWAN_LIBRARY");
    println!("cargo:rerun-if-env-changed=POLOROWAN_SHARED");
    if let Ok(folder) = std::env::var("POLOROWAN_LIBRARY") {
        println!("cargo:rustc-link-search=native={folder}");
    }
    let kind = if std::env::var("POLOROWAN_SHARED").is_ok_and(|word| word == "1") { "dylib" } else { "static" };
    println!("cargo:rustc-link-lib={kind}=polorowan");
}
