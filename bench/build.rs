//! Links the program, and not the library, with the archives named in the environment.

fn main() {
    for name in ["EXPORTED", "EXPORTED_C"] {
        println!("cargo:rerun-if-env-changed={name}");
        if let Ok(path) = std::env::var(name) {
            println!("cargo:rerun-if-changed={path}");
            println!("cargo:rustc-link-arg-bins={path}");
        }
    }
}
