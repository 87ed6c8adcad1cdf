// Links the library (MICE_LIB) and the plain checker (PLAIN_OBJECT), both whole paths that run.sh sets.
fn main() {
    for key in ["PLAIN_OBJECT", "MICE_LIB"] {
        println!("cargo:rerun-if-env-changed={key}");
        if let Ok(file) = std::env::var(key) {
            println!("cargo:rerun-if-changed={file}");
            println!("cargo:rustc-link-arg-bins={file}");
        }
    }
    println!("cargo:rustc-link-arg-bins=-lm");
}
