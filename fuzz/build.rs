// Links the archive that MICE_LIB names (a whole path; run.sh sets it) into the driver.
fn main() {
    println!("cargo:rerun-if-env-changed=MICE_LIB");
    if let Ok(lib) = std::env::var("MICE_LIB") {
        println!("cargo:rerun-if-changed={lib}");
        println!("cargo:rustc-link-arg-bins={lib}");
        println!("cargo:rustc-link-arg-bins=-lm");
    }
}
