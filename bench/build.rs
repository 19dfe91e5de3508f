//! Links the library's own module, compiled for this machine by bench/native.sh, into the bench.
fn main() {
    println!("cargo:rerun-if-env-changed=LEND_OBJECTS");
    let objects = std::env::var("LEND_OBJECTS").expect("bench/build.sh sets LEND_OBJECTS to the library's objects");
    for object in objects.split_whitespace() {
        println!("cargo:rerun-if-changed={object}");
        println!("cargo:rustc-link-arg-bins={object}");
    }
}
