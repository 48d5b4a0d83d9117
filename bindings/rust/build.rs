// KEYCOUNT_LIBRARY_DIR has libkeycount.a, as bindings/build makes it.
fn main() {
    println!("cargo:rerun-if-env-changed=KEYCOUNT_LIBRARY_DIR");
    let Ok(folder) = std::env::var("KEYCOUNT_LIBRARY_DIR") else {
        panic!("set KEYCOUNT_LIBRARY_DIR to the folder of libkeycount.a");
    };
    println!("cargo:rerun-if-changed={folder}/libkeycount.a");
    println!("cargo:rustc-link-search=native={folder}");
    println!("cargo:rustc-link-lib=static=keycount");
}
