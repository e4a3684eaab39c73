// Links libhost.a, in the folder ZABRUSKO_LIB.
use std::env;

fn main() {
    println!("cargo:rerun-if-env-changed=ZABRUSKO_LIB");
    let dir = env::var("ZABRUSKO_LIB").expect("set ZABRUSKO_LIB to the folder of libhost.a");
    println!("cargo:rustc-link-search=native={dir}");
    println!("cargo:rustc-link-lib=static=host");
    println!("cargo:rerun-if-changed={dir}/libhost.a");
}
