fn main() {
    println!("cargo:rerun-if-env-changed=TELLWYDAR_LIB");
    let folder = std::env::var("TELLWYDAR_LIB").expect(
        "TELLWYDAR_LIB names the folder of libreg_c.a and liblibc_c.a: `tools/bindings --keep FOLDER` makes it",
    );
    for name in ["reg_c", "libc_c"] {
        println!("cargo:rerun-if-changed={folder}/lib{name}.a");
    }
    println!("cargo:rustc-link-search=native={folder}");
    println!("cargo:rustc-link-lib=static=reg_c");
    println!("cargo:rustc-link-lib=static=libc_c");
}
