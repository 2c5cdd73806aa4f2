//! Compiles and links the opponents in plain C.
use std::process::Command;

const SOURCE: &str = "src/plain.c";
const INCLUDE: &str = "../../include";

fn main() {
    let out = std::env::var("OUT_DIR").expect("cargo names the folder");
    let (object, library) = (format!("{out}/plain.o"), format!("{out}/libplain.a"));
    let flags = "-O2 -std=c11 -Wall -Wextra -Werror -fno-math-errno";
    let paths = ["-I", INCLUDE, "-c", SOURCE, "-o", &object];
    run(Command::new("cc").args(flags.split(' ')).args(paths));
    run(Command::new("ar").args(["crs", &library, &object]));
    println!("cargo:rustc-link-search=native={out}");
    println!("cargo:rustc-link-lib=static=plain");
    println!("cargo:rerun-if-changed={SOURCE}");
    println!("cargo:rerun-if-changed={INCLUDE}/jemmyfern.h");
}

fn run(command: &mut Command) {
    let status = command.status().expect("cc and ar are there");
    assert!(status.success(), "{command:?}: {status}");
}
