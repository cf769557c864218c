//! QPACK is that of the C host: host/qpack.c over libnghttp3.

use std::env;
use std::path::Path;
use std::process::Command;

fn run(command: &mut Command) {
    assert!(command.status().is_ok_and(|status| status.success()), "{command:?}");
}

fn main() {
    let made = env::var("OUT_DIR").expect("cargo sets it");
    let object = Path::new(&made).join("qpack.o");
    for source in ["../qpack.c", "../qpack.h", "../bytes.h"] {
        println!("cargo:rerun-if-changed={source}");
    }
    run(Command::new("cc")
        .args(["-std=c11", "-O2", "-fPIC", "-I../../include", "-c", "../qpack.c", "-o"])
        .arg(&object));
    run(Command::new("ar").arg("rcs").arg(Path::new(&made).join("libqpack.a")).arg(&object));
    println!("cargo:rustc-link-search=native={made}");
    println!("cargo:rustc-link-lib=static=qpack");
    println!("cargo:rustc-link-lib=nghttp3");
}
