//! Links liblex.a of the folder LIBLEX_DIR, which scripts/liblex.sh builds.

use std::path::Path;

fn main() {
    println!("cargo:rerun-if-env-changed=LIBLEX_DIR");
    let folder = std::env::var_os("LIBLEX_DIR")
        .unwrap_or_else(|| refuse("LIBLEX_DIR is not set: let it name the folder of liblex.a, which scripts/liblex.sh builds"));
    let folder = Path::new(&folder);
    let archive = folder.join("liblex.a");
    if !archive.is_file() {
        refuse(&format!(
            "LIBLEX_DIR is {}, and no liblex.a is there: let it name the folder that scripts/liblex.sh built",
            folder.display()
        ));
    }
    println!("cargo:rerun-if-changed={}", archive.display());
    println!("cargo:rustc-link-search=native={}", folder.display());
    println!("cargo:rustc-link-lib=static=lex");
}

/// Ends the build with a sentence that says what to do.
fn refuse(sentence: &str) -> ! {
    eprintln!("liblex: {sentence}.");
    std::process::exit(1)
}
