//! `make install-library`: header, library and pkg-config file below a prefix,
//! and a C program that is compiled with what they say.

use std::fs;
use std::path::{Path, PathBuf};
use std::process::{Command, Output};

/// The repository's root.
fn root() -> PathBuf {
    Path::new(env!("CARGO_MANIFEST_DIR")).join("../..").canonicalize().expect("the root is there")
}

fn done(command: &mut Command) -> Output {
    let output = command.output().unwrap_or_else(|error| panic!("{command:?}: {error}"));
    assert!(output.status.success(), "{command:?}: {}", String::from_utf8_lossy(&output.stderr));
    output
}

/// A value of the pkg-config file, with its variables put in.
fn value(file: &str, key: &str) -> String {
    let line = |key: &str| file.lines().find_map(|line| line.strip_prefix(key)).unwrap_or_default().to_string();
    let prefix = line("prefix=");
    let folder = |name: &str| line(&format!("{name}=")).replace("${prefix}", &prefix);
    let value = line(&format!("{key}: "));
    value.replace("${includedir}", &folder("includedir")).replace("${libdir}", &folder("libdir"))
}

#[test]
fn an_installed_library_is_found_and_used() {
    let place = Path::new(env!("CARGO_TARGET_TMPDIR")).join("installed");
    let _ = fs::remove_dir_all(&place);
    // The library is taken as it stands, not proved anew.
    done(
        Command::new("make")
            .current_dir(root())
            .args(["-o", "target/staticlib/liblanq.a", "install-library"])
            .arg(format!("PREFIX={}", place.display())),
    );
    let file = fs::read_to_string(place.join("lib/pkgconfig/lanq.pc")).expect("the pkg-config file");
    assert_eq!(value(&file, "Name"), "lanq");
    let header = fs::read_to_string(place.join("include/lanq.h")).expect("the header");
    assert!(header.contains(&format!("#define LANQ_VERSION \"{}\"", value(&file, "Version"))));
    let program = place.join("given-whole");
    let flags = |key: &str| value(&file, key).split(' ').map(str::to_string).collect::<Vec<String>>();
    done(
        Command::new(std::env::var("CC").unwrap_or_else(|_| "cc".into()))
            .args(flags("Cflags"))
            .arg(root().join("examples/given-whole.c"))
            .args(flags("Libs"))
            .arg("-o")
            .arg(&program),
    );
    let printed = done(&mut Command::new(&program)).stdout;
    assert!(String::from_utf8_lossy(&printed).contains("\nend 1 18 9 0\n"));
}

/// With a place to put things together in, the file still names the prefix.
#[test]
fn a_place_of_its_own_is_not_named() {
    let place = Path::new(env!("CARGO_TARGET_TMPDIR")).join("staged");
    let _ = fs::remove_dir_all(&place);
    done(
        Command::new("make")
            .current_dir(root())
            .args(["-o", "target/staticlib/liblanq.a", "install-library", "PREFIX=/opt/lanq"])
            .arg(format!("DESTDIR={}", place.display())),
    );
    let file = fs::read_to_string(place.join("opt/lanq/lib/pkgconfig/lanq.pc")).expect("the pkg-config file");
    assert_eq!(value(&file, "Cflags"), "-I/opt/lanq/include");
    assert!(place.join("opt/lanq/lib/liblanq.a").exists());
}
