//! A library of another interface doesn't link.
use std::fs;
use std::path::{Path, PathBuf};
use std::process::{Command, Output};

/// The functions of the library, as the package declares them.
const RAW: &str = include_str!("../src/raw.rs");

/// A library with all functions, which do nothing, and with a symbol for the number of its interface.
fn source(interface: u32) -> String {
    let functions = RAW
        .split("pub(crate) fn ")
        .skip(1)
        .filter_map(|rest| rest.split('(').next())
        .filter(|name| name.starts_with("grain_"));
    let mut source = format!(
        "#![no_std]\n#[no_mangle]\npub static grain_interface_{interface}: u32 = {interface};\n"
    );
    for name in functions {
        source += &format!("#[no_mangle]\npub extern \"C\" fn {name}() -> u32 {{ 0 }}\n");
    }
    source
}

/// An archive with one member, which has no index: the compiler makes one where it takes the archive over.
fn archive(object: &[u8]) -> Vec<u8> {
    let size = object.len();
    let head = format!(
        "{:<16}{:<12}{:<6}{:<6}{:<8}{size:<10}`\n",
        "stub.o/", 0, 0, 0, 644
    );
    let padding: &[u8] = if size % 2 == 1 { b"\n" } else { b"" };
    [b"!<arch>\n", head.as_bytes(), object, padding].concat()
}

fn run(command: &mut Command) -> Output {
    command.output().expect("a command that runs")
}

/// A folder with the stub of an interface as `libgrain.a`.
fn stub(room: &Path, interface: u32) -> PathBuf {
    let folder = room.join(interface.to_string());
    fs::create_dir_all(&folder).unwrap();
    let (from, object) = (folder.join("stub.rs"), folder.join("stub.o"));
    fs::write(&from, source(interface)).unwrap();
    let rustc = std::env::var_os("RUSTC").unwrap_or_else(|| "rustc".into());
    let compiled = run(Command::new(rustc)
        .args(["--crate-type", "lib", "--emit", "obj", "-C", "panic=abort"])
        .args(["-A", "warnings", "-o"])
        .args([&object, &from]));
    assert!(compiled.status.success(), "{compiled:?}");
    let library = archive(&fs::read(&object).unwrap());
    fs::write(folder.join("libgrain.a"), library).unwrap();
    folder
}

/// Builds an example of the package over a stub.
fn build(room: &Path, interface: u32) -> Output {
    let cargo = std::env::var_os("CARGO").unwrap_or_else(|| "cargo".into());
    run(Command::new(cargo)
        .args(["build", "--offline", "--quiet", "--example", "verify"])
        .arg("--manifest-path")
        .arg(concat!(env!("CARGO_MANIFEST_DIR"), "/Cargo.toml"))
        .env("CARGO_TARGET_DIR", room.join("target"))
        .env("GRAIN_LIB_DIR", stub(room, interface)))
}

#[test]
#[ignore = "compiles the package twice"]
fn a_library_of_another_interface_does_not_link() {
    let room = Path::new(env!("CARGO_TARGET_TMPDIR")).join("interface");
    let own = build(&room, 3);
    assert!(own.status.success(), "{own:?}");
    for other in [2, 4] {
        let built = build(&room, other);
        let said = String::from_utf8_lossy(&built.stderr);
        assert!(!built.status.success());
        assert!(said.contains("grain_interface_3"), "{said}");
    }
}
