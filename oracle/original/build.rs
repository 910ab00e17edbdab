//! Takes explain.rs, intmap.rs and type_info.rs, byte for byte, from the folder ORACLE_SRC into the build's
//! own folder. With the feature `judged` one line is put behind explain.rs: a child module (src/peek.rs) that
//! may read the private state. Nothing in explain.rs calls it.
use std::path::{Path, PathBuf};
use std::{env, fs};

const FILES: [(&str, &str); 3] =
    [("src/connection/explain.rs", "explain"), ("src/connection/intmap.rs", "intmap"), ("src/type_info.rs", "type_info")];

/// The file in a source tree, or by its own name in a plain folder.
fn find(folder: &Path, long: &str) -> PathBuf {
    let short = Path::new(long).file_name().expect("a file has a name");
    let places = [folder.join(long), folder.join(short)];
    places.iter().find(|p| p.is_file()).unwrap_or_else(|| panic!("neither of {places:?} is there")).clone()
}

fn module(name: &str, file: &Path) -> String {
    format!("#[allow(dead_code, unused_imports)] #[path = {file:?}] pub(crate) mod {name};\n")
}

/// The names that explain.rs gives to operations, `const OP_X: &str = "Name";`.
fn operations(explain: &str) -> String {
    let names = explain.lines().filter(|l| l.starts_with("const OP_")).filter_map(|l| l.split('"').nth(1));
    format!("pub const OPERATIONS: &[&str] = &{:?};\n", names.collect::<Vec<_>>())
}

fn main() {
    println!("cargo:rerun-if-env-changed=ORACLE_SRC");
    println!("cargo:rerun-if-changed=build.rs");
    let folder = PathBuf::from(env::var("ORACLE_SRC").expect("ORACLE_SRC names the folder with the original's sources"));
    let out = PathBuf::from(env::var("OUT_DIR").expect("cargo sets it"));
    let here = PathBuf::from(env::var("CARGO_MANIFEST_DIR").expect("cargo sets it"));
    let judged = env::var_os("CARGO_FEATURE_JUDGED").is_some();
    for (long, name) in FILES {
        let from = find(&folder, long);
        println!("cargo:rerun-if-changed={}", from.display());
        let mut bytes = fs::read(&from).expect("the file can be read");
        if name == "explain" {
            fs::write(out.join("operations.rs"), operations(&String::from_utf8_lossy(&bytes))).expect("written");
            if judged {
                bytes.extend_from_slice(module("peek", &here.join("src/peek.rs")).as_bytes());
            }
        }
        fs::write(out.join(format!("{name}.rs")), bytes).expect("written");
    }
    let at = |name: &str| module(name, &out.join(format!("{name}.rs")));
    let maps = if judged {
        module("plain_intmap", &out.join("intmap.rs")) + &module("intmap", &here.join("src/judged_intmap.rs"))
    } else {
        at("intmap")
    };
    fs::write(out.join("root.rs"), at("type_info")).expect("written");
    fs::write(out.join("connection.rs"), maps + &at("explain")).expect("written");
}
