//! Checks the given files by their SHA-256 and lays them out, with the stubs beside them, in the build's own folder.
//! The folder of the given files is named by RARENA_SRC, seen from the repository's root.

use std::path::{Path, PathBuf};
use std::{env, fs, process};

mod sha256;

const DEFAULT: &str = "../shared/docs/src/rarena-allocator/src";

const GIVEN: [(&str, &str); 7] = [
    ("common.rs", "da2f1567be524f9e7fa1ea30591a05e21427e1dd3765638947368be80bdd403f"),
    ("error.rs", "73c580d7f9add5d018486bcf1a84872ff38651f4acd2114143de832408f52f3b"),
    ("lib.rs", "721fa14bdc14fc1d1dc6b5272147c494a22ca15009b3ff7736a6c297ed03fca3"),
    ("memory.rs", "03a92bff9e376a3dcf9e73276c95f3f10180e84e64f6af7c6b102bd55ee6ac43"),
    ("options.rs", "06ee05bdcbb91fb4f822748fb1cca4446b74c86c269690accbdec94cb464147c"),
    ("sealed.rs", "cba8fafd01c1034e89e0667115c903af81bd07764151092d54684da54f6812e5"),
    ("unsync.rs", "b806cd26f96d801bb3ac42de2fa187bd6cc627cbf1c020ddd694229aa3d71304"),
];

const STUBS: [&str; 4] = ["allocator.rs", "bytes.rs", "object.rs", "sync.rs"];

fn main() {
    println!("cargo:rerun-if-env-changed=RARENA_SRC");
    println!("cargo:rerun-if-changed=build");
    let home = folder("CARGO_MANIFEST_DIR");
    let repository = home.ancestors().nth(2).expect("the repository");
    let given = repository.join(env::var_os("RARENA_SRC").unwrap_or(DEFAULT.into()));
    let out = folder("OUT_DIR");
    let source = out.join("rarena/src");
    fs::create_dir_all(source.join("unsync")).unwrap_or_else(|e| stop(&source, &e.to_string()));
    for (name, digest) in GIVEN {
        write(&source.join(name), &checked(&given.join(name), digest));
    }
    for name in STUBS {
        write(&source.join(name), &read(&home.join("stubs/rarena").join(name)));
    }
    // Named by the given files for their own tests, which are not at hand.
    for name in ["tests.rs", "unsync/tests.rs"] {
        write(&source.join(name), b"");
    }
    write(&out.join("rarena/README.md"), b"The given files of rarena-allocator, with stubs for the others.\n");
    write(&out.join("tree.rs"), b"#[allow(warnings)]\n#[path = \"rarena/src/lib.rs\"]\nmod rarena;\n");
}

fn folder(variable: &str) -> PathBuf {
    PathBuf::from(env::var_os(variable).expect("set by cargo"))
}

fn checked(path: &Path, digest: &str) -> Vec<u8> {
    let bytes = read(path);
    let found = sha256::hex(&bytes);
    if found != digest {
        stop(path, &format!("is not the given file: its SHA-256 is {found}, expected {digest}"));
    }
    bytes
}

fn read(path: &Path) -> Vec<u8> {
    println!("cargo:rerun-if-changed={}", path.display());
    fs::read(path).unwrap_or_else(|e| stop(path, &format!("cannot be read ({e}); RARENA_SRC names its folder")))
}

fn write(path: &Path, bytes: &[u8]) {
    fs::write(path, bytes).unwrap_or_else(|e| stop(path, &e.to_string()));
}

fn stop(path: &Path, why: &str) -> ! {
    eprintln!("{} {why}", path.display());
    process::exit(1)
}
