//! Finds the archive that `doors/build` makes: in the folder that the environment names, in the folder `lib` of this crate,
//! as a package of binaries has it, or in `doors/out/lib`.

use std::env;
use std::path::PathBuf;

const ARCHIVE: &str = "libi_overlay_mesh.a";
const VARIABLE: &str = "I_OVERLAY_MESH_LIB_DIR";

fn main() {
    let own = PathBuf::from(env::var_os("CARGO_MANIFEST_DIR").unwrap());
    let known = [own.join("lib"), own.join("../out/lib")];
    let built = || known.iter().find(|folder| folder.join(ARCHIVE).exists()).unwrap_or(&known[1]).clone();
    let folder = env::var_os(VARIABLE).map_or_else(built, PathBuf::from);
    println!("cargo:rerun-if-env-changed={VARIABLE}");
    println!("cargo:rerun-if-changed={}", folder.join(ARCHIVE).display());
    println!("cargo:rustc-link-search=native={}", folder.display());
    println!("cargo:rustc-link-lib=static=i_overlay_mesh");
}
