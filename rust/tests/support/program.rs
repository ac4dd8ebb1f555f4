//! Where the proved program stands.

use std::path::{Path, PathBuf};
use std::process::Command;

/// The proved program, where it is built and no source that it is made of is newer (scripts/program.sh); else why not.
/// The variable QSTREAM names another.
pub fn proved() -> Result<PathBuf, String> {
    if let Some(named) = std::env::var_os("QSTREAM") {
        return Ok(named.into());
    }
    let root = Path::new(env!("CARGO_MANIFEST_DIR"))
        .ancestors()
        .find(|folder| folder.join("scripts/program.sh").is_file())
        .ok_or("the repository isn't around this package")?;
    let asked = r#"root=$1; . "$root/scripts/program.sh"; is_built"#;
    let is_built = Command::new("sh")
        .args(["-c", asked, "sh"])
        .arg(root)
        .output();
    if is_built.is_ok_and(|output| output.status.success()) {
        Ok(root.join("crates/qs_tool/out/qs_tool"))
    } else {
        Err("no proved program stands that is newer than its sources (`./qstream build`)".into())
    }
}
