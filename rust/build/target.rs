//! Which targets the archive can be linked for.

use std::env;

use crate::{variable, Outcome};

/// The archive is x86-64 ELF and uses SSE2; for any other target there is none.
pub fn require_supported() -> Outcome<()> {
    let cfg = |name: &str| env::var(format!("CARGO_CFG_TARGET_{name}")).unwrap_or_default();
    let sse2 = cfg("FEATURE").split(',').any(|feature| feature == "sse2");
    let machine = cfg("ARCH") == "x86_64" && cfg("POINTER_WIDTH") == "64" && sse2;
    let no_elf = ["windows", "cygwin", "uefi"].contains(&cfg("OS").as_str());
    if machine && !no_elf && cfg("VENDOR") != "apple" {
        return Ok(());
    }
    Err(format!(
        "the target {} is not supported: the engine's archive is x86-64 ELF code with SSE2, as for \
         x86_64-unknown-linux-gnu, and there is none for another machine or object format",
        variable("TARGET")?
    ))
}
