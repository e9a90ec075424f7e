//! Document 02's `class_verify` over the reference: its own `verify` of the script block and its own hash of each package's
//! name, in house form.
use answer::{Answer, Refusal};

use crate::cityhash::hash_package_name;
use crate::report::{MOST, Parts, parts};
use crate::script::{ScriptCheck, ScriptObjects};
use crate::stages::{headers, scan, script};
use crate::zen::PackageHeader;

/// The call; `buffer` is the output buffer's length.
pub fn class_verify(corpus: &[u8], buffer: u64) -> Answer {
    let parts = parts(corpus).map_err(|number| (number, 0))?;
    let (script, headers) = read(&parts)?;
    let out = output(&script.verify(), &flags(&parts, &headers));
    if out.len() as u64 > MOST.min(buffer) {
        return Err((26, 0));
    }
    Ok(out)
}

/// The blocks of a framed corpus, and question 24.
pub fn read(parts: &Parts) -> Result<(ScriptObjects, Vec<PackageHeader>), Refusal> {
    let script = script(parts)?;
    let headers = headers(parts)?;
    scan(parts, &headers, &script)?;
    Ok((script, headers))
}

/// A flag for each package: whether its id is the hash of its name.
pub fn flags(parts: &Parts, headers: &[PackageHeader]) -> Vec<u8> {
    let packages = parts.packages.iter().zip(headers);
    packages
        .map(|((id, _), header)| u8::from(hash_package_name(&header.name) == *id))
        .collect()
}

fn output(check: &ScriptCheck, flags: &[u8]) -> Vec<u8> {
    let mut out = vec![0, 0, 0, 0, 1];
    for count in [
        check.objects,
        check.paths_resolved,
        check.hash_matches,
        check.hash_mismatches,
        flags.len(),
    ] {
        out.extend((count as u32).to_be_bytes());
    }
    out.extend(flags);
    let length = (out.len() - 4) as u32;
    out[..4].copy_from_slice(&length.to_be_bytes());
    out
}
