//! The corpus around its blocks.

/// A corpus of a script block and packages, each an id and a block.
pub fn corpus(script: &[u8], packages: &[(u64, Vec<u8>)]) -> Vec<u8> {
    let mut out = vec![0, 0, 0, 0, 1];
    out.extend_from_slice(&(script.len() as u32).to_be_bytes());
    out.extend_from_slice(script);
    out.extend_from_slice(&(packages.len() as u32).to_be_bytes());
    for (id, block) in packages {
        out.extend_from_slice(&id.to_be_bytes());
        out.extend_from_slice(&(block.len() as u32).to_be_bytes());
        out.extend_from_slice(block);
    }
    let rest = (out.len() - 4) as u32;
    out[..4].copy_from_slice(&rest.to_be_bytes());
    out
}
