//! Package object indices: two bits of kind, 62 bits of value.

/// The null index as packages write it; any index of kind 3 is null.
pub const NULL: u64 = u64::MAX;

/// Kind 1: a script object.
pub fn script_index(n: u64) -> u64 {
    1 << 62 | n
}

/// Kind 2: imported name `package` and public hash `hash`, both by number.
pub fn import_index(package: u32, hash: u32) -> u64 {
    2 << 62 | u64::from(package) << 32 | u64::from(hash)
}

/// The top two bits: 0 export, 1 script, 2 package import, 3 null.
pub fn kind(index: u64) -> u64 {
    index >> 62
}
