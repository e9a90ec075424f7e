//! A header read back by the reference: by its `parse_package_header`, and since that gives the package's name and the
//! imported names rendered, by its `MappedName` and `read_name_batch` with base and number apart.
use crate::names::{MappedName, read_name_batch};
use crate::reader::{Cursor, Result};
use crate::zen::{PackageHeader, parse_package_header};

/// Where the summary has the package's name, and the offset of the imported names.
const NAME: usize = 8;
const IMPORTED: usize = 48;

pub struct ReadBack {
    pub header: PackageHeader,
    pub name: MappedName,
    /// base and number
    pub imported: Vec<(String, u32)>,
}

pub fn read_back(bytes: &[u8]) -> Result<ReadBack> {
    let header = parse_package_header(bytes)?;
    let name = MappedName::read(&mut Cursor::at(bytes, NAME, "name")?)?;
    let offset = Cursor::at(bytes, IMPORTED, "offset")?.u32()?;
    let cursor = &mut Cursor::at(bytes, offset as usize, "imported names")?;
    let bases = read_name_batch(cursor)?.into_iter();
    let imported: Result<_> = bases.map(|base| Ok((base, cursor.u32()?))).collect();
    Ok(ReadBack {
        header,
        name,
        imported: imported?,
    })
}
