//! Files that belong together are replaced together.
use std::fs::{self, File};
use std::io::{self, Write};
use std::path::{Path, PathBuf};

/// Gives each file its bytes. Where one can't have them, all are left as they were: every new file is written out beside
/// its place before the first is moved there, and what had been moved is moved back. Nothing else stays in the folder.
pub fn replace(files: &[(&Path, &[u8])]) -> io::Result<()> {
    let of = |(place, _): &(&Path, &[u8])| Replacement::of(place);
    let all: Vec<Replacement> = files.iter().map(of).collect();
    let mut moved = 0;
    let done = write_and_move(&all, files, &mut moved);
    if let Err(error) = &done {
        for file in all[..moved].iter().rev() {
            file.undo().map_err(|worse| file.lost(error, &worse))?;
        }
    }
    all.iter().for_each(Replacement::clear);
    done
}

/// Writes all and then moves all in, and counts those that were moved.
fn write_and_move(
    all: &[Replacement],
    files: &[(&Path, &[u8])],
    moved: &mut usize,
) -> io::Result<()> {
    for (file, (_, bytes)) in all.iter().zip(files) {
        file.write(bytes)?;
    }
    for file in all {
        file.move_in()?;
        *moved += 1;
    }
    Ok(())
}

/// A file's place, and beside it the new file until it is moved in and the old one until all are.
struct Replacement {
    place: PathBuf,
    new: PathBuf,
    old: PathBuf,
}

impl Replacement {
    fn of(place: &Path) -> Replacement {
        let name = place.file_name().unwrap_or_default().display();
        let process = std::process::id();
        Replacement {
            place: place.to_owned(),
            new: place.with_file_name(format!(".{name}.{process}.new")),
            old: place.with_file_name(format!(".{name}.{process}.old")),
        }
    }

    fn write(&self, bytes: &[u8]) -> io::Result<()> {
        let mut file = File::create(&self.new)?;
        file.write_all(bytes)?;
        file.sync_all()
    }

    fn move_in(&self) -> io::Result<()> {
        if self.place.try_exists()? {
            fs::copy(&self.place, &self.old)?;
        }
        fs::rename(&self.new, &self.place)
    }

    fn undo(&self) -> io::Result<()> {
        if self.old.try_exists()? {
            fs::rename(&self.old, &self.place)
        } else {
            fs::remove_file(&self.place)
        }
    }

    /// Moving back failed too: what was there stays beside its place, and the message says where.
    fn lost(&self, error: &io::Error, worse: &io::Error) -> io::Error {
        let (place, old) = (self.place.display(), self.old.display());
        io::Error::other(format!(
            "{error}; {place} can't be put back ({worse}): what was there, if anything, is {old}"
        ))
    }

    fn clear(&self) {
        for file in [&self.new, &self.old] {
            // It may never have been made, or be moved already.
            let _ = fs::remove_file(file);
        }
    }
}
