//! The file system of Indiumlark, over its proved static library `nova_c`.
//!
//! ```
//! use nova::{Fs, Refused};
//!
//! fn main() -> Result<(), Refused> {
//!     let mut fs = Fs::format(64, 2, 1, 0)?;
//!     fs.create(0, b"/hello", 0o644, 1)?;
//!     fs.write(0, b"/hello", 0, b"hi there", 2)?;
//!     assert_eq!(fs.read(b"/hello", 0, 100)?, b"hi there");
//!     Ok(())
//! }
//! ```
//!
//! Each call is one call of the library, whose contracts say what it does; `bindings/c/nova.h` has its errors. No call requires
//! anything but types, so each is safe here. CPUs are numbered from 0. Times are numbers of the caller's.

mod calls;

use calls::{Handle, check};
use std::fmt;

pub use calls::{Numbers, Space};

const BLOCK: u64 = 4096;

const TOO_SMALL: u32 = 18;

/// Why a call was refused: its status, as nova.h names it.
#[derive(Clone, Copy, Debug, PartialEq, Eq)]
pub struct Refused(pub u32);

impl fmt::Display for Refused {
    fn fmt(&self, f: &mut fmt::Formatter<'_>) -> fmt::Result {
        write!(f, "refused with status {}", self.0)
    }
}

impl std::error::Error for Refused {}

type Answer<T> = Result<T, Refused>;

/// A name of a directory.
#[derive(Clone, Debug, PartialEq, Eq)]
pub struct Name {
    pub inode: u64,
    pub name: Vec<u8>,
}

/// A mounted file system. It stays on its thread.
pub struct Fs(Handle);

impl Fs {
    /// Formats so many blocks of zeros, in memory, and mounts them.
    pub fn format(blocks: u64, cpus: u64, tables: u64, time: u64) -> Answer<Fs> {
        let mut fs = Fs(Handle::closed());
        // SAFETY: the handle is the library's own.
        check(unsafe { calls::nova_format(&mut fs.0, blocks, cpus, tables, time) })?;
        Ok(fs)
    }

    /// Copies an image, recovers it, and mounts it. One with faults can only be read.
    pub fn open(image: &[u8]) -> Answer<Fs> {
        let mut fs = Fs(Handle::closed());
        // SAFETY: as above, and the slice is alive meanwhile.
        check(unsafe { calls::nova_open(&mut fs.0, image.as_ptr(), image.len()) })?;
        Ok(fs)
    }

    /// The bytes of the image as it is now.
    pub fn image(&mut self) -> Answer<Vec<u8>> {
        let mut bytes = vec![0; (self.space()?.blocks * BLOCK) as usize];
        // SAFETY: the buffer is alive meanwhile, and as long as is said.
        check(unsafe { calls::nova_save(&mut self.0, bytes.as_mut_ptr(), bytes.len()) })?;
        Ok(bytes)
    }

    /// How much there is of what.
    pub fn space(&mut self) -> Answer<Space> {
        let mut out = Space::default();
        // SAFETY: as above.
        check(unsafe { calls::nova_space_of(&mut self.0, &mut out) })?;
        Ok(out)
    }

    /// The report of the mount, as `nova check` prints it.
    pub fn report(&mut self) -> Answer<String> {
        let told = growing(|room, used| {
            // SAFETY: as above.
            unsafe { calls::nova_report(&mut self.0, room.as_mut_ptr(), room.len(), used) }
        })?;
        Ok(String::from_utf8_lossy(&told).into_owned())
    }

    /// The numbers of the inode that a path leads to.
    pub fn stat(&mut self, path: &[u8]) -> Answer<Numbers> {
        let mut out = Numbers::default();
        // SAFETY: as above.
        check(unsafe { calls::nova_stat(&mut self.0, path.as_ptr(), path.len(), &mut out) })?;
        Ok(out)
    }

    /// Puts the bytes of a file into a buffer, from an offset on, as many as there are and fit: how many.
    pub fn read_into(&mut self, path: &[u8], offset: u64, bytes: &mut [u8]) -> Answer<usize> {
        let mut done = 0;
        // SAFETY: as above.
        check(unsafe {
            calls::nova_read(
                &mut self.0,
                path.as_ptr(),
                path.len(),
                offset,
                bytes.as_mut_ptr(),
                bytes.len(),
                &mut done,
            )
        })?;
        Ok(done)
    }

    /// The bytes of a file, from an offset on, at most so many.
    pub fn read(&mut self, path: &[u8], offset: u64, count: usize) -> Answer<Vec<u8>> {
        let left = self.stat(path)?.size.saturating_sub(offset);
        let mut bytes = vec![0; count.min(left as usize)];
        let done = self.read_into(path, offset, &mut bytes)?;
        bytes.truncate(done);
        Ok(bytes)
    }

    /// The names of a directory, rising by bytes.
    pub fn list(&mut self, path: &[u8]) -> Answer<Vec<Name>> {
        let told = growing(|room, used| {
            // SAFETY: as above.
            unsafe {
                calls::nova_list(
                    &mut self.0,
                    path.as_ptr(),
                    path.len(),
                    room.as_mut_ptr(),
                    room.len(),
                    used,
                )
            }
        })?;
        Ok(names_of(&told))
    }

    /// The numbers of the inode of this number, also of one that no path leads to.
    pub fn stat_inode(&mut self, inode: u64) -> Answer<Numbers> {
        let mut out = Numbers::default();
        // SAFETY: as above.
        check(unsafe { calls::nova_stat_inode(&mut self.0, inode, &mut out) })?;
        Ok(out)
    }

    /// Puts the bytes of the file of this number into a buffer, as `read_into` does: how many.
    pub fn read_inode_into(&mut self, inode: u64, offset: u64, bytes: &mut [u8]) -> Answer<usize> {
        let mut done = 0;
        // SAFETY: as above.
        check(unsafe {
            calls::nova_read_inode(
                &mut self.0,
                inode,
                offset,
                bytes.as_mut_ptr(),
                bytes.len(),
                &mut done,
            )
        })?;
        Ok(done)
    }

    /// The names of the directory of this number, rising by bytes.
    pub fn list_inode(&mut self, inode: u64) -> Answer<Vec<Name>> {
        let told = growing(|room, used| {
            // SAFETY: as above.
            unsafe {
                calls::nova_list_inode(&mut self.0, inode, room.as_mut_ptr(), room.len(), used)
            }
        })?;
        Ok(names_of(&told))
    }

    /// The numbers of the inode that a name of the directory of this number stands for.
    pub fn lookup_inode(&mut self, directory: u64, name: &[u8]) -> Answer<Numbers> {
        let mut out = Numbers::default();
        // SAFETY: as above.
        check(unsafe {
            calls::nova_lookup_inode(&mut self.0, directory, name.as_ptr(), name.len(), &mut out)
        })?;
        Ok(out)
    }

    /// Makes a file with one name.
    pub fn create(&mut self, cpu: u64, path: &[u8], mode: u32, time: u64) -> Answer<()> {
        // SAFETY: as above, also below.
        check(unsafe {
            calls::nova_create(&mut self.0, cpu, path.as_ptr(), path.len(), mode, time)
        })
    }

    /// Makes a directory with one name.
    pub fn mkdir(&mut self, cpu: u64, path: &[u8], mode: u32, time: u64) -> Answer<()> {
        check(unsafe { calls::nova_mkdir(&mut self.0, cpu, path.as_ptr(), path.len(), mode, time) })
    }

    /// Writes bytes into a file, from an offset on.
    pub fn write(
        &mut self,
        cpu: u64,
        path: &[u8],
        offset: u64,
        bytes: &[u8],
        time: u64,
    ) -> Answer<()> {
        check(unsafe {
            calls::nova_write(
                &mut self.0,
                cpu,
                path.as_ptr(),
                path.len(),
                offset,
                bytes.as_ptr(),
                bytes.len(),
                time,
            )
        })
    }

    /// Sets the size of a file.
    pub fn set_size(&mut self, cpu: u64, path: &[u8], size: u64, time: u64) -> Answer<()> {
        check(unsafe {
            calls::nova_set_size(&mut self.0, cpu, path.as_ptr(), path.len(), size, time)
        })
    }

    /// Sets the mode, owner, group and time of an inode.
    pub fn set_attr(
        &mut self,
        cpu: u64,
        path: &[u8],
        mode: u32,
        owner: u32,
        group: u32,
        time: u64,
    ) -> Answer<()> {
        check(unsafe {
            calls::nova_set_attr(
                &mut self.0,
                cpu,
                path.as_ptr(),
                path.len(),
                mode,
                owner,
                group,
                time,
            )
        })
    }

    /// Writes bytes into the file of this number, from an offset on.
    pub fn write_inode(
        &mut self,
        cpu: u64,
        inode: u64,
        offset: u64,
        bytes: &[u8],
        time: u64,
    ) -> Answer<()> {
        check(unsafe {
            calls::nova_write_inode(
                &mut self.0,
                cpu,
                inode,
                offset,
                bytes.as_ptr(),
                bytes.len(),
                time,
            )
        })
    }

    /// Sets the size of the file of this number.
    pub fn set_size_inode(&mut self, cpu: u64, inode: u64, size: u64, time: u64) -> Answer<()> {
        check(unsafe { calls::nova_set_size_inode(&mut self.0, cpu, inode, size, time) })
    }

    /// Sets the mode, owner, group and time of the inode of this number.
    pub fn set_attr_inode(
        &mut self,
        cpu: u64,
        inode: u64,
        mode: u32,
        owner: u32,
        group: u32,
        time: u64,
    ) -> Answer<()> {
        check(unsafe {
            calls::nova_set_attr_inode(&mut self.0, cpu, inode, mode, owner, group, time)
        })
    }

    /// Makes a file with this name in the directory of this number: the file's number.
    pub fn create_inode(
        &mut self,
        cpu: u64,
        directory: u64,
        name: &[u8],
        mode: u32,
        time: u64,
    ) -> Answer<u64> {
        let mut inode = 0;
        check(unsafe {
            calls::nova_create_inode(
                &mut self.0,
                cpu,
                directory,
                name.as_ptr(),
                name.len(),
                mode,
                time,
                &mut inode,
            )
        })?;
        Ok(inode)
    }

    /// Makes a directory with this name in the directory of this number: the new one's number.
    pub fn mkdir_inode(
        &mut self,
        cpu: u64,
        directory: u64,
        name: &[u8],
        mode: u32,
        time: u64,
    ) -> Answer<u64> {
        let mut inode = 0;
        check(unsafe {
            calls::nova_mkdir_inode(
                &mut self.0,
                cpu,
                directory,
                name.as_ptr(),
                name.len(),
                mode,
                time,
                &mut inode,
            )
        })?;
        Ok(inode)
    }

    /// Gives the file of this number one name more, in the directory of this number.
    pub fn link_inode(
        &mut self,
        cpu: u64,
        inode: u64,
        directory: u64,
        name: &[u8],
        time: u64,
    ) -> Answer<()> {
        check(unsafe {
            calls::nova_link_inode(
                &mut self.0,
                cpu,
                inode,
                directory,
                name.as_ptr(),
                name.len(),
                time,
            )
        })
    }

    /// Takes a name of a file out of the directory of this number, and with the last one the file.
    pub fn unlink_inode(&mut self, cpu: u64, directory: u64, name: &[u8], time: u64) -> Answer<()> {
        check(unsafe {
            calls::nova_unlink_inode(&mut self.0, cpu, directory, name.as_ptr(), name.len(), time)
        })
    }

    /// Takes a directory away that has no names, by its name in the directory of this number.
    pub fn rmdir_inode(&mut self, cpu: u64, directory: u64, name: &[u8], time: u64) -> Answer<()> {
        check(unsafe {
            calls::nova_rmdir_inode(&mut self.0, cpu, directory, name.as_ptr(), name.len(), time)
        })
    }

    /// Gives a file one name more.
    pub fn link(&mut self, cpu: u64, path: &[u8], other: &[u8], time: u64) -> Answer<()> {
        check(unsafe {
            calls::nova_link(
                &mut self.0,
                cpu,
                path.as_ptr(),
                path.len(),
                other.as_ptr(),
                other.len(),
                time,
            )
        })
    }

    /// Takes a name of a file away, and with the last one the file.
    pub fn unlink(&mut self, cpu: u64, path: &[u8], time: u64) -> Answer<()> {
        check(unsafe { calls::nova_unlink(&mut self.0, cpu, path.as_ptr(), path.len(), time) })
    }

    /// Takes a directory away that has no names.
    pub fn rmdir(&mut self, cpu: u64, path: &[u8], time: u64) -> Answer<()> {
        check(unsafe { calls::nova_rmdir(&mut self.0, cpu, path.as_ptr(), path.len(), time) })
    }

    /// Gives an inode another name, which doesn't stand yet.
    pub fn rename(&mut self, cpu: u64, path: &[u8], other: &[u8], time: u64) -> Answer<()> {
        check(unsafe {
            calls::nova_rename(
                &mut self.0,
                cpu,
                path.as_ptr(),
                path.len(),
                other.as_ptr(),
                other.len(),
                time,
            )
        })
    }

    /// Gives an inode another name, also that of another inode, which goes or loses a link.
    pub fn replace(&mut self, cpu: u64, path: &[u8], other: &[u8], time: u64) -> Answer<()> {
        check(unsafe {
            calls::nova_replace(
                &mut self.0,
                cpu,
                path.as_ptr(),
                path.len(),
                other.as_ptr(),
                other.len(),
                time,
            )
        })
    }

    /// Frees the first page that an inode's log can do without: its block, or none where it needs each.
    pub fn clean(&mut self, path: &[u8]) -> Answer<Option<u64>> {
        let mut out = calls::Cleaned::default();
        check(unsafe { calls::nova_clean(&mut self.0, path.as_ptr(), path.len(), &mut out) })?;
        Ok((out.has_freed != 0).then_some(out.block))
    }
}

impl Drop for Fs {
    fn drop(&mut self) {
        // A closed one is refused, which changes nothing.
        unsafe { calls::nova_close(&mut self.0) };
    }
}

/// What a call puts into a buffer, which grows as it has to.
fn growing(mut call: impl FnMut(&mut [u8], &mut usize) -> u32) -> Answer<Vec<u8>> {
    let mut room = vec![0; BLOCK as usize];
    loop {
        let mut used = 0;
        match call(&mut room, &mut used) {
            TOO_SMALL => room.resize(used, 0),
            status => {
                check(status)?;
                room.truncate(used);
                return Ok(room);
            }
        }
    }
}

/// The names of a listing as it crosses.
fn names_of(mut told: &[u8]) -> Vec<Name> {
    let mut names = Vec::new();
    while let Some((inode, rest)) = told.split_first_chunk() {
        let Some((length, rest)) = rest.split_first_chunk() else {
            break;
        };
        let (name, rest) = rest.split_at(u64::from_le_bytes(*length) as usize);
        names.push(Name {
            inode: u64::from_le_bytes(*inode),
            name: name.to_vec(),
        });
        told = rest;
    }
    names
}
