//! The library's calls, as bindings/c/nova.h declares them.

use crate::Refused;
use std::ffi::c_void;
use std::ptr::null_mut;

/// A handle. What it owns is the library's.
#[repr(C)]
pub struct Handle {
    at: *mut c_void,
    is_open: usize,
}

impl Handle {
    pub fn closed() -> Handle {
        Handle {
            at: null_mut(),
            is_open: 0,
        }
    }
}

/// The numbers of an inode.
#[repr(C)]
#[derive(Clone, Copy, Debug, Default, PartialEq, Eq)]
pub struct Numbers {
    pub inode: u64,
    /// In bytes.
    pub size: u64,
    pub time: u64,
    /// 1 for a directory, 0 for a file.
    pub is_directory: u32,
    pub mode: u32,
    pub owner: u32,
    pub group: u32,
    pub links: u32,
}

/// How much there is of what.
#[repr(C)]
#[derive(Clone, Copy, Debug, Default, PartialEq, Eq)]
pub struct Space {
    /// Of 4096 bytes.
    pub blocks: u64,
    pub free_blocks: u64,
    pub cpus: u64,
    /// Of each CPU, with 32 inodes each.
    pub table_blocks: u64,
    /// In use.
    pub inodes: u64,
    /// Where there are any, the mount can only be read.
    pub faults: u64,
}

#[repr(C)]
#[derive(Default)]
pub struct Cleaned {
    pub block: u64,
    pub has_freed: u32,
}

#[rustfmt::skip]
unsafe extern "C" {
    pub fn nova_format(fs: &mut Handle, blocks: u64, cpus: u64, tables: u64, time: u64) -> u32;
    pub fn nova_open(fs: &mut Handle, bytes: *const u8, bytes_length: usize) -> u32;
    pub fn nova_close(fs: &mut Handle) -> u32;
    pub fn nova_save(fs: &mut Handle, image: *mut u8, image_length: usize) -> u32;
    pub fn nova_space_of(fs: &mut Handle, out: &mut Space) -> u32;
    pub fn nova_report(fs: &mut Handle, text: *mut u8, text_length: usize, used: &mut usize) -> u32;
    pub fn nova_stat(fs: &mut Handle, path: *const u8, path_length: usize, out: &mut Numbers) -> u32;
    pub fn nova_read(fs: &mut Handle, path: *const u8, path_length: usize, offset: u64, bytes: *mut u8, bytes_length: usize, done: &mut usize) -> u32;
    pub fn nova_list(fs: &mut Handle, path: *const u8, path_length: usize, names: *mut u8, names_length: usize, used: &mut usize) -> u32;
    pub fn nova_stat_inode(fs: &mut Handle, inode: u64, out: &mut Numbers) -> u32;
    pub fn nova_read_inode(fs: &mut Handle, inode: u64, offset: u64, bytes: *mut u8, bytes_length: usize, done: &mut usize) -> u32;
    pub fn nova_write_inode(fs: &mut Handle, cpu: u64, inode: u64, offset: u64, bytes: *const u8, bytes_length: usize, time: u64) -> u32;
    pub fn nova_set_size_inode(fs: &mut Handle, cpu: u64, inode: u64, size: u64, time: u64) -> u32;
    pub fn nova_set_attr_inode(fs: &mut Handle, cpu: u64, inode: u64, mode: u32, owner: u32, group: u32, time: u64) -> u32;
    pub fn nova_list_inode(fs: &mut Handle, inode: u64, names: *mut u8, names_length: usize, used: &mut usize) -> u32;
    pub fn nova_lookup_inode(fs: &mut Handle, directory: u64, name: *const u8, name_length: usize, out: &mut Numbers) -> u32;
    pub fn nova_create_inode(fs: &mut Handle, cpu: u64, directory: u64, name: *const u8, name_length: usize, mode: u32, time: u64, inode: &mut u64) -> u32;
    pub fn nova_mkdir_inode(fs: &mut Handle, cpu: u64, directory: u64, name: *const u8, name_length: usize, mode: u32, time: u64, inode: &mut u64) -> u32;
    pub fn nova_link_inode(fs: &mut Handle, cpu: u64, inode: u64, directory: u64, name: *const u8, name_length: usize, time: u64) -> u32;
    pub fn nova_unlink_inode(fs: &mut Handle, cpu: u64, directory: u64, name: *const u8, name_length: usize, time: u64) -> u32;
    pub fn nova_rmdir_inode(fs: &mut Handle, cpu: u64, directory: u64, name: *const u8, name_length: usize, time: u64) -> u32;
    pub fn nova_create(fs: &mut Handle, cpu: u64, path: *const u8, path_length: usize, mode: u32, time: u64) -> u32;
    pub fn nova_mkdir(fs: &mut Handle, cpu: u64, path: *const u8, path_length: usize, mode: u32, time: u64) -> u32;
    pub fn nova_write(fs: &mut Handle, cpu: u64, path: *const u8, path_length: usize, offset: u64, bytes: *const u8, bytes_length: usize, time: u64) -> u32;
    pub fn nova_set_size(fs: &mut Handle, cpu: u64, path: *const u8, path_length: usize, size: u64, time: u64) -> u32;
    pub fn nova_set_attr(fs: &mut Handle, cpu: u64, path: *const u8, path_length: usize, mode: u32, owner: u32, group: u32, time: u64) -> u32;
    pub fn nova_link(fs: &mut Handle, cpu: u64, path: *const u8, path_length: usize, other: *const u8, other_length: usize, time: u64) -> u32;
    pub fn nova_unlink(fs: &mut Handle, cpu: u64, path: *const u8, path_length: usize, time: u64) -> u32;
    pub fn nova_rmdir(fs: &mut Handle, cpu: u64, path: *const u8, path_length: usize, time: u64) -> u32;
    pub fn nova_rename(fs: &mut Handle, cpu: u64, path: *const u8, path_length: usize, other: *const u8, other_length: usize, time: u64) -> u32;
    pub fn nova_replace(fs: &mut Handle, cpu: u64, path: *const u8, path_length: usize, other: *const u8, other_length: usize, time: u64) -> u32;
    pub fn nova_clean(fs: &mut Handle, path: *const u8, path_length: usize, out: &mut Cleaned) -> u32;
}

/// A status as an answer.
pub fn check(status: u32) -> Result<(), Refused> {
    match status {
        0 => Ok(()),
        status => Err(Refused(status)),
    }
}
