//! Tries each call once, and what refuses some.

use nova::{Fs, Refused};

fn names(fs: &mut Fs, path: &[u8]) -> Vec<Vec<u8>> {
    fs.list(path)
        .unwrap()
        .into_iter()
        .map(|it| it.name)
        .collect()
}

#[test]
fn a_file_is_written_and_read() -> Result<(), Refused> {
    let mut fs = Fs::format(64, 2, 1, 0)?;
    fs.create(1, b"/hello", 0o640, 3)?;
    fs.write(0, b"/hello", 2, b"hi there", 4)?;
    assert_eq!(fs.read(b"/hello", 0, 100)?, b"\0\0hi there");
    assert_eq!(fs.read(b"/hello", 5, 2)?, b"th");
    fs.set_size(0, b"/hello", 4, 5)?;
    let found = fs.stat(b"/hello")?;
    assert_eq!((found.size, found.time, found.mode), (4, 5, 0o640));
    Ok(())
}

#[test]
fn names_are_listed_whatever_room_they_take() -> Result<(), Refused> {
    let mut fs = Fs::format(64, 2, 1, 0)?;
    fs.mkdir(0, b"/d", 0o755, 1)?;
    let made: Vec<Vec<u8>> = (0..30)
        .map(|n| format!("name {n:03} {}", "x".repeat(190)).into())
        .collect();
    for name in &made {
        fs.create(0, &[b"/d/", name.as_slice()].concat(), 0o644, 2)?;
    }
    assert_eq!(names(&mut fs, b"/d"), made);
    Ok(())
}

#[test]
fn names_go_and_move() -> Result<(), Refused> {
    let mut fs = Fs::format(64, 2, 1, 0)?;
    fs.mkdir(0, b"/d", 0o755, 1)?;
    fs.create(0, b"/d/a", 0o644, 2)?;
    fs.link(0, b"/d/a", b"/b", 3)?;
    fs.unlink(0, b"/d/a", 4)?;
    fs.rename(0, b"/b", b"/c", 5)?;
    fs.create(0, b"/b", 0o644, 5)?;
    assert_eq!(fs.rename(0, b"/c", b"/b", 5), Err(Refused(2)));
    fs.replace(0, b"/c", b"/b", 5)?;
    fs.replace(0, b"/b", b"/c", 5)?;
    fs.rmdir(0, b"/d", 6)?;
    fs.set_attr(0, b"/c", 0o400, 7, 8, 9)?;
    let found = fs.stat(b"/c")?;
    assert_eq!(
        (found.owner, found.group, found.links, found.time),
        (7, 8, 1, 9)
    );
    assert_eq!(fs.clean(b"/c")?, None);
    assert_eq!(names(&mut fs, b"/"), [b"c"]);
    Ok(())
}

#[test]
fn an_inode_is_read_by_its_number() -> Result<(), Refused> {
    let mut fs = Fs::format(64, 2, 1, 0)?;
    fs.mkdir(0, b"/d", 0o755, 1)?;
    fs.create(0, b"/d/a", 0o640, 2)?;
    fs.write(0, b"/d/a", 0, b"hi there", 3)?;
    let directory = fs.stat(b"/d")?.inode;
    let file = fs.list_inode(directory)?[0].inode;
    assert_eq!(fs.stat_inode(file)?, fs.stat(b"/d/a")?);
    fs.rename(0, b"/d/a", b"/b", 4)?;
    let mut bytes = *b"????????";
    assert_eq!(fs.read_inode_into(file, 3, &mut bytes), Ok(5));
    assert_eq!(&bytes, b"there???");
    assert_eq!(fs.stat_inode(99), Err(Refused(1)));
    assert_eq!(
        fs.read_inode_into(directory, 0, &mut bytes),
        Err(Refused(4))
    );
    assert_eq!(fs.list_inode(file), Err(Refused(3)));
    Ok(())
}

#[test]
fn an_inode_is_changed_by_its_number() -> Result<(), Refused> {
    let mut fs = Fs::format(64, 2, 1, 0)?;
    fs.create(0, b"/a", 0o644, 1)?;
    let inode = fs.stat(b"/a")?.inode;
    fs.write_inode(0, inode, 2, b"hi there", 2)?;
    fs.set_size_inode(1, inode, 7, 3)?;
    fs.set_attr_inode(0, inode, 0o400, 7, 8, 4)?;
    assert_eq!(fs.read(b"/a", 0, 100)?, b"\0\0hi th");
    let found = fs.stat(b"/a")?;
    assert_eq!((found.mode, found.owner, found.time), (0o400, 7, 4));
    assert_eq!(fs.write_inode(0, 1, 0, b"x", 5), Err(Refused(4)));
    assert_eq!(fs.set_size_inode(0, 99, 0, 5), Err(Refused(1)));
    Ok(())
}

#[test]
fn names_are_made_and_taken_in_a_directory_by_its_number() -> Result<(), Refused> {
    let mut fs = Fs::format(64, 2, 1, 0)?;
    let directory = fs.mkdir_inode(0, 1, b"d", 0o700, 1)?;
    let file = fs.create_inode(1, directory, b"a", 0o640, 2)?;
    assert_eq!(fs.lookup_inode(directory, b"a")?, fs.stat(b"/d/a")?);
    assert_eq!(fs.stat(b"/d/a")?.inode, file);
    fs.link_inode(0, file, 1, b"b", 3)?;
    fs.unlink_inode(0, directory, b"a", 4)?;
    assert_eq!(fs.unlink_inode(0, 1, b"d", 5), Err(Refused(4)));
    fs.rmdir_inode(0, 1, b"d", 5)?;
    assert_eq!(names(&mut fs, b"/"), [b"b"]);
    assert_eq!(fs.lookup_inode(1, b"d"), Err(Refused(1)));
    assert_eq!(fs.create_inode(0, file, b"a", 0o644, 6), Err(Refused(3)));
    assert_eq!(fs.mkdir_inode(0, 1, b"b", 0o755, 6), Err(Refused(2)));
    Ok(())
}

#[test]
fn refusals_have_their_status() -> Result<(), Refused> {
    let mut fs = Fs::format(64, 2, 1, 0)?;
    assert_eq!(fs.stat(b"/none"), Err(Refused(1)));
    assert_eq!(fs.create(2, b"/a", 0o644, 1), Err(Refused(13)));
    assert_eq!(fs.create(0, b"no path", 0o644, 1), Err(Refused(6)));
    assert_eq!(Fs::format(7, 1, 1, 0).err(), Some(Refused(30)));
    assert_eq!(Fs::open(&[0; 8 * 4096]).err(), Some(Refused(21)));
    Ok(())
}

#[test]
fn an_image_is_opened_again() -> Result<(), Refused> {
    let mut fs = Fs::format(64, 2, 1, 0)?;
    fs.create(0, b"/hello", 0o644, 1)?;
    fs.write(0, b"/hello", 0, &[7; 9000], 2)?;
    let mut other = Fs::open(&fs.image()?)?;
    assert_eq!(other.read(b"/hello", 0, 10000)?, [7; 9000]);
    assert_eq!(other.report()?, fs.report()?);
    assert_eq!(other.space()?, fs.space()?);
    Ok(())
}
