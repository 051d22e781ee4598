//! Prints the tree of an image: cargo run --example tree IMAGE

use nova::{Fs, Refused};

fn show(fs: &mut Fs, path: &str, depth: usize) -> Result<(), Refused> {
    for entry in fs.list(path.as_bytes())? {
        let name = String::from_utf8_lossy(&entry.name).into_owned();
        let below = format!("{}/{name}", path.trim_end_matches('/'));
        let numbers = fs.stat(below.as_bytes())?;
        let width = 2 * depth;
        println!(
            "{:width$}{name} inode {} size {}",
            "", entry.inode, numbers.size
        );
        if numbers.is_directory == 1 {
            show(fs, &below, depth + 1)?;
        }
    }
    Ok(())
}

fn main() -> Result<(), Box<dyn std::error::Error>> {
    let path = std::env::args().nth(1).ok_or("usage: tree IMAGE")?;
    show(&mut Fs::open(&std::fs::read(path)?)?, "/", 0)?;
    Ok(())
}
