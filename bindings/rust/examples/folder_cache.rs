//! A cache of the files of a folder under a budget of memory: ranges in place, snapshots under writes, and access lists.
//!
//! Its own block cache in a `HashMap` would be faster where ranges are whole blocks and nobody writes. This one takes any range,
//! a reader keeps the bytes that it has begun to read while another writes, readers and writers share one budget, and the list of
//! the pool says who may read.
use iolite::{AggId, DomainId, Fd, Mode, PoolId, Refusal, Sizes, System};
use std::collections::HashMap;
use std::error::Error;
use std::fs::{self, OpenOptions};
use std::path::Path;

/// The files of a folder, by name.
struct FolderCache {
    system: System,
    owner: DomainId,
    pool: PoolId,
    open: HashMap<String, Fd>,
}

impl FolderCache {
    /// Opens the files of a folder, in the order of their names. `chunks` of 64 KiB are the budget.
    fn open(folder: &Path, chunks: u32) -> Result<FolderCache, Box<dyn Error>> {
        let mut names: Vec<String> = fs::read_dir(folder)?
            .map(|entry| Ok(entry?.file_name().to_string_lossy().into_owned()))
            .collect::<std::io::Result<_>>()?;
        names.sort();
        let files = names.iter().map(|name| OpenOptions::new().read(true).write(true).open(folder.join(name)));
        let mut system = System::over(Sizes { chunks, ..Sizes::default() }, files.collect::<std::io::Result<_>>()?)?;
        let owner = DomainId::FIRST;
        let mut domain = system.domain(owner);
        let pool = domain.pool_create(chunks, &[owner])?;
        domain.set_pool(pool)?;
        let mut open = HashMap::new();
        for name in names {
            domain.file_new(name.as_bytes(), pool)?;
            open.insert(name.clone(), domain.open_file(name.as_bytes(), Mode::Both)?);
        }
        Ok(FolderCache { system, owner, pool, open })
    }

    /// A range of a file, as an aggregate. Blocks that are in memory are shared.
    fn range(&mut self, name: &str, at: u32, count: u32) -> Result<AggId, Refusal> {
        let fd = *self.open.get(name).ok_or(Refusal::NoFile)?;
        let mut domain = self.system.domain(self.owner);
        domain.seek(fd, at)?;
        domain.read(fd, count)
    }

    /// Writes over a file, in memory.
    fn write(&mut self, name: &str, at: u32, bytes: &[u8]) -> Result<(), Refusal> {
        let fd = *self.open.get(name).ok_or(Refusal::NoFile)?;
        let mut domain = self.system.domain(self.owner);
        domain.seek(fd, at)?;
        domain.write_copy(fd, bytes)?;
        Ok(())
    }

    /// Has the store get what was written.
    fn sync(&mut self, name: &str) -> Result<(), Refusal> {
        let fd = *self.open.get(name).ok_or(Refusal::NoFile)?;
        self.system.fsync(self.owner, fd)
    }

    fn text(&self, agg: AggId) -> Result<String, Refusal> {
        let bytes: Vec<u8> = self.system.parts(self.owner, agg)?.flatten().copied().collect();
        Ok(String::from_utf8_lossy(&bytes).into_owned())
    }
}

fn main() -> Result<(), Box<dyn Error>> {
    let folder = std::env::temp_dir().join(format!("iolite-folder-{}", std::process::id()));
    fs::create_dir_all(&folder)?;
    for number in 0..8 {
        fs::write(folder.join(format!("{number}.txt")), format!("file {number} ").repeat(20_000))?;
    }
    let mut cache = FolderCache::open(&folder, 8)?;

    // a range in place, and a second read of the same bytes, which shares them
    let first = cache.range("3.txt", 7, 14)?;
    println!("range: {:?}", cache.text(first)?);
    let before = cache.system.report()?.buffers;
    let again = cache.range("3.txt", 7, 14)?;
    println!("buffers for a second reader: {}", cache.system.report()?.buffers - before);

    // a reader that began before a write keeps what it had, and one that begins after it sees the new bytes
    cache.write("3.txt", 7, b"FILE")?;
    let after = cache.range("3.txt", 7, 14)?;
    println!("before the write: {:?}, after it: {:?}", cache.text(again)?, cache.text(after)?);
    cache.sync("3.txt")?;
    println!("in the folder: {:?}", &fs::read_to_string(folder.join("3.txt"))?[..21]);

    // who may read is the pool's list
    let guest = cache.system.domain_new(cache.owner)?;
    println!("to a guest: {:?}", cache.system.agg_give(cache.owner, after, guest).err());
    cache.system.pool_admit(cache.owner, cache.pool, guest)?;
    println!("to an admitted guest: {:?}", cache.system.agg_give(cache.owner, after, guest).err());

    // all files, read whole through a budget that is smaller
    for agg in [first, again] {
        cache.system.agg_drop(cache.owner, agg)?;
    }
    let mut bytes = 0;
    for number in 0..8 {
        for at in (0..140_000).step_by(35_000) {
            let agg = cache.range(&format!("{number}.txt"), at, 35_000)?;
            bytes += cache.system.parts(cache.owner, agg)?.byte_count();
            cache.system.agg_drop(cache.owner, agg)?;
        }
    }
    println!("read {bytes} bytes with {} bytes of memory", 8 * 65_536);
    drop(cache);
    fs::remove_dir_all(&folder)?;
    Ok(())
}
