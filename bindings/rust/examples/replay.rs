//! Plays a script of docs/RULES.md ("Scripts") from standard input through this crate, and prints its replies as
//! `iolite replay` does. A script with a store is played over files. No script with a fault is.
use iolite::{AggId, ConnId, DomainId, Fd, How, Mode, PoolId, Refusal, Report, Sizes, System};
use std::error::Error;
use std::fs::{self, File, OpenOptions};
use std::io::{self, Read, Write};
use std::str::SplitN;

const MAX_TEXT: usize = (1 << 24) + 1;

/// What a reply prints, if it is no refusal.
enum Said {
    Done,
    Number(&'static str, u64),
    Pair(&'static str, u64, u64),
    Bytes(Vec<u8>),
    Segment(u16, Vec<u8>),
    Counts(Report),
}

/// The sizes of a script's system, and the bytes of the files of its store.
struct Setup {
    sizes: Sizes,
    slots: Vec<Vec<u8>>,
    has_store: bool,
}

/// The words of a line, as each is taken.
struct Words<'l> {
    rest: SplitN<'l, char>,
}

fn decoded(text: &str) -> Vec<u8> {
    let (bytes, mut decoded, mut at) = (text.as_bytes(), Vec::new(), 0);
    while at < bytes.len() {
        let coded = (bytes[at] == b'%').then(|| text.get(at + 1..at + 3)).flatten();
        match coded.and_then(|it| u8::from_str_radix(it, 16).ok()) {
            Some(byte) => {
                decoded.push(byte);
                at += 3;
            }
            None => {
                decoded.push(bytes[at]);
                at += 1;
            }
        }
    }
    decoded
}

impl<'l> Words<'l> {
    fn of(line: &'l str, count: usize) -> Words<'l> {
        Words { rest: line.splitn(count, ' ') }
    }

    fn word(&mut self) -> &'l str {
        self.rest.next().unwrap_or("")
    }

    fn number(&mut self) -> u32 {
        self.word().parse().expect("a number of 32 bits")
    }

    fn agg(&mut self) -> AggId {
        AggId::new(self.word().parse().expect("a number of 64 bits"))
    }

    fn fd(&mut self) -> Fd {
        Fd::new(self.number())
    }

    fn pool(&mut self) -> PoolId {
        PoolId::new(self.number())
    }

    fn domain(&mut self) -> DomainId {
        DomainId::new(self.number())
    }

    fn bytes(&mut self) -> Vec<u8> {
        decoded(self.word())
    }
}

/// Carries out a call of a domain.
fn call(system: &mut System, by: DomainId, name: &str, rest: &str) -> Result<Said, Refusal> {
    let mut to = system.domain(by);
    let mut it = Words::of(rest, match name {
        "agg_make" | "domain_new" | "exit" | "pipe" | "accept" => 1,
        "agg_fill" | "write" => 2,
        _ => 4,
    });
    let number = |name, number: u32| Ok(Said::Number(name, number.into()));
    let agg = |agg: AggId| Ok(Said::Number("agg", agg.number()));
    match name {
        "domain_new" => number("domain", to.domain_new()?.number()),
        "exit" => to.exit().map(|()| Said::Done),
        "pool_create" => {
            let chunks = it.number();
            let listed: Vec<_> = it.word().split(',').map(|it| DomainId::new(it.parse().expect("a domain"))).collect();
            number("pool", to.pool_create(chunks, &listed)?.number())
        }
        "pool_close" => to.pool_close(it.pool()).map(|()| Said::Done),
        "pool_admit" => to.pool_admit(it.pool(), it.domain()).map(|()| Said::Done),
        "set_pool" => to.set_pool(it.pool()).map(|()| Said::Done),
        "agg_make" => agg(to.agg_make(&it.bytes())?),
        "agg_fill" => {
            let times = it.number() as usize;
            agg(to.agg_make(&it.bytes().repeat(times))?)
        }
        "agg_dup" => agg(to.agg_dup(it.agg())?),
        "agg_cut" => {
            let (of, from, until) = (it.agg(), it.number(), it.number());
            agg(to.agg_cut(of, from..until)?)
        }
        "agg_split" => {
            let (first, second) = to.agg_split(it.agg(), it.number())?;
            Ok(Said::Pair("aggs", first.number(), second.number()))
        }
        "agg_join" => agg(to.agg_join(it.agg(), it.agg())?),
        "agg_replace" => {
            let (of, from, until) = (it.agg(), it.number(), it.number());
            agg(to.agg_replace(of, from..until, it.agg())?)
        }
        "agg_drop" => to.agg_drop(it.agg()).map(|()| Said::Done),
        "agg_give" => agg(to.agg_give(it.agg(), it.domain())?),
        "show" => {
            let of = it.agg();
            let shown = to.show(of);
            let parts: Vec<u8> = to.parts(of).map(|parts| parts.flatten().copied().collect()).unwrap_or_default();
            assert!(shown.as_ref().map_or(parts.is_empty(), |bytes| *bytes == parts), "parts and show differ");
            shown.map(Said::Bytes)
        }
        "file_new" => number("file", to.file_new(&it.bytes(), it.pool())?.number()),
        "open_file" => {
            let name = it.bytes();
            let mode = match it.word() {
                "read" => Mode::Read,
                "write" => Mode::Write,
                _ => Mode::Both,
            };
            number("fd", to.open_file(&name, mode)?.number())
        }
        "pipe" => {
            let (read, write) = to.pipe()?;
            Ok(Said::Pair("fds", read.number().into(), write.number().into()))
        }
        "give_fd" => number("fd", to.give_fd(it.fd(), it.domain())?.number()),
        "close" => to.close(it.fd()).map(|()| Said::Done),
        "seek" => to.seek(it.fd(), it.number()).map(|()| Said::Done),
        "length" => number("count", to.length(it.fd())?),
        "iol_read" => agg(to.read(it.fd(), it.number())?),
        "iol_write" => number("count", to.write(it.fd(), it.agg())?),
        "fsync" => to.fsync(it.fd()).map(|()| Said::Done),
        "read" => {
            let (fd, count) = (it.fd(), it.number() as usize);
            let mut bytes = vec![0; count.min(MAX_TEXT)];
            let count = to.read_copy(fd, &mut bytes)?;
            bytes.truncate(count);
            Ok(Said::Bytes(bytes))
        }
        "write" => number("count", to.write_copy(it.fd(), &it.bytes())? as u32),
        "accept" => number("fd", to.accept()?.number()),
        _ => panic!("not a command: {name}"),
    }
}

/// Carries out what happens outside.
fn outside(system: &mut System, name: &str, rest: &str) -> Result<Said, Refusal> {
    let mut it = Words::of(rest, 2);
    match name {
        "conn_new" => Ok(Said::Number("conn", system.conn_new(it.pool())?.number().into())),
        "arrive" => Ok(Said::Number("count", system.arrive(ConnId::new(it.number()), &it.bytes())? as u64)),
        "peer_closed" => {
            let conn = ConnId::new(it.number());
            let how = if it.word() == "done" { How::Done } else { How::Gone };
            system.peer_closed(conn, how).map(|()| Said::Done)
        }
        "transmit" => {
            let (conn, count) = (ConnId::new(it.number()), it.number() as usize);
            let mut bytes = vec![0; count.min(MAX_TEXT)];
            let (count, sum) = system.transmit(conn, &mut bytes)?;
            bytes.truncate(count);
            Ok(Said::Segment(sum, bytes))
        }
        "flush" => system.flush().map(|()| Said::Done),
        "drop_clean" => system.drop_clean().map(|()| Said::Done),
        "report" => Ok(Said::Counts(system.report()?)),
        _ => panic!("not a command: {name}"),
    }
}

fn encoded(bytes: &[u8], out: &mut String) {
    for &byte in bytes {
        if byte.is_ascii_graphic() && byte != b'%' {
            out.push(byte.into());
        } else {
            out.push_str(&format!("%{byte:02X}"));
        }
    }
}

fn line_of(said: Result<Said, Refusal>) -> String {
    match said {
        Err(refusal) => format!("refused {refusal}"),
        Ok(Said::Done) => "done".into(),
        Ok(Said::Number(name, number)) => format!("{name} {number}"),
        Ok(Said::Pair(name, first, second)) => format!("{name} {first} {second}"),
        Ok(Said::Bytes(bytes)) => {
            let mut line = String::from(if bytes.is_empty() { "bytes" } else { "bytes " });
            encoded(&bytes, &mut line);
            line
        }
        Ok(Said::Segment(sum, bytes)) => {
            let mut line = format!("segment {sum:04x}{}", if bytes.is_empty() { "" } else { " " });
            encoded(&bytes, &mut line);
            line
        }
        Ok(Said::Counts(it)) => {
            let mut line = String::new();
            for pool in &it.pools {
                let (pages, free, retired) = (pool.pages, pool.free, pool.retired);
                line += &format!("pool {} pages {pages} free {free} retired {retired}\n", pool.pool);
            }
            line + &format!("extents {} dirty {} buffers {}", it.extents, it.dirty, it.buffers)
        }
    }
}

fn is_header(line: &str) -> bool {
    matches!(line.split(' ').next(), Some("config" | "fault" | "store" | "storen"))
}

fn setup_of(script: &str) -> Setup {
    let mut setup = Setup { sizes: Sizes::default(), slots: Vec::new(), has_store: false };
    for line in script.lines().filter(|line| is_header(line)) {
        let mut it = Words::of(line, if line.starts_with("store ") { 3 } else { 4 });
        let name = it.word();
        if name == "config" {
            setup.sizes = Sizes { chunks: it.number(), generations: it.number(), sums: it.number() };
            continue;
        }
        assert_ne!(name, "fault", "the store of this program does not fail");
        setup.has_store = true;
        let slot = it.number() as usize;
        let times = if name == "storen" { it.number() as usize } else { 1 };
        setup.slots.resize(setup.slots.len().max(slot), Vec::new());
        setup.slots[slot - 1].extend(it.bytes().repeat(times));
    }
    setup
}

/// A file of the store, with no name in the file system.
fn file_of(number: usize, bytes: &[u8]) -> io::Result<File> {
    let path = std::env::temp_dir().join(format!("iolite-{}-{number}", std::process::id()));
    let mut file = OpenOptions::new().read(true).write(true).create(true).truncate(true).open(&path)?;
    fs::remove_file(&path)?;
    file.write_all(bytes)?;
    Ok(file)
}

fn main() -> Result<(), Box<dyn Error>> {
    let mut script = String::new();
    io::stdin().read_to_string(&mut script)?;
    let mut setup = setup_of(&script);
    let mut system = if setup.has_store {
        let made = script.lines().filter(|line| line.contains(" file_new ")).count();
        setup.slots.resize(setup.slots.len().max(made.min(1024)), Vec::new());
        let files = setup.slots.iter().enumerate().map(|(at, bytes)| file_of(at, bytes));
        System::over(setup.sizes, files.collect::<io::Result<_>>()?)?
    } else {
        System::new(setup.sizes)?
    };
    let mut out = io::BufWriter::new(io::stdout().lock());
    for line in script.split('\n').filter(|line| !line.is_empty() && !line.starts_with('#') && !is_header(line)) {
        let (first, rest) = line.split_once(' ').unwrap_or((line, ""));
        let said = match first.parse() {
            Ok(by) => {
                let (name, rest) = rest.split_once(' ').unwrap_or((rest, ""));
                call(&mut system, DomainId::new(by), name, rest)
            }
            Err(_) => outside(&mut system, first, rest),
        };
        writeln!(out, "{}", line_of(said))?;
    }
    Ok(out.flush()?)
}
