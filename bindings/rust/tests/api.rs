//! What no script of examples/ shows of the crate: borrowed parts, streams, descriptors, files and refusals.
use iolite::{AggId, Arrived, DomainId, Drained, Fd, Mode, PoolId, Refusal, Sizes, System};
use std::io::{self, ErrorKind, Read, Seek, SeekFrom, Write};
use std::os::fd::AsFd;
use std::os::unix::net::UnixStream;

const ONE: DomainId = DomainId::FIRST;

/// A system of 16 chunks with a pool of two.
fn system() -> System {
    let mut system = System::new(Sizes { chunks: 16, ..Sizes::default() }).expect("sizes in their ranges");
    let pool = system.pool_create(ONE, 2, &[ONE]).expect("free chunks");
    system.set_pool(ONE, pool).expect("a pool");
    system
}

#[test]
fn many_parts_are_borrowed_in_order() -> Result<(), Refusal> {
    let mut system = system();
    let mut joined = system.agg_make(ONE, b"0")?;
    for number in 1..30u8 {
        let next = system.agg_make(ONE, &[number])?;
        joined = system.agg_join(ONE, joined, next)?;
    }
    let parts = system.parts(ONE, joined)?;
    assert_eq!((parts.len(), parts.byte_count()), (30, 30));
    let bytes: Vec<u8> = parts.flatten().copied().collect();
    assert_eq!(bytes[1..], (1..30).collect::<Vec<u8>>());
    Ok(())
}

#[test]
fn parts_lie_in_the_pages_of_what_they_were_made_of() -> Result<(), Refusal> {
    let mut system = system();
    let made = system.agg_make(ONE, b"hello")?;
    let cut = system.agg_cut(ONE, made, 1..4)?;
    let whole = system.parts(ONE, made)?.next().expect("a part");
    let part = system.parts(ONE, cut)?.next().expect("a part");
    assert_eq!(part.as_ptr(), whole[1..].as_ptr());
    Ok(())
}

#[test]
fn bytes_are_copied_as_far_as_there_is_room() -> Result<(), Refusal> {
    let mut system = system();
    let (first, second) = (system.agg_make(ONE, b"hello, ")?, system.agg_make(ONE, b"world")?);
    let joined = system.agg_join(ONE, first, second)?;
    let (mut short, mut long) = ([0; 9], [b'.'; 14]);
    assert_eq!(system.copy_to(ONE, joined, &mut short)?, 12);
    assert_eq!(system.copy_to(ONE, joined, &mut long)?, 12);
    assert_eq!((&short, &long), (b"hello, wo", b"hello, world.."));
    assert_eq!(system.copy_to(ONE, AggId::new(77), &mut short), Err(Refusal::BadAgg));
    Ok(())
}

#[test]
fn a_pipe_is_a_reader_and_a_writer() -> io::Result<()> {
    let mut system = system();
    let (read_end, write_end) = system.pipe(ONE)?;
    let empty = system.reader(ONE, read_end).read(&mut [0; 4]).expect_err("an empty pipe");
    assert_eq!(empty.kind(), ErrorKind::WouldBlock);
    system.writer(ONE, write_end).write_all(b"hello")?;
    system.close(ONE, write_end)?;
    let mut text = String::new();
    system.reader(ONE, read_end).read_to_string(&mut text)?;
    assert_eq!(text, "hello");
    system.close(ONE, read_end)?;
    let closed = system.writer(ONE, write_end).write(b"x").expect_err("a closed descriptor");
    assert_eq!(closed.get_ref().and_then(|it| it.downcast_ref()), Some(&Refusal::BadFd));
    Ok(())
}

#[test]
fn a_connection_is_served_by_a_socket() -> io::Result<()> {
    let mut system = system();
    let conn = system.conn_new(PoolId::new(1))?;
    let (mut peer, own) = UnixStream::pair()?;
    peer.write_all(b"request")?;
    let arrived = system.arrive_from(conn, own.as_fd(), 4096)?;
    assert_eq!(arrived, Arrived { taken: 7, end: false, failed: false });
    let fd = system.accept(ONE)?;
    let request = system.read(ONE, fd, 4096)?;
    system.write(ONE, fd, request)?;
    assert_eq!(system.drain_to(conn, own.as_fd(), u32::MAX)?, Drained { taken: 7, failed: false });
    let mut answer = [0; 7];
    peer.read_exact(&mut answer)?;
    assert_eq!(&answer, b"request");
    drop(peer);
    assert!(system.arrive_from(conn, own.as_fd(), 4096)?.end);
    Ok(())
}

#[test]
fn files_are_read_and_written_back() -> io::Result<()> {
    let path = std::env::temp_dir().join(format!("iolite-api-{}", std::process::id()));
    let mut file = std::fs::OpenOptions::new().read(true).write(true).create(true).truncate(true).open(&path)?;
    std::fs::remove_file(&path)?;
    file.write_all(b"stored")?;
    let mut system = System::over(Sizes { chunks: 16, ..Sizes::default() }, vec![file.try_clone()?])?;
    let mut one = system.domain(ONE);
    let pool = one.pool_create(1, &[ONE])?;
    one.set_pool(pool)?;
    one.file_new(b"name", pool)?;
    let fd = one.open_file(b"name", Mode::Both)?;
    let before = one.read(fd, 100)?;
    one.seek(fd, 0)?;
    one.write_copy(fd, b"STO")?;
    assert_eq!(one.show(before)?, b"stored");
    one.fsync(fd)?;
    drop(system);
    let mut bytes = Vec::new();
    file.seek(SeekFrom::Start(0))?;
    file.read_to_end(&mut bytes)?;
    assert_eq!(bytes, b"STOred");
    Ok(())
}

#[test]
fn refusals_have_their_data() {
    let mut system = system();
    assert_eq!(System::new(Sizes { chunks: 257, ..Sizes::default() }).err(), Some(Refusal::BadRange));
    assert_eq!(system.close(ONE, Fd::new(9)), Err(Refusal::BadFd));
    let guest = system.domain_new(ONE).expect("a domain");
    let made = system.agg_make(ONE, b"x").expect("a page");
    let denied = system.agg_give(ONE, made, guest).expect_err("no reader");
    assert_eq!((denied, denied.to_string()), (Refusal::Denied(PoolId::new(1)), "Denied pool 1".into()));
    assert_eq!(io::Error::from(denied).kind(), ErrorKind::PermissionDenied);
}

#[test]
fn a_system_moves_to_another_thread() -> Result<(), Refusal> {
    let mut system = system();
    let made = system.agg_make(ONE, b"hello")?;
    let moved = std::thread::spawn(move || -> Result<(System, Vec<u8>), Refusal> {
        let bytes = system.show(ONE, made)?;
        system.agg_drop(ONE, made)?;
        Ok((system, bytes))
    });
    let (mut system, bytes) = moved.join().expect("no panic")?;
    assert_eq!(bytes, b"hello");
    assert_eq!(system.agg_drop(ONE, made), Err(Refusal::BadAgg));
    Ok(())
}
