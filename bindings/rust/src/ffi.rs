//! What `iolite.h` declares. Its tests compare the kinds with the header, and the compiler the sizes.
use core::ffi::c_void;
use core::mem::size_of;

#[repr(C)]
pub struct System {
    pub at: *mut c_void,
}

#[repr(C)]
#[derive(Clone, Copy, Default)]
pub struct Event {
    pub kind: u32,
    pub by: u32,
    pub agg: u64,
    pub with: u64,
    pub id: u32,
    pub to: u32,
    pub from: u32,
    pub until: u32,
}

#[repr(C)]
#[derive(Clone, Copy, Default)]
pub struct Reply {
    pub refusal: u32,
    pub about: u32,
    pub number: u64,
    pub second: u64,
}

#[repr(C)]
#[derive(Clone, Copy, Debug)]
pub struct Part {
    pub at: *const u8,
    pub len: usize,
}

#[repr(C)]
#[derive(Clone, Copy, Default)]
pub struct Pool {
    pub pool: u32,
    pub pages: u32,
    pub free: u32,
    pub retired: u32,
}

#[repr(C)]
#[derive(Clone, Copy, Default)]
pub struct Report {
    pub refusal: u32,
    pub buffers: u32,
    pub extents: u64,
    pub dirty: u64,
    pub pools: u64,
}

const _: () = assert!(size_of::<Event>() == 40 && size_of::<Reply>() == 24 && size_of::<Part>() == 16);
const _: () = assert!(size_of::<Pool>() == 16 && size_of::<Report>() == 32);

extern "C" {
    pub fn iol_system_new(chunks: u32, generations: u32, sums: u32, out: *mut System) -> u32;
    pub fn iol_system_over(
        chunks: u32,
        generations: u32,
        sums: u32,
        fds: *const i32,
        fds_count: usize,
        lens: *const u32,
        lens_count: usize,
        out: *mut System,
    ) -> u32;
    pub fn iol_system_free(system: *mut System);
    pub fn iol_step(
        system: *mut System,
        event: *const Event,
        bytes: *const u8,
        bytes_count: usize,
        names: *const u32,
        names_count: usize,
        out: *mut u8,
        out_count: usize,
        reply: *mut Reply,
    );
    pub fn iol_parts(
        system: *mut System,
        by: u32,
        agg: u64,
        skip: usize,
        room: *mut Part,
        room_count: usize,
        reply: *mut Reply,
    );
    pub fn iol_report(system: *mut System, room: *mut Pool, room_count: usize, report: *mut Report);
    pub fn iol_arrive_from(system: *mut System, conn: u32, fd: i32, max: u32, reply: *mut Reply);
    pub fn iol_drain_to(system: *mut System, conn: u32, fd: i32, max: u32, reply: *mut Reply);
}

/// The numbers of the kinds of events.
macro_rules! kinds {
    ($($name:ident = $number:literal),* $(,)?) => {
        $(pub const $name: u32 = $number;)*

        /// Each kind by its name in the header, behind `IOL_`.
        #[cfg(test)]
        pub const KINDS: &[(&str, u32)] = &[$((stringify!($name), $number)),*];
    };
}

kinds! {
    DOMAIN_NEW = 0, EXIT = 1, POOL_CREATE = 2, POOL_CLOSE = 3, POOL_ADMIT = 4, SET_POOL = 5, AGG_MAKE = 6, AGG_DUP = 7,
    AGG_CUT = 8, AGG_SPLIT = 9, AGG_JOIN = 10, AGG_REPLACE = 11, AGG_DROP = 12, AGG_GIVE = 13, SHOW = 14, FILE_NEW = 15,
    OPEN_FILE = 16, PIPE = 17, GIVE_FD = 18, CLOSE = 19, SEEK = 20, LENGTH = 21, READ = 22, WRITE = 23, FSYNC = 24,
    READ_COPY = 25, WRITE_COPY = 26, ACCEPT = 27, CONN_NEW = 100, ARRIVE = 101, PEER_CLOSED = 102, TRANSMIT = 103,
    FLUSH = 104, DROP_CLEAN = 105,
}

/// The reply's bytes have no room.
pub const SMALL_ROOM: u32 = 101;

#[cfg(test)]
mod tests {
    use super::KINDS;

    #[test]
    fn kinds_are_those_of_the_header() {
        let header = include_str!("../../c/iolite.h");
        let body = header.split("typedef enum iol_kind {").nth(1).expect("kinds").split('}').next().expect("an end");
        let listed: Vec<(String, u32)> = body
            .lines()
            .filter_map(|line| line.split("/*").next()?.trim().trim_end_matches(',').split_once(" = "))
            .map(|(name, number)| (name.trim_start_matches("IOL_").to_owned(), number.parse().expect("a number")))
            .collect();
        let known: Vec<(String, u32)> = KINDS.iter().map(|&(name, number)| (name.to_owned(), number)).collect();
        assert_eq!(listed, known);
    }
}
