//! Memory for a call. Each input and each lent buffer ends at a page that nobody may touch, on the one side or on the other: a call that reads or
//! writes a byte outside ends the process. On the far side of a lent buffer stand `AROUND` bytes that are not lent, and are looked at afterwards.
//! With the feature `sanitized` the far side is closed too, for code that AddressSanitizer watches (host/library.sh).

use patch_generate::Rng;
use std::cell::RefCell;
use std::sync::OnceLock;

extern "C" {
    fn mmap(at: *mut u8, length: usize, may: i32, flags: i32, file: i32, offset: i64) -> *mut u8;
    fn mprotect(at: *mut u8, length: usize, may: i32) -> i32;
}

const NOTHING: i32 = 0;
const READ_WRITE: i32 = 3;
/// private, and of no file
const FRESH: i32 = 0x22;

/// The largest page size of the machines that Linux runs on.
const PAGE: usize = 1 << 16;
/// More than any call is handed or lent here.
const ROOM: usize = 1 << 16;

pub const AROUND: usize = 32;

/// The side on which a piece of the room touches the page that nobody may touch.
#[derive(Clone, Copy, PartialEq, Eq)]
pub enum Side {
    Start,
    End,
}

/// A lent buffer between bytes that are not lent.
#[derive(PartialEq, Eq)]
pub struct Buffer {
    pub bytes: Vec<u8>,
}

impl Buffer {
    /// Random bytes, the same for each run of a case.
    pub fn new(length: usize) -> Buffer {
        static NOISE: OnceLock<Vec<u8>> = OnceLock::new();
        let noise = NOISE.get_or_init(|| {
            let mut noise = vec![0; ROOM + 2 * AROUND];
            Rng::new(0x6e6f_6973_6500, 0).fill(&mut noise);
            noise
        });
        Buffer { bytes: noise[..length + 2 * AROUND].to_vec() }
    }

    pub fn lent(&self) -> &[u8] {
        &self.bytes[AROUND..self.bytes.len() - AROUND]
    }

    pub fn lent_mut(&mut self) -> &mut [u8] {
        let end = self.bytes.len() - AROUND;
        &mut self.bytes[AROUND..end]
    }

    /// What is lent, with the bytes on its far side.
    fn seen_from(&mut self, side: Side) -> &mut [u8] {
        let end = self.bytes.len() - AROUND;
        match side {
            Side::Start => &mut self.bytes[AROUND..],
            Side::End => &mut self.bytes[..end],
        }
    }
}

/// A mapping of its own, one thread's alone, between two pages that nobody may touch.
struct Room {
    start: *mut u8,
}

impl Room {
    fn new() -> Room {
        unsafe {
            let all = mmap(std::ptr::null_mut(), PAGE + ROOM + PAGE, NOTHING, FRESH, -1, 0);
            assert!(all as isize != -1, "no memory");
            let start = all.add(PAGE);
            assert!(mprotect(start, ROOM, READ_WRITE) == 0, "no memory");
            let room = Room { start };
            watch::close(room.piece(ROOM, Side::Start));
            room
        }
    }

    /// So many bytes at a side of the room; nobody holds two pieces of a room at once.
    #[allow(clippy::mut_from_ref)]
    unsafe fn piece(&self, length: usize, side: Side) -> &mut [u8] {
        assert!(length <= ROOM);
        let from = if side == Side::Start { 0 } else { ROOM - length };
        std::slice::from_raw_parts_mut(self.start.add(from), length)
    }

    /// These bytes, at a side of the room.
    unsafe fn hold(&self, bytes: &[u8], side: Side) -> &mut [u8] {
        let piece = self.piece(bytes.len(), side);
        watch::open(piece);
        piece.copy_from_slice(bytes);
        piece
    }

    /// What of a buffer is lent, with nobody allowed to touch the rest.
    unsafe fn lend(&self, buffer: &mut Buffer, side: Side) -> &mut [u8] {
        let piece = self.hold(buffer.seen_from(side), side);
        let (lent, far) = match side {
            Side::Start => piece.split_at_mut(piece.len() - AROUND),
            Side::End => {
                let (far, lent) = piece.split_at_mut(AROUND);
                (lent, far)
            }
        };
        watch::close(far);
        lent
    }

    /// What has become of a buffer.
    unsafe fn give_back(&self, buffer: &mut Buffer, side: Side) {
        let bytes = buffer.seen_from(side);
        let piece = self.piece(bytes.len(), side);
        watch::open(piece);
        bytes.copy_from_slice(piece);
        watch::close(piece);
    }
}

thread_local! {
    static ROOMS: RefCell<Vec<Room>> = const { RefCell::new(Vec::new()) };
}

/// Runs `work` on copies of the inputs and of what is lent, and keeps what has become of the latter.
pub fn call<T>(inputs: &[Vec<u8>], lent: &mut [Buffer], side: Side, work: impl FnOnce(&[&[u8]], &mut [&mut [u8]]) -> T) -> T {
    ROOMS.with(|rooms| unsafe {
        let mut rooms = rooms.borrow_mut();
        while rooms.len() < inputs.len() + lent.len() {
            rooms.push(Room::new());
        }
        let (for_inputs, for_lent) = rooms.split_at(inputs.len());
        let held: Vec<&[u8]> = for_inputs.iter().zip(inputs).map(|(room, bytes)| &*room.hold(bytes, side)).collect();
        let mut parts: Vec<&mut [u8]> = for_lent.iter().zip(&mut *lent).map(|(room, buffer)| room.lend(buffer, side)).collect();
        let told = work(&held, &mut parts);
        held.into_iter().for_each(watch::close);
        for_lent.iter().zip(lent).for_each(|(room, buffer)| room.give_back(buffer, side));
        told
    })
}

/// What AddressSanitizer lets the code that it watches touch. It knows eight bytes by how many of them, from the first, are open; so up to seven
/// before a piece that ends at a page stay open.
#[cfg(feature = "sanitized")]
pub mod watch {
    extern "C" {
        fn __asan_poison_memory_region(at: *const u8, length: usize);
        fn __asan_unpoison_memory_region(at: *const u8, length: usize);
    }

    pub fn close(bytes: &[u8]) {
        unsafe { __asan_poison_memory_region(bytes.as_ptr(), bytes.len()) }
    }

    pub fn open(bytes: &[u8]) {
        unsafe { __asan_unpoison_memory_region(bytes.as_ptr(), bytes.len()) }
    }
}

#[cfg(not(feature = "sanitized"))]
pub mod watch {
    pub fn close(_: &[u8]) {}

    pub fn open(_: &[u8]) {}
}
