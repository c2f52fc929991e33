//! The declarations of `include/bournejade.h` and of the system's clock, and a safe function over each. The only unsafe code but for
//! `limit`: a slice is valid for its length and never null, a block has 6,987 octets, and what is lent mutably overlaps nothing.

use crate::{Ran, Refused, STATE};
use reference::month::Row;

extern "C" {
    fn bournejade_version() -> u32;
    fn bournejade_state_size() -> usize;
    fn bournejade_answer_size() -> usize;
    fn bournejade_image_size() -> usize;
    fn bournejade_line_size() -> usize;
    fn bournejade_begin(state: *mut u8, opcode: u16, prefix: *const u8, prefix_size: usize) -> u8;
    fn bournejade_position(state: *const u8) -> u32;
    fn bournejade_add_edition(state: *mut u8, from: u32, prefix: *const u8, prefix_size: usize) -> u8;
    fn bournejade_submit(
        state: *mut u8,
        frame: *const u8,
        frame_size: usize,
        out: *mut u8,
        out_size: usize,
        wrote: *mut usize,
    ) -> u8;
    fn bournejade_submit_line(
        state: *mut u8,
        line: *const u8,
        line_size: usize,
        out: *mut u8,
        out_size: usize,
        wrote: *mut usize,
    ) -> u8;
    fn bournejade_count_line(
        state: *mut u8,
        line: *const u8,
        line_size: usize,
        out: *mut u8,
        out_size: usize,
        wrote: *mut usize,
        rows: *mut Lent,
        rows_count: usize,
    ) -> u8;
    fn bournejade_write_line(
        frame: *const u8,
        frame_size: usize,
        out: *mut u8,
        out_size: usize,
        wrote: *mut usize,
    ) -> u8;
    fn bournejade_save(state: *const u8, out: *mut u8, out_size: usize, wrote: *mut usize) -> u8;
    fn bournejade_restore(state: *mut u8, image: *const u8, image_size: usize) -> u8;
    fn bournejade_replay(
        state: *mut u8,
        journal: *const u8,
        journal_size: usize,
        out: *mut u8,
        out_size: usize,
        taken: *mut usize,
        wrote: *mut usize,
    ) -> u8;
    fn bournejade_watchers(state: *const u8, kind: u8, address: *const u8, lowest: *mut u32) -> u32;
    fn bournejade_match(
        condition: *const u8,
        condition_size: usize,
        adv: *const u8,
        adv_size: usize,
        scan: *const u8,
        scan_size: usize,
        comparisons: *mut usize,
    ) -> u8;
}

/// A row as the header lays it out.
#[repr(C)]
#[derive(Clone, Copy)]
struct Lent {
    packets: u64,
    reports: u64,
    ticks: u64,
    sum: i64,
}

/// A time as the system has it (`struct timespec` of 64-bit Linux).
#[repr(C)]
struct Time {
    seconds: i64,
    nanoseconds: i64,
}

/// The clock of the processor's time that this thread took.
const THREAD_CLOCK: i32 = 3;

extern "C" {
    fn clock_gettime(clock: i32, time: *mut Time) -> i32;
}

/// Nanoseconds that the processor spent on this thread.
pub fn spent() -> u128 {
    let mut time = Time { seconds: 0, nanoseconds: 0 };
    let failed = unsafe { clock_gettime(THREAD_CLOCK, &mut time) };
    assert_eq!(failed, 0, "the system has this clock");
    time.seconds as u128 * 1_000_000_000 + time.nanoseconds as u128
}

type Block = [u8; STATE];

fn told(refusal: u8, wrote: usize) -> Result<usize, Refused> {
    match refusal {
        0 => Ok(wrote),
        _ => Err(refusal),
    }
}

pub fn sizes() -> (u32, [usize; 4]) {
    unsafe {
        let sizes = [
            bournejade_state_size(),
            bournejade_answer_size(),
            bournejade_image_size(),
            bournejade_line_size(),
        ];
        (bournejade_version(), sizes)
    }
}

pub fn begin(block: &mut Block, opcode: u16, prefix: &[u8]) -> Refused {
    unsafe { bournejade_begin(block.as_mut_ptr(), opcode, prefix.as_ptr(), prefix.len()) }
}

pub fn position(block: &Block) -> u32 {
    unsafe { bournejade_position(block.as_ptr()) }
}

pub fn add_edition(block: &mut Block, from: u32, prefix: &[u8]) -> Refused {
    unsafe { bournejade_add_edition(block.as_mut_ptr(), from, prefix.as_ptr(), prefix.len()) }
}

pub fn submit(block: &mut Block, frame: &[u8], out: &mut [u8]) -> Result<usize, Refused> {
    let (state, room) = (block.as_mut_ptr(), out.len());
    let mut wrote = 0;
    told(
        unsafe { bournejade_submit(state, frame.as_ptr(), frame.len(), out.as_mut_ptr(), room, &mut wrote) },
        wrote,
    )
}

pub fn submit_line(block: &mut Block, line: &[u8], out: &mut [u8]) -> Result<usize, Refused> {
    let (state, room) = (block.as_mut_ptr(), out.len());
    let mut wrote = 0;
    told(
        unsafe {
            bournejade_submit_line(state, line.as_ptr(), line.len(), out.as_mut_ptr(), room, &mut wrote)
        },
        wrote,
    )
}

pub fn count_line(
    block: &mut Block,
    line: &[u8],
    out: &mut [u8],
    rows: &mut [Row],
) -> Result<usize, Refused> {
    let lent =
        |row: &Row| Lent { packets: row.packets, reports: row.reports, ticks: row.ticks, sum: row.sum };
    let mut lent: Vec<Lent> = rows.iter().map(lent).collect();
    let (state, text, size, room) = (block.as_mut_ptr(), line.as_ptr(), line.len(), out.len());
    let mut wrote = usize::MAX;
    let refusal = unsafe {
        bournejade_count_line(
            state,
            text,
            size,
            out.as_mut_ptr(),
            room,
            &mut wrote,
            lent.as_mut_ptr(),
            lent.len(),
        )
    };
    assert!(refusal == 0 || wrote == 0, "a refusal writes nothing");
    for (row, new) in rows.iter_mut().zip(&lent) {
        *row = Row { packets: new.packets, reports: new.reports, ticks: new.ticks, sum: new.sum };
    }
    told(refusal, wrote)
}

pub fn write_line(frame: &[u8], out: &mut [u8]) -> Result<usize, Refused> {
    let mut wrote = 0;
    told(
        unsafe {
            bournejade_write_line(frame.as_ptr(), frame.len(), out.as_mut_ptr(), out.len(), &mut wrote)
        },
        wrote,
    )
}

pub fn save(block: &Block, out: &mut [u8]) -> Result<usize, Refused> {
    let mut wrote = 0;
    told(unsafe { bournejade_save(block.as_ptr(), out.as_mut_ptr(), out.len(), &mut wrote) }, wrote)
}

pub fn restore(block: &mut Block, image: &[u8]) -> Refused {
    unsafe { bournejade_restore(block.as_mut_ptr(), image.as_ptr(), image.len()) }
}

pub fn replay(block: &mut Block, journal: &[u8], out: &mut [u8]) -> Ran {
    let (state, room) = (block.as_mut_ptr(), out.len());
    let (mut taken, mut wrote) = (0, 0);
    let refusal = unsafe {
        let text = journal.as_ptr();
        bournejade_replay(state, text, journal.len(), out.as_mut_ptr(), room, &mut taken, &mut wrote)
    };
    Ran { taken, wrote, refusal }
}

pub fn watchers(block: &Block, kind: u8, address: &[u8; 6]) -> (u32, u32) {
    let mut lowest = u32::MAX;
    let count = unsafe { bournejade_watchers(block.as_ptr(), kind, address.as_ptr(), &mut lowest) };
    (count, lowest)
}

pub fn match_cost(condition: &[u8], adv: &[u8], scan: &[u8]) -> (u8, usize) {
    let mut comparisons = 0;
    let matches = unsafe {
        bournejade_match(
            condition.as_ptr(),
            condition.len(),
            adv.as_ptr(),
            adv.len(),
            scan.as_ptr(),
            scan.len(),
            &mut comparisons,
        )
    };
    (matches, comparisons)
}
