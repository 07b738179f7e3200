//! The clock pass: rewrites a sheet to run on one base tick, and tells its clocks and faults.
//!
//! A sheet is a list of nodes as bytes. Every function takes any bytes. Where it is done it answers how many bytes it wrote to the front
//! of `out`; else a [`Refusal`], and no byte of `out` is written then.
//!
//! Nothing is allocated and nothing is kept between calls. What a call takes of the stack is in `include/declock.h`; [`STACK_BYTES`] are
//! enough for any. A thread that is handed sheets of others needs so much: Rust gives a thread 2 MB unless
//! [`std::thread::Builder::stack_size`](https://doc.rust-lang.org/std/thread/struct.Builder.html#method.stack_size) says otherwise.
#![deny(missing_docs)]
#![no_std]

mod raw;

use core::fmt;

/// The longest sheet that can be accepted, in bytes.
pub const SHEET_BYTES: usize = 37_900;

/// Bytes that are enough for any rewritten sheet.
pub const OUT_BYTES: usize = 58_380;

/// Bytes that are enough for the text of any fault.
pub const TEXT_BYTES: usize = 1_024;

/// Entries that are enough for the faults of any sheet: a sheet has at most so many nodes.
pub const FAULTS: usize = 16;

/// Stack that is enough for any call, in bytes: `DECLOCK_STACK_BYTES` of `include/declock.h`.
pub const STACK_BYTES: usize = 4 * 1024 * 1024;

/// A fault of a node.
#[repr(C)]
#[derive(Clone, Copy, Debug, Default, PartialEq, Eq)]
pub struct Fault {
    /// The node, from 0.
    pub node: u32,
    /// The fault's number, 1 to 9.
    pub fault: u32,
    /// The equation, from 0.
    pub equation: u32,
}

/// A condition of a clock.
#[repr(C)]
#[derive(Clone, Copy, Debug, Default, PartialEq, Eq)]
pub struct Condition {
    /// The name, by its place in the sheet from 0.
    pub name: u32,
    /// 1 where the name must be true, 0 where it must not.
    pub on: u32,
}

/// A clock: base, or conditions over it.
#[repr(C)]
#[derive(Clone, Copy, Debug, Default, PartialEq, Eq)]
pub struct Clock {
    // The number of conditions and one more; 0 in a place that was not written.
    depth: u32,
    places: [Condition; 8],
}

impl Clock {
    /// The conditions, from base outward; none of base.
    pub fn conditions(&self) -> &[Condition] {
        let n = (self.depth as usize).saturating_sub(1);
        &self.places[..n.min(self.places.len())]
    }
}

/// What a node has.
#[repr(C)]
#[derive(Clone, Copy, Debug, Default, PartialEq, Eq)]
pub struct Counts {
    /// Its name, by its place in the sheet from 0.
    pub name: usize,
    /// The passes that were made.
    pub passes: usize,
    /// How many equations.
    pub equations: usize,
    /// How many chains: distinct clocks of `pre` and `->`.
    pub chains: usize,
    /// How many clock faults.
    pub faults: usize,
}

/// Why a sheet is turned down.
#[derive(Clone, Copy, Debug, PartialEq, Eq)]
pub struct Refusal {
    /// The number, 1 to 12.
    pub number: u32,
    /// Where: a size, a name, a token, a definition or a node; of 12, how many bytes are needed; else 0.
    pub place: usize,
    /// Of 10, how many nodes are faulty in all; else 0.
    pub faulty: usize,
}

impl Refusal {
    /// What the number means.
    pub fn meaning(&self) -> &'static str {
        match self.number {
            1 => "fewer than 12 bytes",
            2 => "a size is outside its limit",
            3 => "the length is not what the sizes say",
            4 => "a name is ill formed or repeated, or the lengths do not sum up",
            5 => "a token is not allowed here",
            6 => "a count, an array's length or a depth is outside its limit",
            7 => "a type reaches itself",
            8 => "no such node or fault",
            9 => "a clock of more than eight conditions",
            10 => "some node has a fault",
            11 => "the rewritten sheet would pass a limit",
            12 => "too few bytes lent",
            _ => "no refusal",
        }
    }
}

impl fmt::Display for Refusal {
    fn fmt(&self, f: &mut fmt::Formatter<'_>) -> fmt::Result {
        write!(
            f,
            "refused {} {}: {}",
            self.number,
            self.place,
            self.meaning()
        )
    }
}

impl core::error::Error for Refusal {}

/// An answer's number and place as a result.
fn told(number: u32, place: usize, faulty: usize) -> Result<usize, Refusal> {
    if number == 0 {
        Ok(place)
    } else {
        Err(Refusal {
            number,
            place,
            faulty,
        })
    }
}

/// Rewrites a sheet to run on one base tick, over the front of `out`.
///
/// Every run of a rewritten plain node, kept to each name's clock, is a run of the source node. Under 10, and under no other number,
/// the first fault of each faulty node goes over the front of `faults`, as many as it has places for.
pub fn rewrite(sheet: &[u8], out: &mut [u8], faults: &mut [Fault]) -> Result<usize, Refusal> {
    let mut place = 0;
    let mut faulty = 0;
    // SAFETY: each pointer comes with its slice's length, is not null and is aligned; what is written is borrowed mutably, so that nothing overlaps it.
    let number = unsafe {
        raw::declock_rewrite(
            sheet.as_ptr(),
            sheet.len(),
            out.as_mut_ptr(),
            out.len(),
            faults.as_mut_ptr(),
            faults.len(),
            &mut place,
            &mut faulty,
        )
    };
    told(number, place, faulty)
}

/// The text of a fault of a node, both counted from 0, over the front of `out`, in UTF-8.
///
/// The faults of a node are its clock faults in order; of a node that has none, the first that its rewriting meets.
pub fn text(sheet: &[u8], node: usize, fault: usize, out: &mut [u8]) -> Result<usize, Refusal> {
    let mut place = 0;
    // SAFETY: as in `rewrite`.
    let number = unsafe {
        raw::declock_text(
            sheet.as_ptr(),
            sheet.len(),
            node,
            fault,
            out.as_mut_ptr(),
            out.len(),
            &mut place,
        )
    };
    told(number, place, 0)
}

/// The clocks of a node, counted from 0: each equation's clock, its chains and all its clock faults, as many as each list has places for.
pub fn clocks(
    sheet: &[u8],
    node: usize,
    equations: &mut [Clock],
    chains: &mut [Clock],
    faults: &mut [Fault],
) -> Result<Counts, Refusal> {
    let mut counts = Counts::default();
    let mut place = 0;
    // SAFETY: as in `rewrite`; a clock is 17 words.
    let number = unsafe {
        raw::declock_clocks(
            sheet.as_ptr(),
            sheet.len(),
            node,
            equations.as_mut_ptr(),
            raw::CLOCK_WORDS * equations.len(),
            chains.as_mut_ptr(),
            raw::CLOCK_WORDS * chains.len(),
            faults.as_mut_ptr(),
            faults.len(),
            &mut counts,
            &mut place,
        )
    };
    told(number, place, 0).map(|_| counts)
}

/// The clocks of a node, counted from 0, as text over the front of `out`; with no byte lent, refusal 12 has the number needed.
pub fn listing(sheet: &[u8], node: usize, out: &mut [u8]) -> Result<usize, Refusal> {
    let mut place = 0;
    // SAFETY: as in `rewrite`.
    let number = unsafe {
        raw::declock_listing(
            sheet.as_ptr(),
            sheet.len(),
            node,
            out.as_mut_ptr(),
            out.len(),
            &mut place,
        )
    };
    told(number, place, 0)
}

/// The clocks of all nodes, in order, as text over the front of `out`.
pub fn listings(sheet: &[u8], out: &mut [u8]) -> Result<usize, Refusal> {
    let mut place = 0;
    // SAFETY: as in `rewrite`.
    let number = unsafe {
        raw::declock_listings(
            sheet.as_ptr(),
            sheet.len(),
            out.as_mut_ptr(),
            out.len(),
            &mut place,
        )
    };
    told(number, place, 0)
}
