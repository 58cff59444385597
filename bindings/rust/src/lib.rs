//! Runs scripts of GLib's main event loop in virtual time, by the proved engine of mainctx.
//!
//! A script is JSON (docs/FORMAT.md of the repository): threads, the sources of their contexts, and what each callback does. Its text
//! says tick by tick what is dispatched, and is the same each time.
//!
//! ```
//! // does a redraw starve while a socket has data?
//! let script = br#"{"version": 1, "ticks": 3, "tick_us": 1000, "fds": [[[0, 1], [2, 0]]], "loops": [0],
//!     "procs": [{"do": [], "keep": null}],
//!     "lanes": [{"contexts": 1, "start": [
//!         ["attach", 0, 0, {"kind": ["fd", 0, 1], "priority": 0, "call": 0}],
//!         ["attach", 0, 1, {"kind": ["idle"], "priority": 120, "call": 0}],
//!         ["run", 0]]}]}"#;
//! let text = mainctx::run(script)?;
//! assert_eq!(
//!     text,
//!     "thread 0\n\
//!      0 dispatch ctx 0 source 1 priority 0 depth 1\n\
//!      1 dispatch ctx 0 source 1 priority 0 depth 1\n\
//!      2 dispatch ctx 0 source 2 priority 120 depth 1\n"
//! );
//! assert_eq!(mainctx::run(b"{}"), Err(mainctx::Fault::Shape));
//! # Ok::<(), mainctx::Fault>(())
//! ```
//!
//! What the library answers is proved to be the text of the script, or its class of fault; this crate over it is tested, and not
//! proved. It needs `libmainctx.a`, which build.rs finds.

#![warn(missing_docs)]

mod fault;

pub use fault::Fault;

use std::ops::RangeInclusive;

/// What a call answers where the whole text is in the room, where the room is too short, and where faults are told (mainctx.h). The
/// others are faults.
const TEXT: u32 = 0;
const SHORT_ROOM: u32 = 7;
const FAULTS: u32 = 8;

/// The bytes of the first room, which is enough for most texts.
const FIRST_ROOM: usize = 65_536;

/// Declares calls of the library, by what each takes between the script and the room.
macro_rules! calls {
    ($($name:ident($($word:ident: $number:ty),*);)*) => {
        extern "C" {
            $(fn $name(
                script: *const u8,
                script_size: usize,
                $($word: $number,)*
                room: *mut u8,
                room_size: usize,
                needed: *mut usize,
            ) -> u32;)*
        }
    };
}

calls! {
    mainctx_run();
    mainctx_translate();
    mainctx_check();
    mainctx_text(notes: u32);
    mainctx_summary();
    mainctx_notes();
    mainctx_account(first: u64, most: u64);
    mainctx_why(first: u32, last: u32);
    mainctx_steps(thread: u32, first: u32, last: u32);
    mainctx_stack(thread: u32, tick: u32, step: u64);
    mainctx_timeline(thread: u32, first: u32, last: u32, columns: u32);
}

/// The numbers that stand for each thread and for the end of a turn (mainctx.h).
const EACH_THREAD: u32 = u32::MAX;
const END_OF_TURN: u64 = u64::MAX;

/// What a call tells of a script.
macro_rules! told_by {
    ($call:ident, $script:expr $(, $word:expr)*) => {
        // SAFETY: script, room and `needed` are apart, the library reads and writes within their sizes and keeps none of them, and no pointer
        // is null, not even of an empty slice.
        told(|room, needed| unsafe {
            $call($script.as_ptr(), $script.len(), $($word,)* room.as_mut_ptr(), room.len(), needed)
        })
    };
}

/// A room of so many bytes, where memory is there.
fn room_of(size: usize) -> Result<Vec<u8>, Fault> {
    let mut room = Vec::new();
    room.try_reserve_exact(size)
        .map_err(|_| Fault::OutOfMemory)?;
    room.resize(size, 0);
    Ok(room)
}

/// What a call leaves in a room that is long enough. The call answers of the room it is given, and notes how much is needed.
fn told(call: impl Fn(&mut [u8], &mut usize) -> u32) -> Result<String, Fault> {
    let mut text = room_of(FIRST_ROOM)?;
    loop {
        let mut needed = 0;
        match call(&mut text, &mut needed) {
            TEXT | FAULTS => {
                text.truncate(needed);
                return Ok(String::from_utf8(text).expect("what is told is UTF-8"));
            }
            SHORT_ROOM => text = room_of(needed)?,
            number => return Err(Fault::of(number)),
        }
    }
}

/// Runs a script of numbers to its end in the caller's thread, and answers its text. One with names (docs/NAMES.md of the repository) runs as
/// what [`translate`] gives of it.
///
/// # Errors
///
/// The first class of which the script has a fault, or `OutOfMemory`; then nothing is left of the run.
pub fn run(script: &[u8]) -> Result<String, Fault> {
    told_by!(mainctx_run, script)
}

/// Answers the script of numbers that a script with names stands for, and of a script of numbers its own text.
///
/// # Errors
///
/// Where a script with names stands for a script of numbers that is refused, that one's first class of fault; for each other fault of a
/// script with names `Shape`; of a script of numbers its first class; or `OutOfMemory`.
pub fn translate(script: &[u8]) -> Result<String, Fault> {
    told_by!(mainctx_translate, script)
}

/// Tells what is wrong with a script of either form: each fault as a JSON object on a line, with its class, its place and what was
/// wanted, 100 at most; nothing exactly where [`translate`] gives a script, which [`run`] runs.
///
/// # Errors
///
/// `OutOfMemory` alone.
pub fn check(script: &[u8]) -> Result<String, Fault> {
    told_by!(mainctx_check, script)
}

/// Tells what the run of a script of either form does, a move at a time, each as a JSON object on a line (docs/ACCOUNT.md of the
/// repository): from the move `first` on, counted from 0, and `most` of them at most, between the account's first line and, where the run
/// is over behind them, its last. It has the script's names where there are some; of what [`translate`] gives it tells numbers.
///
/// # Errors
///
/// As of [`translate`].
pub fn account(script: &[u8], first: u64, most: u64) -> Result<String, Fault> {
    told_by!(mainctx_account, script, first, most)
}

/// Tells in words why sources were dispatched or not: each iteration in these ticks, with a table of its sources. The script and its names
/// are as of [`account`].
///
/// # Errors
///
/// As of [`translate`].
pub fn why(script: &[u8], ticks: RangeInclusive<u32>) -> Result<String, Fault> {
    told_by!(mainctx_why, script, *ticks.start(), *ticks.end())
}

/// Answers the text of the run of a script of either form: of one with names with these and with times, and of one of numbers as [`run`]
/// does; with `notes` also where the real GLib does otherwise. The script and its names are as of [`account`].
///
/// # Errors
///
/// As of [`translate`].
pub fn text(script: &[u8], notes: bool) -> Result<String, Fault> {
    told_by!(mainctx_text, script, u32::from(notes))
}

/// Tells each source and loop of a run in one line, and what was silent. The script and its names are as of [`account`].
///
/// # Errors
///
/// As of [`translate`].
pub fn summary(script: &[u8]) -> Result<String, Fault> {
    told_by!(mainctx_summary, script)
}

/// Tells where the real GLib would do otherwise than a run, or that nothing is known in which it would. The script and its names are as of [`account`].
///
/// # Errors
///
/// As of [`translate`].
pub fn notes(script: &[u8]) -> Result<String, Fault> {
    told_by!(mainctx_notes, script)
}

/// Tells each step of each turn in these ticks, of one thread or of each, with what is in progress after it. The script and its names are as
/// of [`account`].
///
/// # Errors
///
/// As of [`translate`].
pub fn steps(
    script: &[u8],
    thread: Option<u32>,
    ticks: RangeInclusive<u32>,
) -> Result<String, Fault> {
    told_by!(
        mainctx_steps,
        script,
        thread.unwrap_or(EACH_THREAD),
        *ticks.start(),
        *ticks.end()
    )
}

/// Tells what a thread is in the middle of in a tick, after so many steps of its turn, or at its end; nothing where the run has no such
/// moment. The script and its names are as of [`account`].
///
/// # Errors
///
/// As of [`translate`].
pub fn stack(script: &[u8], thread: u32, tick: u32, step: Option<u64>) -> Result<String, Fault> {
    told_by!(
        mainctx_stack,
        script,
        thread,
        tick,
        step.unwrap_or(END_OF_TURN)
    )
}

/// Draws the run of one thread or of each in these ticks, in lines of so many characters at most, 50 at least. The script and its names are as
/// of [`account`].
///
/// # Errors
///
/// As of [`translate`].
pub fn timeline(
    script: &[u8],
    thread: Option<u32>,
    ticks: RangeInclusive<u32>,
    columns: u32,
) -> Result<String, Fault> {
    told_by!(
        mainctx_timeline,
        script,
        thread.unwrap_or(EACH_THREAD),
        *ticks.start(),
        *ticks.end(),
        columns
    )
}
