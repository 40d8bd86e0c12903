//! The program `ti` for a page: words and bytes in, what the program writes out.
//!
//! A page hands over each input by writing to the place that [`room`] returns, calls [`run`], and reads each result from where
//! [`place`] and [`length`] say that it is. A place holds until the next call of `room` for it, of `run` or of [`clear`].
//!
//! Nothing here follows a pointer: places go out as numbers, and the page, which has the whole memory of the module anyway, reads
//! and writes there between two calls. So the only thing that is `unsafe` here is that the names below are seen from outside.
//! What is run is safe code, since `ti-terminfo` forbids the other.

use std::mem::take;
use std::sync::Mutex;
use ti_terminfo::program;

/// The bytes that go in and come out, by their slots. They are those of the last call alone.
static SLOTS: Mutex<[Vec<u8>; 5]> = Mutex::new([const { Vec::new() }; 5]);
const WORDS: usize = 0;
const INPUT: usize = 1;
const FILE: usize = 2;
const OUTPUT: usize = 3;
const ERRORS: usize = 4;

/// Applies a call to the slots. A module that stopped within a call is not called again, so the lock is always free.
fn with_slots<T>(call: impl FnOnce(&mut [Vec<u8>; 5]) -> T) -> T {
    call(&mut SLOTS.lock().expect("calls end"))
}

/// Makes room for `count` bytes in a slot: 0 is for the words, which NUL separates, 1 for standard input, and 2 for what any file
/// holds that the words name. Returns its place.
#[unsafe(no_mangle)]
pub extern "C" fn room(slot: usize, count: usize) -> *mut u8 {
    with_slots(|slots| {
        slots[slot] = vec![0; count];
        slots[slot].as_mut_ptr()
    })
}

/// Runs the program over what the first three slots have, which are empty then, and returns its exit status. Words that are no
/// UTF-8 have the status that they have on a command line. If `for_person` is not 0, the lines on faults say what to do.
#[unsafe(no_mangle)]
pub extern "C" fn run(for_person: u32) -> u32 {
    with_slots(|slots| {
        let [words, input, file] = [WORDS, INPUT, FILE].map(|slot| take(&mut slots[slot]));
        (slots[OUTPUT], slots[ERRORS]) = (Vec::new(), Vec::new());
        let Ok(words) = str::from_utf8(&words) else {
            return 2;
        };
        let call = if for_person == 0 { program::run } else { program::run_for_person };
        let outcome = call(&words.split('\0').collect::<Vec<_>>(), &input, &file);
        (slots[OUTPUT], slots[ERRORS]) = (outcome.output, outcome.errors);
        outcome.status.into()
    })
}

/// The place of a result: 3 is what the program wrote, and 4 its lines on faults.
#[unsafe(no_mangle)]
pub extern "C" fn place(slot: usize) -> *const u8 {
    with_slots(|slots| slots[slot].as_ptr())
}

/// How many bytes a result has.
#[unsafe(no_mangle)]
pub extern "C" fn length(slot: usize) -> usize {
    with_slots(|slots| slots[slot].len())
}

/// Gives the memory of all slots back.
#[unsafe(no_mangle)]
pub extern "C" fn clear() {
    with_slots(|slots| *slots = [const { Vec::new() }; 5]);
}
