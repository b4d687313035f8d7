//! What happens when the station touches a page that fences a lent slice, or writes to a slice that is
//! shut: the call is printed, and the program ends.

use crate::call::Call;
use std::ffi::c_int;
use std::ptr::null_mut;
use std::sync::atomic::{AtomicPtr, Ordering};

extern "C" {
    fn signal(number: c_int, handler: extern "C" fn(c_int)) -> usize;
    fn _exit(status: c_int) -> !;
}

const SIGSEGV: c_int = 11;

/// The call that is under way.
static CURRENT: AtomicPtr<Call> = AtomicPtr::new(null_mut());

/// Prints the call that is under way, should it touch a fence or write to a slice that is shut. To be
/// asked for once.
pub fn watch() {
    // SAFETY: the handler does not return, so it need not leave anything as it was.
    unsafe { signal(SIGSEGV, caught) };
}

/// Runs `enter` with `call` as the call under way.
pub fn during<T>(call: &Call, enter: impl FnOnce() -> T) -> T {
    CURRENT.store(std::ptr::from_ref(call).cast_mut(), Ordering::SeqCst);
    let result = enter();
    CURRENT.store(null_mut(), Ordering::SeqCst);
    result
}

extern "C" fn caught(_signal: c_int) {
    // SAFETY: the pointer is null, or a call that waits for the station in `during`. Nothing else
    // runs, and no lock on standard error is held while the station runs.
    unsafe {
        match CURRENT.load(Ordering::SeqCst).as_ref() {
            Some(call) => eprintln!(
                "MEMORY OUTSIDE A LENT SLICE WAS TOUCHED, OR A SLICE THAT MUST STAY WRITTEN TO\n  {call}"
            ),
            None => eprintln!("memory fault outside the station"),
        }
        _exit(1)
    }
}
