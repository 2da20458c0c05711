//! What std has no word for: descriptors by their numbers, closed ones among them, and files to remove when a signal ends the run. All that
//! is unsafe in the command is in this file.

use std::ffi::{c_char, c_int, CString};
use std::fs::File;
use std::io;
use std::os::fd::FromRawFd;
use std::os::unix::ffi::OsStrExt;
use std::path::Path;
use std::ptr::{null, null_mut};
use std::sync::atomic::{AtomicBool, AtomicPtr, Ordering};

/// `struct sigaction` of the C library on x86_64 Linux, which is the one system that this is built for.
#[repr(C)]
struct Action {
    handler: usize,
    mask: SignalSet,
    flags: c_int,
    restorer: usize,
}

type SignalSet = [u64; 16];

extern "C" {
    fn fcntl(descriptor: c_int, command: c_int, ...) -> c_int;
    fn sigaction(signal: c_int, action: *const Action, old: *mut Action) -> c_int;
    fn sigprocmask(how: c_int, set: *const SignalSet, old: *mut SignalSet) -> c_int;
    fn raise(signal: c_int) -> c_int;
    fn unlink(path: *const c_char) -> c_int;
    fn _exit(status: c_int) -> !;
}

const F_GETFD: c_int = 1;
const F_DUPFD_CLOEXEC: c_int = 1030;
const SIG_DFL: usize = 0;
const SIG_IGN: usize = 1;
const SIG_SETMASK: c_int = 2;
const SA_RESTART: c_int = 0x1000_0000;
const SIGXFSZ: c_int = 25;

/// Those that end a run unless it says otherwise, and are sent by people, by limits, and by a library that finds no memory: HUP, INT, QUIT,
/// ABRT, USR1, USR2, ALRM, TERM, XCPU.
const ENDING: [c_int; 9] = [1, 2, 3, 6, 10, 12, 14, 15, 24];

static CLOSED: [AtomicBool; 3] = [AtomicBool::new(false), AtomicBool::new(false), AtomicBool::new(false)];

/// Before main: Rust opens /dev/null in the place of a standard descriptor that is closed, and then no one can tell.
#[used]
#[link_section = ".init_array"]
static BEFORE_MAIN: extern "C" fn() = note_closed;

extern "C" fn note_closed() {
    for (descriptor, closed) in (0..).zip(&CLOSED) {
        // SAFETY: asking for a descriptor's flags changes nothing, whatever the number.
        closed.store(unsafe { fcntl(descriptor, F_GETFD) } == -1, Ordering::Relaxed);
    }
}

/// An open descriptor of this number, for itself; an error if it was closed when the program began.
pub fn descriptor(number: c_int) -> io::Result<File> {
    if usize::try_from(number).ok().and_then(|place| CLOSED.get(place)).is_some_and(|closed| closed.load(Ordering::Relaxed)) {
        return Err(io::Error::other("it is closed"));
    }
    // SAFETY: duplicating a descriptor changes nothing for who holds it, whatever the number; what comes back is no one else's.
    match unsafe { fcntl(number, F_DUPFD_CLOEXEC, 3) } {
        -1 => Err(io::Error::last_os_error()),
        own => Ok(unsafe { File::from_raw_fd(own) }),
    }
}

/// A write beyond the length that a file may have is an error like any other, and does not end the run.
pub fn limits_are_errors() {
    set_action(SIGXFSZ, SIG_IGN);
}

/// The files to remove, as many as a run may have open for writing.
static DOOMED: [AtomicPtr<c_char>; 2] = [AtomicPtr::new(null_mut()), AtomicPtr::new(null_mut())];

/// While this is alive, a signal that ends the run removes the file of this name first.
pub struct Doomed(usize);

impl Doomed {
    pub fn new(path: &Path) -> io::Result<Doomed> {
        let name = CString::new(path.as_os_str().as_bytes())?.into_raw();
        let free = |place: &AtomicPtr<c_char>| place.compare_exchange(null_mut(), name, Ordering::AcqRel, Ordering::Acquire).is_ok();
        let place = DOOMED.iter().position(free).expect("a run writes two files at most");
        // A signal that is ignored, as nohup has it, stays ignored.
        ENDING.into_iter().filter(|number| action_of(*number) == SIG_DFL).for_each(|number| {
            set_action(number, remove_and_end as extern "C" fn(c_int) as usize);
        });
        Ok(Doomed(place))
    }
}

impl Drop for Doomed {
    fn drop(&mut self) {
        let name = DOOMED[self.0].swap(null_mut(), Ordering::AcqRel);
        // SAFETY: `new` put a pointer from `into_raw` there, and only this takes it away.
        drop(unsafe { CString::from_raw(name) });
    }
}

fn action_of(number: c_int) -> usize {
    let mut old = Action { handler: SIG_DFL, mask: [0; 16], flags: 0, restorer: 0 };
    // SAFETY: without a new action the old one is only told.
    unsafe { sigaction(number, null(), &mut old) };
    old.handler
}

/// While an action runs every other signal waits.
fn set_action(number: c_int, handler: usize) {
    let action = Action { handler, mask: [u64::MAX; 16], flags: SA_RESTART, restorer: 0 };
    // SAFETY: the handler is the default, nothing, or a function of the type that is wanted, which does only what such a function may.
    unsafe { sigaction(number, &action, null_mut()) };
}

/// All that is called here may be called in a signal's action. The signal's own action comes back and ends the run; the first process of a
/// container has none that does, and ends by itself.
extern "C" fn remove_and_end(number: c_int) {
    for place in &DOOMED {
        let name = place.load(Ordering::Acquire);
        if !name.is_null() {
            // SAFETY: a pointer that stands there is a name's until `drop` has taken it away, which cannot go on while this runs: not on
            // this thread, and where there are others, the first one is in a conversion, which drops no name and ends behind all of them.
            unsafe { unlink(name) };
        }
    }
    set_action(number, SIG_DFL);
    // SAFETY: the signal is raised while it waits, and comes when no signal waits any more.
    unsafe {
        raise(number);
        sigprocmask(SIG_SETMASK, &[0; 16], null_mut());
        _exit(128 + number)
    }
}
