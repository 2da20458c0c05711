//! An earlier version of Sailmortar beside this one, so that the two take turns in one run: SAILMORTAR_BENCH_BEFORE names the earlier
//! one's shared library. This version's is then opened, too: one and the same code, linked into the bench and opened by it, differed by
//! some hundredths.

use std::ffi::{c_char, c_int, c_void, CStr, CString};
use std::os::unix::ffi::OsStrExt;
use std::path::{Path, PathBuf};

use sailmortar::Rows;

// The C library, which std is linked to, opens shared libraries.
extern "C" {
    fn dlopen(file: *const c_char, mode: c_int) -> *mut c_void;
    fn dlsym(library: *mut c_void, name: *const c_char) -> *mut c_void;
    fn dlerror() -> *const c_char;
}

/// Every symbol is found when the library is opened, and not in the first call, which is timed.
const RTLD_NOW: c_int = 2;

type Conversion = unsafe extern "C" fn(*const u8, usize, u32, u32, *const u8, usize, *mut u8, usize, *mut [u64; 6]);
type Base64Step = unsafe extern "C" fn(*const u8, usize, *mut u8, usize, *mut [u64; 5]);

/// The functions of a version that are timed, as they stand in include/sailmortar.h. The library stays open to the end of the process.
pub struct Version {
    pub file: PathBuf,
    convert_piece: Conversion,
    base64_decode: Base64Step,
    base64_encode: Base64Step,
}

pub struct Versions {
    pub now: Version,
    pub before: Version,
}

impl Versions {
    /// This version and the one that the environment names, where it names one.
    pub fn of_environment() -> Option<Versions> {
        let named = std::env::var_os("SAILMORTAR_BENCH_BEFORE")?;
        // The build that made this bench made it.
        let now = concat!(env!("CARGO_MANIFEST_DIR"), "/target/library/libsailmortar.so.0");
        Some(Versions { now: Version::open(Path::new(now)), before: Version::open(Path::new(&named)) })
    }
}

impl Version {
    fn open(named: &Path) -> Version {
        // By its whole path, so that two of one name are two.
        let file = named.canonicalize().unwrap_or_else(|cause| panic!("{}: {cause}", named.display()));
        let library = open(&file);
        let function = |name| find(library, name).unwrap_or_else(|| panic!("{} has no {}", file.display(), name.to_string_lossy()));
        // SAFETY: functions of these names have these signatures in every version's header.
        unsafe {
            Version {
                convert_piece: std::mem::transmute::<*mut c_void, Conversion>(function(c"sailmortar_convert_piece")),
                base64_decode: std::mem::transmute::<*mut c_void, Base64Step>(function(c"sailmortar_base64_decode")),
                base64_encode: std::mem::transmute::<*mut c_void, Base64Step>(function(c"sailmortar_base64_encode")),
                file,
            }
        }
    }

    /// The rows done and the bytes written, or nothing where it refuses.
    pub fn convert(&self, decls: &[u8], from: Rows, to: Rows, input: &[u8], out: &mut [u8]) -> Option<(usize, usize)> {
        let number = |rows| Rows::ALL.iter().position(|known| *known == rows).expect("a kind of rows") as u32;
        let (from, to, mut answer) = (number(from), number(to), [0; 6]);
        let (text, stream, room) = (decls.as_ptr(), input.as_ptr(), out.as_mut_ptr());
        // SAFETY: each pointer and length is a slice's own, and `out` and `answer` are lent to this call alone.
        unsafe { (self.convert_piece)(text, decls.len(), from, to, stream, input.len(), room, out.len(), &mut answer) };
        (answer[0] == 0).then_some((answer[3] as usize, answer[4] as usize))
    }

    /// The bytes written, or nothing where it refuses.
    pub fn base64_decode(&self, input: &[u8], out: &mut [u8]) -> Option<usize> {
        base64_step(self.base64_decode, input, out)
    }

    /// The same.
    pub fn base64_encode(&self, input: &[u8], out: &mut [u8]) -> Option<usize> {
        base64_step(self.base64_encode, input, out)
    }
}

fn base64_step(call: Base64Step, input: &[u8], out: &mut [u8]) -> Option<usize> {
    let mut answer = [0; 5];
    // SAFETY: as in `convert`.
    unsafe { call(input.as_ptr(), input.len(), out.as_mut_ptr(), out.len(), &mut answer) };
    (answer[0] == 0).then_some(answer[4] as usize)
}

fn open(file: &Path) -> *mut c_void {
    let name = CString::new(file.as_os_str().as_bytes()).expect("a path has no NUL");
    // SAFETY: `name` ends with a NUL, and what the library runs as it is opened is the C compiler's alone.
    let library = unsafe { dlopen(name.as_ptr(), RTLD_NOW) };
    if library.is_null() {
        // SAFETY: behind a call that failed it answers a text.
        panic!("{} is not opened: {}", file.display(), unsafe { CStr::from_ptr(dlerror()) }.to_string_lossy());
    }
    library
}

fn find(library: *mut c_void, name: &CStr) -> Option<*mut c_void> {
    // SAFETY: `library` is open, and `name` ends with a NUL.
    let function = unsafe { dlsym(library, name.as_ptr()) };
    (!function.is_null()).then_some(function)
}

/// Sailmortar, plain Rust and the version before, where there is one, have written what is expected.
pub fn assert_written(versions: Option<&Versions>, outputs: &[Vec<u8>; 3], expected: &[u8], what: &str) {
    let [ours, plain, before] = outputs.each_ref().map(|out| out == expected);
    assert!(ours, "Sailmortar: {what}");
    assert!(plain, "plain: {what}");
    assert!(before || versions.is_none(), "before: {what}");
}

/// The names of a table's last two columns, and the line under them; a run without a version before has no such columns.
pub fn columns(versions: Option<&Versions>) -> [&'static str; 2] {
    versions.map_or([""; 2], |_| [" before MB/s | Sailmortar / before |", "--:|--:|"])
}

/// What stands in them, by the seconds that Sailmortar and the version before took for so many MB.
pub fn figures(versions: Option<&Versions>, size: f64, [ours, before]: [f64; 2]) -> String {
    versions.map_or(String::new(), |_| format!(" {:.0} | {:.2} |", size / before, before / ours))
}
