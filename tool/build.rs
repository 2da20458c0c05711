//! Makes target/library/ for C and Python, the archive and the shared library of the proved converter, and has cargo link a copy of the
//! archive. The Rattle toolchain proves and compiles (`rt lib` in crates/sailmortar_c), cc adds tool/version.c. It says what is missing.

use std::collections::hash_map::{DefaultHasher, HashMap};
use std::env;
use std::fs::{self, File, TryLockError};
use std::hash::{Hash, Hasher};
use std::io::{self, Write};
use std::os::unix::fs::MetadataExt;
use std::path::{Path, PathBuf};
use std::process::{exit, Command, Output};
use std::time::SystemTime;

/// What the products are made of: these files, and of every crate the folders that a proof reads.
const SOURCES: [&str; 4] = ["crates.txt", "include/sailmortar.h", "tool/build.rs", "tool/version.c"];
const PARTS: [&str; 3] = ["src", "specs", "proofs"];

/// The crate that exports the functions for C.
const EXPORTS: &str = "sailmortar_c";
/// What the toolchain makes of it, in its folder.
const PROVED: &str = "out/libsailmortar_c.a";
/// When the run of `rt ci` began that has just passed, in nanoseconds of the system's clock: the gate says so (.ci/run).
const SINCE: &str = "SAILMORTAR_PROVED_SINCE";

const ARCHIVE: &str = "libsailmortar.a";
/// The shared library by its soname, whose number goes up when programs that are linked to the old one cannot run with the new one.
const SHARED: &str = "libsailmortar.so.0";
/// The name by which a linker finds the shared library: the same file. A link that names it would be refused by `rt ci`, wherever it stands.
const LINK: &str = "libsailmortar.so";
const PRODUCTS: [&str; 3] = [ARCHIVE, SHARED, LINK];

fn main() {
    let root = PathBuf::from(env::var_os("CARGO_MANIFEST_DIR").expect("cargo names the package's folder"));
    let library = root.join("target/library");
    refuse_other_machines();
    watch(&root);
    let toolchain = name_of_toolchain(&root);
    done(fs::create_dir_all(&library), "made", &library);
    let _lock = lock(&library.join("lock"));
    let sources = Sources::read(&root, &toolchain);
    if !stands(&library, &sources) {
        make(&root, &library, &sources, &toolchain);
    }
    link(&library);
}

/// The archive is machine code: for x86_64, or on an aarch64 for that machine itself, since cc adds to it what it makes for its own machine.
fn refuse_other_machines() {
    let of = |name| env::var(name).unwrap_or_default();
    let (machine, system) = (of("CARGO_CFG_TARGET_ARCH"), of("CARGO_CFG_TARGET_OS"));
    let of_host = of("HOST").starts_with(&machine);
    if system != "linux" || !(machine == "x86_64" || machine == "aarch64" && of_host) {
        give_up(&format!("The archive is made for x86_64 linux, and on an aarch64 for aarch64 linux; this is for {machine} {system}."));
    }
}

/// What the toolchain compiles for: any x86_64, where it would take one with the instructions of x86-64-v2 by itself, or any aarch64.
fn machine() -> &'static str {
    match env::var("CARGO_CFG_TARGET_ARCH").as_deref() {
        Ok("aarch64") => "--target=aarch64-unknown-linux-gnu",
        _ => "--cpu=x86-64",
    }
}

/// Cargo runs this again when one of these is changed or gone.
fn watch(root: &Path) {
    let products = PRODUCTS.map(|product| PathBuf::from(format!("target/library/{product}")));
    for place in sources(root).into_iter().chain(["toolchain.txt".into()]).chain(products) {
        println!("cargo:rerun-if-changed={}", place.display());
    }
}

/// The files and folders that the products are made of, by their paths from the root. Beside the folders of a crate lies out/, which rt writes.
fn sources(root: &Path) -> Vec<PathBuf> {
    let mut found: Vec<PathBuf> = SOURCES.map(PathBuf::from).into();
    let crates = root.join("crates");
    for entry in done(fs::read_dir(&crates), "listed", &crates) {
        let name = done(entry, "listed", &crates).file_name();
        let parts = PARTS.map(|part| Path::new("crates").join(&name).join(part));
        found.extend(parts.into_iter().filter(|part| root.join(part).is_dir()));
    }
    found
}

/// The name that rt answers; cargo shows a warning where it is not the one of toolchain.txt.
fn name_of_toolchain(root: &Path) -> String {
    let wanted = fs::read_to_string(root.join("toolchain.txt")).unwrap_or_default();
    let wanted = wanted.trim();
    let found = match Command::new("rt").arg("version").output() {
        Ok(output) if output.status.success() => String::from_utf8_lossy(&output.stdout).trim().to_owned(),
        Ok(output) => give_up(&format!("'rt version' does not answer ({}). It said:\n{}", output.status, said(&output))),
        Err(cause) => give_up(&format!(
            "Sailmortar's converter is proved and compiled by rt, the command of the Rattle toolchain, and rt does not run: {cause}.\n\
             Install the toolchain that toolchain.txt names ({wanted}) and put its bin/ on PATH."
        )),
    };
    if wanted != found {
        println!("cargo:warning=this repository was last proved with '{wanted}', and rt is '{found}'");
    }
    found
}

/// Builds of two profiles may run at once, and make the same files. The system opens the lock when this process ends, however it ends.
/// Where nothing can be written there is nothing to lock, and what stands there may do.
fn lock(place: &Path) -> Option<File> {
    let file = match File::create(place) {
        Err(cause) if matches!(cause.kind(), io::ErrorKind::ReadOnlyFilesystem | io::ErrorKind::PermissionDenied) => return None,
        opened => done(opened, "opened", place),
    };
    match file.try_lock() {
        Ok(()) => {}
        Err(TryLockError::WouldBlock) => {
            say_at_the_terminal("sailmortar: another build is making the library; waiting for it");
            done(file.lock(), "locked", place);
        }
        Err(TryLockError::Error(cause)) => done(Err(cause), "locked", place),
    }
    Some(file)
}

/// The sources as they stand: a fingerprint over every path and content and the toolchain's name, and when the newest was changed.
struct Sources {
    fingerprint: String,
    newest: SystemTime,
}

impl Sources {
    fn read(root: &Path, toolchain: &str) -> Sources {
        let mut hasher = DefaultHasher::new();
        toolchain.hash(&mut hasher);
        let mut newest = SystemTime::UNIX_EPOCH;
        for file in files(root) {
            let place = root.join(&file);
            (&file, done(fs::read(&place), "read", &place)).hash(&mut hasher);
            newest = newest.max(done(fs::metadata(&place).and_then(|data| data.modified()), "dated", &place));
        }
        Sources { fingerprint: format!("{:016x}\n", hasher.finish()), newest }
    }
}

/// Every file of the sources, by its path from the root, in order.
fn files(root: &Path) -> Vec<PathBuf> {
    let mut found = Vec::new();
    for place in sources(root) {
        collect(root, &place, &mut found);
    }
    found.sort();
    found
}

fn collect(root: &Path, place: &Path, found: &mut Vec<PathBuf>) {
    let whole = root.join(place);
    if !whole.is_dir() {
        found.push(place.to_owned());
        return;
    }
    for entry in done(fs::read_dir(&whole), "listed", &whole) {
        collect(root, &place.join(done(entry, "listed", &whole).file_name()), found);
    }
}

/// Whether the products are there and of these sources.
fn stands(library: &Path, sources: &Sources) -> bool {
    let stamp = fs::read_to_string(library.join("stamp")).unwrap_or_default();
    stamp == sources.fingerprint && PRODUCTS.iter().all(|product| library.join(product).exists())
}

/// Makes the products in a folder of their own and moves them into place. The stamp goes first and comes last, so that a build that is
/// broken off leaves none, and a program that has an old product open keeps it whole.
fn make(root: &Path, library: &Path, sources: &Sources, toolchain: &str) {
    let (stamp, fresh) = (library.join("stamp"), library.join("new"));
    remove(&stamp);
    remove(&fresh);
    done(fs::create_dir(&fresh), "made", &fresh);
    prove(root);
    archive(root, &fresh);
    share(&fresh);
    if Sources::read(root, toolchain).fingerprint != sources.fingerprint {
        give_up("The sources changed while they were proved: build again.");
    }
    for product in PRODUCTS {
        put_in_place(&fresh.join(product), &library.join(product), sources.newest);
    }
    done(fs::write(fresh.join("stamp"), &sources.fingerprint), "written", &stamp);
    done(fs::rename(fresh.join("stamp"), &stamp), "moved into place", &stamp);
    remove(&fresh);
}

/// Proves the converter, or finds it proved, and has the toolchain write the archive.
fn prove(root: &Path) {
    let folder = root.join("crates").join(EXPORTS);
    if let Some(libraries) = libraries_of_the_gate(root) {
        compile_over(&folder, &libraries);
        return;
    }
    say_at_the_terminal(
        "sailmortar: proving the converter (rt lib in crates/sailmortar_c): long where nothing of it is proved yet, less where some is",
    );
    // `rt all check` proves the crates below this one side by side and `rt lib` one after the other.
    ask_rt(&folder, Command::new("rt").args(["all", "check"]));
    ask_rt(&folder, Command::new("rt").args(["lib", machine()]));
}

/// The folders of the libraries that `rt ci` left, where it passed over just these sources: the gate says when that run began, and no source was
/// changed since, and each library was put there since and by no other command of rt. `rt lib` would prove them all again.
fn libraries_of_the_gate(root: &Path) -> Option<Vec<PathBuf>> {
    let since = env::var(SINCE).ok()?.parse::<i128>().ok()?;
    let moment = |data: fs::Metadata| i128::from(data.ctime()) * 1_000_000_000 + i128::from(data.ctime_nsec());
    let changed = |place: &Path| fs::symlink_metadata(place).map(moment);
    let mut read = vec![root.join("crates")];
    for source in sources(root) {
        folders(&root.join(&source), &mut read);
    }
    read.extend(files(root).iter().map(|file| root.join(file)));
    if !read.iter().all(|place| changed(place).is_ok_and(|moment| moment <= since)) {
        return None;
    }
    let lines = lines_of_crates(root);
    let mut libraries = Vec::new();
    for name in below(&lines) {
        let folder = root.join("crates").join(name).join("out/rlib");
        let is_of_the_gate = changed(&folder.join(format!("{name}.rlib/format"))).is_ok_and(|moment| moment >= since);
        if !is_of_the_gate || folder.join("stamp").exists() {
            return None;
        }
        libraries.push(folder);
    }
    Some(libraries)
}

/// A folder and every folder below it.
fn folders(place: &Path, found: &mut Vec<PathBuf>) {
    if place.is_dir() {
        found.push(place.to_owned());
        for entry in done(fs::read_dir(place), "listed", place) {
            folders(&done(entry, "listed", place).path(), found);
        }
    }
}

/// What each crate uses of the others, by the lines of crates.txt.
fn lines_of_crates(root: &Path) -> HashMap<String, Vec<String>> {
    let listed = root.join("crates.txt");
    let text = done(fs::read_to_string(&listed), "read", &listed);
    let lines = text.lines().filter_map(|line| line.split('#').next()?.split_once(':'));
    let name_of = |words: &str| words.split_whitespace().next().unwrap_or_default().to_owned();
    lines.map(|(words, uses)| (name_of(words), uses.split_whitespace().map(str::to_owned).collect())).collect()
}

/// The crates below that of the exports, those that it uses itself first.
fn below(lines: &HashMap<String, Vec<String>>) -> Vec<&str> {
    let mut found = vec![EXPORTS];
    let mut next = 0;
    while next < found.len() {
        for name in lines.get(found[next]).into_iter().flatten() {
            if lines.contains_key(name) && !found.contains(&name.as_str()) {
                found.push(name);
            }
        }
        next += 1;
    }
    found.split_off(1)
}

/// Proves the crate of the exports over libraries that are proved, and writes the archive: what `rt lib` calls, with other libraries.
fn compile_over(folder: &Path, libraries: &[PathBuf]) {
    let answer = done(Command::new("rt").arg("doc").output(), "asked", Path::new("rt"));
    let page = PathBuf::from(String::from_utf8_lossy(&answer.stdout).trim());
    let kit = page.parent().unwrap_or_else(|| give_up("'rt doc' names no page of the toolchain."));
    let pair = |word: &str, place: &Path| format!("{word}={}", place.display());
    let lines = lines_of_crates(&folder.join("../.."));
    done(fs::create_dir_all(folder.join("out")), "made", folder);
    let mut build = Command::new(kit.join("bin/rattle"));
    build.current_dir(folder).args(["build", "--crate-name", EXPORTS, "src/lib.rt", "--crate-type", "staticlib"]);
    build.args(["--extern", &pair("std", &kit.join("rlibs/std.rlib")), "-L", &pair("dependency", &kit.join("rlibs"))]);
    for name in lines.get(EXPORTS).into_iter().flatten() {
        build.args(["--extern", &pair(name, &folder.join(format!("../{name}/out/rlib/{name}.rlib")))]);
    }
    for library in libraries {
        build.args(["-L", &pair("dependency", library)]);
    }
    build.arg("--antt-project").arg(kit.join("rattle/logic/antt-project.json")).arg("--logic-built").arg(kit.join("logic_built"));
    build.arg("--toolchain").arg(kit.join("toolchain")).args(["--links", &format!("{EXPORTS}="), "--backend", "llvm"]);
    build.args(["--jobs", "2", machine(), "-o", PROVED]);
    run(&mut build, "prove and compile the functions for C");
}

fn ask_rt(folder: &Path, command: &mut Command) {
    let words = command.get_args().map(|word| word.to_string_lossy().into_owned()).collect::<Vec<_>>();
    match command.current_dir(folder).output() {
        Ok(output) if output.status.success() => {}
        Ok(output) => give_up(&format!(
            "{}\n'rt {}' did not prove the converter ({}), and only a proved converter is built. What it said stands above.",
            said(&output),
            words.join(" "),
            output.status
        )),
        Err(cause) => give_up(&format!("rt does not run: {cause}")),
    }
}

/// Cargo shows what a build script says only where it fails, and minutes without a word look like a fault.
fn say_at_the_terminal(words: &str) {
    // Cargo draws how far it is on the last line, which is cleared first; a terminal without that gets the words alone.
    let clears = env::var("TERM").is_ok_and(|name| !name.is_empty() && name != "dumb");
    let clear = if clears { "\r\x1b[K" } else { "" };
    if let Ok(mut terminal) = fs::OpenOptions::new().write(true).open("/dev/tty") {
        let _ = writeln!(terminal, "{clear}{words}");
    }
}

/// The proved archive, and the object of tool/version.c in it.
fn archive(root: &Path, fresh: &Path) {
    let (proved, whole, object) = (root.join("crates").join(EXPORTS).join(PROVED), fresh.join(ARCHIVE), fresh.join("version.o"));
    done(fs::copy(&proved, &whole), "copied", &proved);
    let mut compile = Command::new("cc");
    compile.args(["-c", "-O2", "-fPIC", "-I"]).arg(root.join("include")).arg(root.join("tool/version.c")).arg("-o").arg(&object);
    run(&mut compile, "compile tool/version.c");
    run(Command::new("ar").arg("rcs").args([&whole, &object]), "add an object to the archive");
}

/// The shared library from the whole archive, by both of its names. A symbol that neither has is refused here and not when a program starts.
fn share(fresh: &Path) {
    let mut link = Command::new("cc");
    link.arg("-shared").arg(format!("-Wl,-soname,{SHARED}")).args(["-Wl,-z,defs", "-Wl,--whole-archive"]).arg(fresh.join(ARCHIVE));
    link.args(["-Wl,--no-whole-archive", "-o"]).arg(fresh.join(SHARED));
    run(&mut link, "make the shared library");
    done(fs::hard_link(fresh.join(SHARED), fresh.join(LINK)), "made", &fresh.join(LINK));
}

/// Moves a product to its place and dates it as the newest source: cargo takes a file that is newer than the script's start for changed.
fn put_in_place(made: &Path, place: &Path, date: SystemTime) {
    done(fs::rename(made, place), "moved into place", place);
    done(File::open(place).and_then(|file| file.set_modified(date)), "dated", place);
}

/// Cargo links a copy of its own, so that no link depends on a folder that others may clear.
fn link(library: &Path) {
    let folder = PathBuf::from(env::var_os("OUT_DIR").expect("cargo names the folder for what a build script makes"));
    done(fs::copy(library.join(ARCHIVE), folder.join(ARCHIVE)), "copied", &library.join(ARCHIVE));
    println!("cargo:rustc-link-search=native={}", folder.display());
    println!("cargo:rustc-link-lib=static=sailmortar");
}

/// Removes a file or a folder, if it is there.
fn remove(place: &Path) {
    if place.is_dir() {
        done(fs::remove_dir_all(place), "removed", place);
    } else if place.exists() {
        done(fs::remove_file(place), "removed", place);
    }
}

/// Runs a command of the system, or gives up with what it said.
fn run(command: &mut Command, purpose: &str) {
    let name = command.get_program().to_string_lossy().into_owned();
    match command.output() {
        Ok(output) if output.status.success() => {}
        Ok(output) => give_up(&format!("{name} did not {purpose} ({}). It said:\n{}", output.status, said(&output))),
        Err(cause) => give_up(&format!("{name} is needed to {purpose}, and does not run: {cause}.")),
    }
}

/// What the file system answered, or gives up with the reason why not.
fn done<T>(answer: io::Result<T>, deed: &str, place: &Path) -> T {
    answer.unwrap_or_else(|cause| give_up(&format!("{} could not be {deed}: {cause}.", place.display())))
}

fn said(output: &Output) -> String {
    format!("{}{}", String::from_utf8_lossy(&output.stdout), String::from_utf8_lossy(&output.stderr))
}

fn give_up(words: &str) -> ! {
    eprintln!("\n{words}\n");
    exit(1)
}
