//! tool/install into scratch folders: what it puts where, the command, the library by pkg-config, a second install, DESTDIR, wrong usage;
//! and that a second build, of what tool/build.rs has made, runs nothing.

use std::fs::{self, File};
use std::io::Read;
use std::ops::Deref;
use std::os::unix::fs::{MetadataExt, PermissionsExt};
use std::path::{Path, PathBuf};
use std::process::{Command, Output};

const ROOT: &str = env!("CARGO_MANIFEST_DIR");
const VERSION: &str = env!("CARGO_PKG_VERSION");

/// A scratch folder, which goes with its test: `rt ci` refuses a link wherever it stands, and an install has one.
struct Scratch(PathBuf);

impl Deref for Scratch {
    type Target = Path;

    fn deref(&self) -> &Path {
        &self.0
    }
}

impl Drop for Scratch {
    fn drop(&mut self) {
        if !std::thread::panicking() {
            let _ = fs::remove_dir_all(&self.0);
        }
    }
}

/// A scratch folder with nothing in it.
fn scratch(name: &str) -> Scratch {
    let folder = Path::new(env!("CARGO_TARGET_TMPDIR")).join("install").join(name);
    if folder.exists() {
        fs::remove_dir_all(&folder).expect("an old scratch folder goes");
    }
    fs::create_dir_all(&folder).expect("a scratch folder");
    Scratch(folder)
}

fn text(bytes: &[u8]) -> String {
    String::from_utf8_lossy(bytes).into_owned()
}

/// What a command that succeeds writes to standard output.
fn said(command: &mut Command) -> String {
    let output = command.output().unwrap_or_else(|cause| panic!("{command:?}: {cause}"));
    assert!(output.status.success(), "{command:?}: {}{}", text(&output.stdout), text(&output.stderr));
    text(&output.stdout)
}

/// tool/install, whatever the environment of the tests says.
fn install(words: &[&str]) -> Command {
    let mut command = Command::new(Path::new(ROOT).join("tool/install"));
    command.args(words).env_remove("DESTDIR");
    command
}

/// Installs into a fresh prefix; the name has a space, as the name of a folder may have one.
fn installed(name: &str) -> Scratch {
    let prefix = scratch(&format!("a prefix for {name}"));
    said(&mut install(&[path(&prefix)]));
    prefix
}

fn path(place: &Path) -> &str {
    place.to_str().expect("a path in UTF-8")
}

/// Every file and link under a folder.
fn files(folder: &Path) -> Vec<PathBuf> {
    let mut found = Vec::new();
    for entry in fs::read_dir(folder).expect("a folder that can be listed") {
        let place = entry.expect("an entry that can be read").path();
        if place.is_dir() {
            found.extend(files(&place));
        } else {
            found.push(place);
        }
    }
    found.sort();
    found
}

/// The places that tool/install says, as far as they are below the folder.
fn places(said: &str, folder: &Path) -> Vec<PathBuf> {
    let mut places: Vec<PathBuf> = said.lines().map(PathBuf::from).filter(|place| place.starts_with(folder)).collect();
    places.sort();
    places
}

fn is_here(tool: &str) -> bool {
    let here = Command::new(tool).arg("--version").output().is_ok_and(|output| output.status.success());
    if !here {
        eprintln!("there is no {tool} here: not run");
    }
    here
}

#[test]
fn it_says_each_file_and_puts_no_other() {
    let prefix = scratch("said");
    let said = said(&mut install(&[path(&prefix)]));
    assert_eq!(places(&said, &prefix), files(&prefix));
    assert_eq!(fs::read_link(prefix.join("lib/libsailmortar.so")).expect("a link"), Path::new("libsailmortar.so.0"));
    for (place, source) in [
        ("share/man/man1/sailmortar.1", "man/sailmortar.1"),
        ("include/sailmortar.h", "include/sailmortar.h"),
        ("lib/libsailmortar.a", "target/library/libsailmortar.a"),
        ("lib/libsailmortar.so.0", "target/library/libsailmortar.so.0"),
    ] {
        let (put, own) = (fs::read(prefix.join(place)), fs::read(Path::new(ROOT).join(source)));
        assert!(put.expect(place) == own.expect(source), "{place}");
    }
}

#[test]
fn the_installed_command_answers_its_version() {
    let prefix = installed("the command");
    assert_eq!(said(Command::new(prefix.join("bin/sailmortar")).arg("--version")), format!("sailmortar {VERSION}\n"));
}

const PROGRAM: &str = r#"
#include <sailmortar.h>
#include <stdio.h>
int main(void) {
    puts(sailmortar_version());
    return 0;
}
"#;

/// The words for the compiler, quoted for a shell: from pkg-config, or where there is none from its file.
fn words_for_the_compiler(prefix: &Path) -> String {
    let folder = prefix.join("lib/pkgconfig");
    if is_here("pkg-config") {
        return said(Command::new("pkg-config").args(["--cflags", "--libs", "sailmortar"]).env("PKG_CONFIG_PATH", folder))
            .trim()
            .to_owned();
    }
    let file = fs::read_to_string(folder.join("sailmortar.pc")).expect("the file of pkg-config");
    let value = |name: &str| file.lines().find_map(|line| line.strip_prefix(name)).expect(name).to_owned();
    let words = format!("{} {}", value("Cflags: "), value("Libs: "));
    let words = words.replace("${libdir}", &value("libdir=")).replace("${includedir}", &value("includedir="));
    words.replace("${prefix}", &value("prefix="))
}

#[test]
fn a_c_program_is_compiled_as_pkg_config_says_and_runs_with_the_shared_library() {
    let (prefix, folder) = (installed("a C program"), scratch("program"));
    let (source, program) = (folder.join("program.c"), folder.join("program"));
    fs::write(&source, PROGRAM).expect("a scratch file");
    let compile = format!("cc -Wall -Werror \"$1\" -o \"$2\" {}", words_for_the_compiler(&prefix));
    said(Command::new("sh").args(["-c", &compile, "sh", path(&source), path(&program)]));
    assert_eq!(said(Command::new(&program).env("LD_LIBRARY_PATH", prefix.join("lib"))), format!("{VERSION}\n"));
    if is_here("readelf") {
        assert!(dynamic_lines(&program, "(NEEDED)").contains("[libsailmortar.so.0]"), "the program has the archive in it");
    }
}

/// The lines of a file's dynamic section that have this tag.
fn dynamic_lines(file: &Path, tag: &str) -> String {
    let section = said(Command::new("readelf").args(["--dynamic", "--wide"]).arg(file).env("LC_ALL", "C"));
    section.lines().filter(|line| line.contains(tag)).collect()
}

#[test]
fn the_shared_library_has_its_soname() {
    if is_here("readelf") {
        let prefix = installed("the soname");
        let shared = prefix.join("lib/libsailmortar.so");
        assert!(dynamic_lines(&shared, "(SONAME)").contains("[libsailmortar.so.0]"), "{}", dynamic_lines(&shared, ""));
    }
}

#[test]
fn the_file_of_pkg_config_has_the_version_of_the_package() {
    let prefix = installed("the version");
    let file = prefix.join("lib/pkgconfig/sailmortar.pc");
    let file = fs::read_to_string(file).expect("the file of pkg-config");
    assert!(file.lines().any(|line| line == format!("Version: {VERSION}")), "{file}");
    assert!(!file.contains('@'), "{file}");
}

#[test]
fn the_python_module_is_put_for_the_python3_on_path() {
    if is_here("python3") {
        let prefix = installed("the module");
        let python = said(Command::new("python3").args(["-c", "import sys; print('python%d.%d' % sys.version_info[:2])"]));
        let module = prefix.join("lib").join(python.trim()).join("site-packages/sailmortar.py");
        let own = fs::read(Path::new(ROOT).join("python/sailmortar.py")).expect("the module");
        assert!(fs::read(&module).expect("the module, installed") == own);
        // It finds the library that was installed with it, from any folder.
        let mut import = Command::new("python3");
        import.args(["-c", "import sailmortar; print(sailmortar.declare(b\"<FIELD datatype='int'/>\"), sailmortar._library._name)"]);
        import.current_dir("/").env_remove("SAILMORTAR_LIBRARY").env("PYTHONDONTWRITEBYTECODE", "1");
        import.env("PYTHONPATH", module.parent().expect("a folder"));
        let library = prefix.canonicalize().expect("the prefix").join("lib/libsailmortar.so.0");
        assert_eq!(said(&mut import), format!("1 {}\n", path(&library)));
    }
}

#[test]
fn without_python3_the_module_is_left_out_with_a_word() {
    let (prefix, folder) = (scratch("no module"), scratch("no python3"));
    let python = folder.join("python3");
    fs::write(&python, "#!/bin/sh\nexit 127\n").expect("a scratch file");
    fs::set_permissions(&python, fs::Permissions::from_mode(0o755)).expect("a file that runs");
    let search = format!("{}:{}", path(&folder), std::env::var("PATH").expect("a PATH"));
    let said = said(install(&[path(&prefix)]).env("PATH", search));
    assert!(said.contains("python3 does not run: the Python module is left out\n") && !said.contains("PYTHONPATH"), "{said}");
    assert!(files(&prefix).iter().all(|place| !place.ends_with("sailmortar.py")));
}

#[test]
fn a_second_install_moves_new_files_over_those_of_the_first() {
    let prefix = installed("two installs");
    let (before, command) = (files(&prefix), prefix.join("bin/sailmortar"));
    let mut held = File::open(&command).expect("the command");
    said(&mut install(&[path(&prefix)]));
    assert_eq!(files(&prefix), before);
    let number = |data: fs::Metadata| data.ino();
    assert_ne!(held.metadata().map(number).expect("its number"), fs::metadata(&command).map(number).expect("its number"));
    let mut whole = Vec::new();
    held.read_to_end(&mut whole).expect("the old file");
    assert!(whole == fs::read(&command).expect("the new file"), "the old file is no longer whole");
}

#[test]
fn destdir_stands_before_every_place_and_not_in_the_files() {
    let stage = scratch("stage");
    let said = said(install(&["/opt/sailmortar/"]).env("DESTDIR", &*stage));
    assert_eq!(places(&said, &stage.join("opt/sailmortar")), files(&stage));
    assert_eq!(said.lines().count(), files(&stage).len(), "{said}");
    let file = fs::read_to_string(stage.join("opt/sailmortar/lib/pkgconfig/sailmortar.pc")).expect("the file of pkg-config");
    assert!(file.contains("\nprefix=/opt/sailmortar\n"), "{file}");
}

#[test]
fn a_relative_prefix_is_made_absolute() {
    let folder = scratch("relative");
    let said = said(install(&["elsewhere/../here"]).current_dir(&*folder));
    let prefix = folder.join("here");
    assert_eq!(places(&said, &prefix), files(&folder));
    let file = fs::read_to_string(prefix.join("lib/pkgconfig/sailmortar.pc")).expect("the file of pkg-config");
    assert!(file.contains(&format!("\nprefix={}\n", path(&prefix))), "{file}");
}

/// The folder's name has letters that a shell would take for its own.
#[test]
fn it_says_what_to_add_to_the_environment() {
    let prefix = scratch("an $HOME of 'its' own");
    let lines = said(&mut install(&[path(&prefix)]));
    let exports: Vec<&str> = lines.lines().filter(|line| line.starts_with("  export ")).collect();
    let ask = "command -v sailmortar; echo \"$MANPATH\"; echo \"$LD_LIBRARY_PATH\"; echo \"$PKG_CONFIG_PATH\"; echo \"$PYTHONPATH\"";
    let mut shell = Command::new("sh");
    shell.args(["-c", &format!("{}\n{ask}", exports.join("\n"))]);
    for name in ["MANPATH", "LD_LIBRARY_PATH", "PKG_CONFIG_PATH", "PYTHONPATH"] {
        shell.env_remove(name);
    }
    let answers = said(&mut shell);
    let places = ["/bin/sailmortar\n", "/share/man:\n", "/lib\n", "/lib/pkgconfig\n"];
    let expected: String = places.map(|place| format!("{}{place}", path(&prefix))).concat();
    assert!(answers.starts_with(&expected), "{lines}\n{answers}");
    let module = answers.strip_prefix(&expected).unwrap_or_default().trim_end();
    assert!(!is_here("python3") || Path::new(module).join("sailmortar.py").exists(), "{lines}\n{answers}");
}

fn ends(words: &[&str]) -> (Option<i32>, String, String) {
    let Output { status, stdout, stderr } = install(words).output().expect("tool/install runs");
    (status.code(), text(&stdout), text(&stderr))
}

#[test]
fn wrong_usage_says_how_it_is_used() {
    let (status, usage, nothing) = ends(&["--help"]);
    assert_eq!((status, nothing.as_str()), (Some(0), ""));
    assert!(usage.starts_with("usage: tool/install PREFIX\n"), "{usage}");
    for words in [&[][..], &[""], &["--prefix"], &["one", "two"]] {
        assert_eq!(ends(words), (Some(2), String::new(), usage.clone()), "{words:?}");
    }
}

#[test]
fn a_second_build_runs_nothing() {
    let build = || {
        let mut command = Command::new("cargo");
        command.args(["build", "--release", "--locked", "--offline", "--verbose"]).current_dir(ROOT).env("CARGO_TERM_COLOR", "never");
        let output = command.output().expect("cargo runs");
        assert!(output.status.success(), "{}", text(&output.stderr));
        text(&output.stderr)
    };
    build();
    let second = build();
    assert!(second.contains("Fresh sailmortar ") && !second.contains("Running"), "{second}");
}

/// Cargo takes a file that is newer than the script's last start for changed, and would run the script that made it once more.
#[test]
fn the_library_is_dated_no_later_than_its_newest_source() {
    let root = Path::new(ROOT);
    let date = |place: &PathBuf| fs::metadata(place).and_then(|data| data.modified()).expect("a date");
    let mut sources = ["crates.txt", "include/sailmortar.h", "tool/build.rs", "tool/version.c"].map(|source| root.join(source)).to_vec();
    for entry in fs::read_dir(root.join("crates")).expect("the crates") {
        let folder = entry.expect("a crate").path();
        let parts = ["src", "specs", "proofs"].map(|part| folder.join(part));
        sources.extend(parts.iter().filter(|part| part.is_dir()).flat_map(|part| files(part)));
    }
    let newest = sources.iter().map(date).max().expect("a source");
    for product in ["libsailmortar.a", "libsailmortar.so.0", "libsailmortar.so"] {
        assert!(date(&root.join("target/library").join(product)) <= newest, "{product}");
    }
}
