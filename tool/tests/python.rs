//! python/sailmortar.py: its example, the example in its text, its own tests, where it looks for the library, and its package for pip.

use std::fs;
use std::path::{Path, PathBuf};
use std::process::{Command, Output};

const ROOT: &str = env!("CARGO_MANIFEST_DIR");
const LIBRARY: &str = "libsailmortar.so.0";

/// Python with the module of this folder, and nothing that the environment says about the library.
fn python_with(folder: &Path) -> Command {
    let mut command = Command::new("python3");
    command.env("PYTHONPATH", folder).env("PYTHONDONTWRITEBYTECODE", "1").env_remove("SAILMORTAR_LIBRARY");
    command
}

fn python(words: &[&str]) -> Output {
    run(python_with(&module_folder()).args(words))
}

fn run(command: &mut Command) -> Output {
    command.output().unwrap_or_else(|cause| panic!("{command:?}: {cause}"))
}

fn module_folder() -> PathBuf {
    Path::new(ROOT).join("python")
}

fn library() -> PathBuf {
    Path::new(ROOT).join("target/library").join(LIBRARY)
}

fn text(bytes: &[u8]) -> String {
    String::from_utf8_lossy(bytes).into_owned()
}

fn assert_quiet(output: &Output) {
    assert!(output.status.success() && output.stderr.is_empty(), "{}{}", text(&output.stdout), text(&output.stderr));
}

#[test]
fn the_example_runs() {
    let output = python(&[&format!("{ROOT}/examples/night.py")]);
    assert_quiet(&output);
    let said = "0 sky short 1 -99\n\
        1 note char 4 None\n\
        2 clear boolean 1 None\n\
        00 00 07 61 26 62 00 54 a0 00 00 64 75 73 6b 00\n\
        AAAHYSZiAFSgAABkdXNrAA==\n\
        <TR><TD>7</TD><TD>a&amp;b</TD><TD>T</TD></TR>\n\
        <TR><TD/><TD>dusk</TD><TD/></TR>\n\
        from the file 2 rows, 16 bytes, the same: True\n\
        the same: True\n\
        another night differs at [(1, 1)]\n\
        row 1 of 2: <TR><TD/><TD>dusk</TD><TD/></TR>\n\
        refusal 8 at row 1, column 2 (clear): the BINARY or BINARY2 stream ends inside a row\n\
        the refused row begins at byte 8\n\
        <TR><TD>7</TD><TD>a&amp;b</TD><TD>T</TD></TR>\n";
    assert_eq!(text(&output.stdout), said);
}

#[test]
fn the_example_in_its_text_holds() {
    let output = python(&["-m", "doctest", "-v", &format!("{ROOT}/python/sailmortar.py")]);
    assert_quiet(&output);
    assert!(text(&output.stdout).contains("10 passed"), "{}", text(&output.stdout));
}

#[test]
fn its_words_are_the_librarys() {
    let output = python(&["-c", "import sailmortar\nfor number, meaning in sailmortar.MEANINGS.items(): print(number, meaning)"]);
    assert_quiet(&output);
    let lines: String = sailmortar::NUMBERS.iter().map(|known| format!("{} {}\n", known.number, known.meaning)).collect();
    assert_eq!(text(&output.stdout), lines);
}

#[test]
fn every_place_that_says_the_version_says_the_same() {
    let output = python(&["-c", "import sailmortar, make_wheel; print(sailmortar.__version__, make_wheel.project()['version'])"]);
    assert_quiet(&output);
    assert_eq!(text(&output.stdout).trim(), [env!("CARGO_PKG_VERSION"); 2].join(" "));
}

/// Runs a file of python/tests, with warnings as errors.
fn assert_tests_pass(name: &str) {
    let output =
        run(python_with(&module_folder()).args(["-W", "error", "-m", "unittest", name]).current_dir(module_folder().join("tests")));
    let said = text(&output.stderr);
    assert!(output.status.success() && !said.contains("Ran 0 tests"), "{said}");
}

#[test]
fn any_buffer_is_taken_and_nothing_else() {
    assert_tests_pass("test_arguments");
}

#[test]
fn refusals_say_where_and_travel_between_processes() {
    assert_tests_pass("test_refused");
}

#[test]
fn columns_are_told_as_they_were_understood() {
    assert_tests_pass("test_columns");
}

#[test]
fn line_ends_in_texts_are_one_character() {
    assert_tests_pass("test_line_ends");
}

#[test]
fn one_row_is_found_by_an_index() {
    assert_tests_pass("test_index");
}

#[test]
fn two_nights_are_compared() {
    assert_tests_pass("test_compare");
}

#[test]
fn streams_are_converted_in_parts_on_several_threads() {
    assert_tests_pass("test_stream");
}

#[test]
fn the_room_is_enough_from_the_start() {
    assert_tests_pass("test_room");
}

/// An empty folder of this name.
fn scratch(name: &str) -> PathBuf {
    let folder = Path::new(env!("CARGO_TARGET_TMPDIR")).join("python").join(name);
    let _ = fs::remove_dir_all(&folder);
    fs::create_dir_all(&folder).expect("a scratch folder");
    folder
}

fn copy(from: &Path, folder: &Path) {
    fs::create_dir_all(folder).expect("a folder");
    fs::copy(from, folder.join(from.file_name().expect("a file's name"))).expect("a copy");
}

/// A shared library of this C text.
fn share(source: &str, library: &Path) {
    let file = library.with_extension("c");
    fs::create_dir_all(library.parent().expect("a folder")).expect("a folder");
    fs::write(&file, source).expect("a source");
    let output = run(Command::new("cc").args(["-shared", "-fPIC", "-o"]).arg(library).arg(&file));
    assert!(output.status.success(), "{}", text(&output.stderr));
}

/// A shared library that says this version and can do nothing else.
fn share_version(version: &str, library: &Path) {
    share(&format!("const char *sailmortar_version(void) {{ return \"{version}\"; }}\n"), library);
}

/// What is said where the module of this folder cannot be imported.
fn import_error(command: &mut Command) -> String {
    let output = run(command.args(["-c", "import sailmortar"]));
    let said = text(&output.stderr);
    assert!(!output.status.success() && said.contains("\nImportError: "), "{said}");
    said
}

#[test]
fn a_library_of_another_version_is_not_used() {
    let folder = scratch("versions");
    copy(&module_folder().join("sailmortar.py"), &folder);
    let beside = folder.join(LIBRARY);
    share_version("9.8.7", &beside);
    let said = import_error(&mut python_with(&folder));
    let names_both = said.contains(env!("CARGO_PKG_VERSION")) && said.contains("9.8.7");
    assert!(names_both && said.contains(beside.to_str().expect("a path")), "{said}");
    share("int sailmortar_declare(void) { return 0; }\n", &beside);
    let said = import_error(&mut python_with(&folder));
    assert!(said.contains("none at all") && said.contains(beside.to_str().expect("a path")), "{said}");
}

#[test]
fn the_library_is_looked_for_in_one_place_after_the_other() {
    let prefix = scratch("places");
    let module = prefix.join("lib/python3/site-packages");
    copy(&module_folder().join("sailmortar.py"), &module);
    let system = prefix.join("system");
    let places =
        [module.clone(), prefix.join("lib/python3/target/library"), prefix.join("lib"), system.clone()].map(|folder| folder.join(LIBRARY));
    for (place, library) in places.iter().enumerate() {
        share_version(&format!("9.9.{place}"), library);
    }
    for (place, library) in places.iter().enumerate() {
        let said = import_error(python_with(&module).env("LD_LIBRARY_PATH", &system));
        assert!(said.contains(&format!("says 9.9.{place}")), "{said}");
        fs::remove_file(library).expect("it goes, and the next one is found");
    }
}

#[test]
fn the_library_that_the_environment_names_is_the_one_that_is_loaded() {
    let folder = scratch("named");
    copy(&module_folder().join("sailmortar.py"), &folder);
    assert_quiet(&run(python_with(&folder).args(["-c", "import sailmortar"]).env("SAILMORTAR_LIBRARY", library())));
    copy(&library(), &folder);
    assert_quiet(&run(python_with(&folder).args(["-c", "import sailmortar"])));
    let said = import_error(python_with(&folder).env("SAILMORTAR_LIBRARY", "nowhere.so").current_dir(&folder));
    assert!(said.contains(folder.join("nowhere.so").to_str().expect("a path")) && said.contains("'cargo build' makes it"), "{said}");
    share_version("9.8.7", &folder.join("other.so"));
    let said = import_error(python_with(&folder).env("SAILMORTAR_LIBRARY", "other.so").current_dir(&folder));
    assert!(said.contains("says 9.8.7"), "{said}");
}

/// pip, in a way that asks nothing of a network or of a person.
fn pip_install(source: &Path, target: &Path) -> Output {
    let words = ["-m", "pip", "install", "--no-index", "--no-input", "--disable-pip-version-check", "--target"];
    run(python_with(target).args(words).arg(target).arg(source).env("PIP_ROOT_USER_ACTION", "ignore"))
}

/// What stands in the repository, but for what is built.
fn files_of_the_repository() -> Vec<PathBuf> {
    let folders = [PathBuf::from(ROOT), module_folder()];
    let mut files: Vec<_> =
        folders.iter().flat_map(|folder| fs::read_dir(folder).expect("a folder")).map(|file| file.expect("a file").path()).collect();
    files.sort();
    files
}

/// The installed module converts, and every file is as the package's record has it.
const INSTALLED: &str = r#"
import base64, hashlib, importlib.metadata, sailmortar
assert sailmortar.convert(b"<FIELD datatype='short'/>", "binary", "tabledata", b"\0\7") == b"<TR><TD>7</TD></TR>\n"
package = importlib.metadata.distribution("sailmortar")
assert package.version == sailmortar.__version__, package.version
hashed = [file for file in package.files if file.hash]
assert {"sailmortar.py", "libsailmortar.so.0"} < {str(file) for file in hashed}, hashed
for file in hashed:
    digest = base64.urlsafe_b64encode(hashlib.new(file.hash.mode, file.read_binary()).digest())
    assert (digest.decode().rstrip("="), len(file.read_binary())) == (file.hash.value, file.size), file
print(sailmortar.__file__, sailmortar._library._name)
"#;

#[test]
fn pip_installs_it_and_leaves_nothing_in_the_repository() {
    let folder = scratch("installed");
    let before = files_of_the_repository();
    let output = pip_install(Path::new(ROOT), &folder);
    assert!(output.status.success(), "{}{}", text(&output.stdout), text(&output.stderr));
    assert_eq!(files_of_the_repository(), before);
    let output = run(python_with(&folder).args(["-c", INSTALLED]).current_dir(std::env::temp_dir()));
    assert_quiet(&output);
    assert_eq!(text(&output.stdout).trim(), format!("{0}/sailmortar.py {0}/{LIBRARY}", folder.display()));
}

#[test]
fn pip_says_what_to_do_where_the_library_is_not_built() {
    let source = scratch("not_built");
    copy(&Path::new(ROOT).join("pyproject.toml"), &source);
    for file in ["make_wheel.py", "sailmortar.py"] {
        copy(&module_folder().join(file), &source.join("python"));
    }
    let assert_refused = || {
        let output = pip_install(&source, &scratch("not_installed"));
        let said = text(&output.stdout) + &text(&output.stderr);
        assert!(!output.status.success() && said.contains("run 'cargo build'"), "{said}");
    };
    assert_refused();
    // A build that was broken off leaves what was made before, and no stamp over it.
    copy(&library(), &source.join("target/library"));
    assert_refused();
}
