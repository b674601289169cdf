//! Finds the original's text in the folder of documents, and cuts out of it, letter for letter, what the comparison takes
//! of files that don't compile here as a whole. A piece that isn't where it was, once and of the length it had, fails the
//! build. Nothing of the text comes into the repository.
use std::{
    env, fs,
    path::{Path, PathBuf},
    process::exit,
};

fn fail(why: &str) -> ! {
    eprintln!("{why}");
    exit(1)
}

/// The folder of documents: the variable's, or `shared` beside the repository.
fn documents() -> PathBuf {
    println!("cargo:rerun-if-env-changed=LOCKER_DOCUMENTS");
    match env::var_os("LOCKER_DOCUMENTS") {
        Some(folder) => PathBuf::from(folder),
        None => Path::new(&env::var_os("CARGO_MANIFEST_DIR").unwrap()).join("../../../shared"),
    }
}

fn text_at(folder: &Path, name: &str) -> (PathBuf, String) {
    let path = folder.join(name);
    let Ok(path) = path.canonicalize() else {
        fail(&format!(
            "the original's text {name} is not in {}: put the documents into the folder `shared` beside the repository, or \
             name their folder in LOCKER_DOCUMENTS",
            folder.display()
        ));
    };
    println!("cargo:rerun-if-changed={}", path.display());
    match fs::read_to_string(&path) {
        Ok(text) => (path, text),
        Err(why) => fail(&format!("{name}: {why}")),
    }
}

/// The lines from the one that is `first` to the next one that is `last`, which have to be `count` lines.
fn cut(text: &str, first: &str, last: &str, count: usize) -> String {
    let lines: Vec<&str> = text.lines().collect();
    let starts: Vec<usize> = (0..lines.len()).filter(|&i| lines[i] == first).collect();
    let [start] = starts[..] else {
        fail(&format!("the original moved: {} lines are `{first}`, and one was expected", starts.len()));
    };
    let Some(more) = lines[start..].iter().position(|line| *line == last) else {
        fail(&format!("the original moved: no `{last}` after `{first}`"));
    };
    if more + 1 != count {
        fail(&format!("the original moved: `{first}` has {} lines, and {count} were expected", more + 1));
    }
    lines[start..=start + more].join("\n") + "\n"
}

/// What internal.rs has beside its values.
fn cut_internal(text: &str) -> String {
    [
        ("pub(crate) fn aligned_tombstone_entry_waste(klen: usize) -> u32 {", "}", 3),
        ("pub(crate) fn aligned_data_entry_size(klen: usize, vlen: usize) -> u64 {", "}", 3),
        ("pub(crate) fn data_file_path(base_path: &Path, file_idx: u16) -> PathBuf {", "}", 3),
        ("pub(crate) enum EntryType {", "}", 8),
        ("pub(crate) fn invalid_data_error(message: &'static str) -> Error {", "}", 6),
        ("pub(crate) struct KVBuf {", "}", 9),
        ("impl KVBuf {", "}", 20),
        ("pub(crate) struct KVRef<'a> {", "}", 7),
        ("impl KVRef<'_> {", "}", 10),
        ("pub(crate) fn read_available_at(", "}", 9),
    ]
    .map(|(first, last, count)| cut(text, first, last, count))
    .concat()
        + &cut_unix(text, "pub(crate) fn sync_dir(path: &Path) -> Result<()> {", 6)
        + &cut_unix(text, "pub(crate) fn read_into_at(", 23)
        + &cut_unix(text, "pub(crate) fn write_all_at(f: &File, buf: &[u8], offset: u64) -> std::io::Result<()> {", 3)
}

/// A function that stands twice, for unix and for other systems: the first, which follows the line `#[cfg(unix)]`.
fn cut_unix(text: &str, first: &str, count: usize) -> String {
    let marked = format!("#[cfg(unix)]\n{first}\n");
    let Some(at) = text.find(&marked) else {
        fail(&format!("the original moved: no `{first}` for unix"));
    };
    let after = &text[at + "#[cfg(unix)]\n".len()..];
    let end = after.find("\n}\n").unwrap_or_else(|| fail(&format!("the original moved: `{first}` has no end")));
    let piece = &after[..end + 3];
    if piece.lines().count() != count {
        fail(&format!("the original moved: `{first}` has {} lines, and {count} were expected", piece.lines().count()));
    }
    piece.to_string()
}

/// The two limits of replay as methods of a store that has nothing but its configuration; the order that the store gives to
/// its files, as a function; and the choice of the start file as another: the statement that leaves where there is no file,
/// and the one that chooses.
fn cut_recovery(text: &str, store: &str) -> String {
    let data =
        cut(text, "    fn validate_recovered_data_entry(&self, key: &[u8], val: &[u8]) -> Result<()> {", "    }", 12);
    let tombstone =
        cut(text, "    fn validate_recovered_tombstone_entry(&self, key: &[u8]) -> Result<()> {", "    }", 11);
    let none = cut(text, "        let Some(last_file) = ordered_files.last().cloned() else {", "        };", 3);
    let start =
        cut(text, "        let start_idx = ordered_files", "            .unwrap_or(ordered_files.len() - 1);", 4);
    const SORTS: &str = "        files.sort_by_key(|data_file| data_file.file_ordinal);";
    let order = cut(store, SORTS, SORTS, 1);
    format!(
        "impl CandyStore {{\n{data}\n{tombstone}}}\n\n\
         fn ordered(mut files: Vec<Listed>) -> Vec<Listed> {{\n{order}        files\n}}\n\n\
         #[allow(unused_variables)]\n\
         fn choose(ordered_files: &[Listed], commit_file_ordinal: u64, chosen: &mut Option<usize>) -> Result<()> {{\n\
         {none}{start}        *chosen = Some(start_idx);\n        Ok(())\n}}\n"
    )
}

fn main() {
    let folder = documents();
    let (data_file, _) = text_at(&folder, "src--src--data_file.rs.txt");
    let (_, internal) = text_at(&folder, "src--src--internal.rs.txt");
    let (_, recovery) = text_at(&folder, "src--src--store--recovery.rs.txt");
    let (_, store) = text_at(&folder, "src--src--store.rs.txt");
    println!("cargo:rustc-env=LOCKER_DATA_FILE_TEXT={}", data_file.display());
    let out = PathBuf::from(env::var_os("OUT_DIR").unwrap());
    fs::write(out.join("internal_cut.rs"), cut_internal(&internal)).unwrap();
    fs::write(out.join("recovery_cut.rs"), cut_recovery(&recovery, &store)).unwrap();
}
