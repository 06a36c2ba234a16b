//! Finds the crate's sources, so that the compiler reads them where they are: this repository holds no copy.

use std::path::{Path, PathBuf};
use std::process::{self, Command};
use std::{env, fs};

/// What `sha256sum` gives for each file of s2 0.2.0 that is compiled here. From the folder of either package that this
/// program is for.
const CHECKSUMS: &str = "../oracle/s2-0.2.0.sha256";

/// The file whose private functions are asked, so that it needs a child module of ours.
const EDGE_CLIPPING: &str = "s2/edge_clipping.rs";

/// The head of its loop from face to face.
const WALK: &str = "while face != b_face ";

/// Its functions above the value on a line and the end that it moves.
const CUT: [&str; 3] = ["clip_edge", "clip_edge_bound", "clip_bound_axis"];

/// That value, as it is called.
const VALUE: &str = "interpolate(";

/// The files that it needs, and those that these need.
const MODULES: [&str; 11] = [
    "consts.rs",
    "r1/interval.rs",
    "r2/point.rs",
    "r2/rect.rs",
    "r3/vector.rs",
    "s1/angle.rs",
    "s2/cellid.rs",
    "s2/latlng.rs",
    "s2/point.rs",
    "s2/predicates.rs",
    "s2/stuv.rs",
];

fn main() {
    println!("cargo:rerun-if-env-changed=S2_SRC");
    println!("cargo:rerun-if-changed=build.rs");
    let sources = find_sources();
    for file in MODULES {
        declare_module(file, &find(&sources, file));
    }
    let edge_clipping = find(&sources, EDGE_CLIPPING);
    check_sources(&sources);
    println!("cargo:rustc-env=EDGE_CLIPPING={}", text(&edge_clipping));
    let source = fs::read_to_string(&edge_clipping).expect("the file was just found");
    cut_out_walk(&source);
    cut_out_cut(&source);
}

/// The folder `src` of the crate. A relative S2_SRC is taken from this package's folder, where cargo runs this program.
fn find_sources() -> PathBuf {
    let named = env::var_os("S2_SRC").filter(|named| !named.is_empty());
    let named = named.unwrap_or_else(|| "../../shared/docs/src".into());
    let sources = package().join(named).join("src");
    sources.canonicalize().unwrap_or(sources)
}

fn package() -> PathBuf {
    PathBuf::from(env::var_os("CARGO_MANIFEST_DIR").expect("cargo sets it"))
}

fn find(sources: &Path, file: &str) -> PathBuf {
    let path = sources.join(file);
    if !path.is_file() {
        give_up(&format!(
            "There is no {}: set the environment variable S2_SRC to the folder of the crate s2 0.2.0 (it holds src/).",
            path.display()
        ));
    }
    println!("cargo:rerun-if-changed={}", path.display());
    path
}

/// Stops where a file that is compiled is not, to the byte, the one of s2 0.2.0. All of them were found.
fn check_sources(sources: &Path) {
    let list = package().join(CHECKSUMS);
    println!("cargo:rerun-if-changed={}", list.display());
    let listed = fs::read_to_string(&list).unwrap_or_else(|error| give_up(&format!("{}: {error}", list.display())));
    for file in MODULES.into_iter().chain([EDGE_CLIPPING]) {
        if !listed.lines().any(|line| line.ends_with(&format!("  {file}"))) {
            give_up(&format!("{} has no checksum of {file}.", list.display()));
        }
    }
    let mut checked = Command::new("sha256sum");
    checked.args(["--check", "--strict", "--quiet"]).arg(&list).current_dir(sources);
    match checked.output() {
        Ok(said) if said.status.success() => {}
        Ok(said) => give_up(&format!(
            "{}{}{} is not the crate s2 0.2.0: its files have other checksums than {}.",
            String::from_utf8_lossy(&said.stdout),
            String::from_utf8_lossy(&said.stderr),
            sources.display(),
            list.display()
        )),
        Err(error) => give_up(&format!("sha256sum cannot be run: {error}.")),
    }
}

/// Writes the line that makes a module of a file where it stands. A path in such a line has to be spelled out, so it
/// cannot be in our own sources; `include!` would do without it, but admits no file that opens with a comment on its
/// whole module, as some do. `consts.rs` has macros for its siblings, hence `macro_use`.
fn declare_module(file: &str, path: &Path) {
    let name = Path::new(file).file_stem().and_then(|name| name.to_str()).expect("a name in MODULES");
    write_out(file, &format!("#[macro_use]\n#[path = {:?}]\npub mod {name};\n", text(path)));
}

/// Writes the body of the crate's walk from face to face, from its opening brace to its closing one, byte for byte:
/// the crate's loop may never end, so it is run under a loop of ours.
fn cut_out_walk(source: &str) {
    write_out("walk_body.rs", block(after(source, WALK)));
}

/// Writes those functions, byte for byte but that all are public: the module that includes them has a value on a line of
/// its own. No other function of the crate's may ask for that value.
fn cut_out_cut(source: &str) {
    let functions = CUT.map(|name| {
        let head = format!("fn {name}(");
        format!("pub {head}{}\n", block(after(source, &head)))
    });
    let asked = |text: &str| text.matches(VALUE).count();
    if functions.iter().map(|function| asked(function)).sum::<usize>() + 1 != asked(source) {
        give_up(&format!("{EDGE_CLIPPING} asks for {VALUE:?} outside of {}.", CUT.join(", ")));
    }
    write_out("cut.rs", &functions.join("\n"));
}

/// What follows the words in the crate's text, where they stand once.
fn after<'a>(source: &'a str, words: &str) -> &'a str {
    match source.split_once(words) {
        Some((_, rest)) if !rest.contains(words) => rest,
        _ => give_up(&format!(
            "{words:?} does not stand once in {EDGE_CLIPPING}: S2_SRC has to name the folder of the crate s2 0.2.0."
        )),
    }
}

/// The text up to the end of its first block. Braces in a comment would not count.
fn block(text: &str) -> &str {
    let (mut depth, mut end) = (0, 0);
    for line in text.split_inclusive('\n') {
        let code = line.split("//").next().unwrap_or(line);
        for (place, character) in code.char_indices() {
            match character {
                '{' => depth += 1,
                '}' => depth -= 1,
                _ => continue,
            }
            if depth == 0 {
                return &text[..end + place + 1];
            }
        }
        end += line.len();
    }
    give_up("A block of the crate's text does not end: the environment variable S2_SRC names another text.")
}

fn write_out(file: &str, contents: &str) {
    let path = PathBuf::from(env::var_os("OUT_DIR").expect("cargo sets it")).join(file);
    let written = fs::create_dir_all(path.parent().expect("OUT_DIR")).and_then(|()| fs::write(&path, contents));
    if let Err(error) = written {
        give_up(&format!("{}: {error}", path.display()));
    }
}

fn text(path: &Path) -> &str {
    match path.to_str() {
        Some(text) => text,
        None => give_up("The path in the environment variable S2_SRC is not UTF-8."),
    }
}

fn give_up(sentence: &str) -> ! {
    eprintln!("{sentence}");
    process::exit(1)
}
