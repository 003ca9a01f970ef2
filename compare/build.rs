//! Writes a wrong copy of the second program for each edit in `mistakes.txt`, which the tests compare with the right one.

use std::path::Path;
use std::{env, fs};

fn main() {
    println!("cargo:rerun-if-changed=mistakes.txt");
    println!("cargo:rerun-if-changed=src/second");
    write_mistakes(Path::new(
        &env::var("OUT_DIR").expect("cargo names a folder"),
    ));
}

/// Lines of one file that go, and those that come in their place.
#[derive(Default)]
struct Edit {
    file: String,
    gone: String,
    come: String,
}

struct Mistake {
    name: String,
    edits: Vec<Edit>,
}

/// The mistakes as `mistakes.txt` has them: a name after '=', and for each edit a file after '@', lines that go after '-'
/// and lines that come after '+'.
fn mistakes() -> Vec<Mistake> {
    let text = fs::read_to_string("mistakes.txt").expect("mistakes.txt");
    let mut all: Vec<Mistake> = Vec::new();
    for line in text.lines().filter(|line| !line.is_empty()) {
        let (kind, rest) = line.split_at(1);
        match (kind, all.last_mut()) {
            ("#", _) => {}
            ("=", _) => all.push(Mistake {
                name: rest.trim().to_string(),
                edits: Vec::new(),
            }),
            ("@", Some(mistake)) => mistake.edits.push(Edit {
                file: rest.trim().to_string(),
                ..Edit::default()
            }),
            (_, Some(mistake)) => add_line(mistake, kind, rest),
            (_, None) => panic!("mistakes.txt: no name before {line}"),
        }
    }
    all
}

fn add_line(mistake: &mut Mistake, kind: &str, line: &str) {
    let edit = mistake.edits.last_mut().expect("a file before the lines");
    match kind {
        "-" => edit.gone += &format!("{line}\n"),
        "+" => edit.come += &format!("{line}\n"),
        _ => panic!("mistakes.txt: {kind}{line}"),
    }
}

/// A folder with a copy of the second program for each mistake, and `mistakes.rs`, which names them all.
fn write_mistakes(out: &Path) {
    let (mut modules, mut list) = (String::new(), String::new());
    for (number, mistake) in mistakes().iter().enumerate() {
        let folder = out.join(format!("mistakes/{number}"));
        write_copy(mistake, &folder);
        let path = folder.join("mod.rs");
        modules += &format!("#[allow(warnings)]\n#[path = {path:?}]\nmod mistake_{number};\n");
        modules +=
            &format!("compare::wheel_of_module!(Mistake{number}, self::mistake_{number});\n");
        list += &format!("({:?}, &Mistake{number}),\n", mistake.name);
    }
    let head = "pub fn all() -> Vec<(&'static str, &'static dyn compare::wheel::Wheel)> { vec![\n";
    fs::write(
        out.join("mistakes.rs"),
        format!("{modules}{head}{list}] }}\n"),
    )
    .expect("written");
}

/// The second program with the edits made. Lines that go must stand there once, or the edit is stale.
fn write_copy(mistake: &Mistake, folder: &Path) {
    fs::create_dir_all(folder).expect("a folder");
    for entry in fs::read_dir("src/second").expect("src/second") {
        let path = entry.expect("a file").path();
        let name = path
            .file_name()
            .expect("a name")
            .to_str()
            .expect("a plain name");
        let mut text = fs::read_to_string(&path).expect("a text");
        for edit in mistake.edits.iter().filter(|edit| edit.file == name) {
            let times = text.matches(&edit.gone).count();
            assert_eq!(
                times, 1,
                "{}: found {times} times:\n{}",
                mistake.name, edit.gone
            );
            text = text.replace(&edit.gone, &edit.come);
        }
        fs::write(folder.join(name), text).expect("written");
    }
}
