//! include/chart.h gives the numbers of this crate, and declares, as `ffi.rs` and `controller.rs` do, what the proved
//! library has.

use std::path::Path;

use timing_chart::limits::*;

/// A file of the repository, named from this crate.
fn file(name: &str) -> String {
    let path = format!("{}/{name}", env!("CARGO_MANIFEST_DIR"));
    std::fs::read_to_string(&path).expect(&path)
}

fn header() -> String {
    file("../include/chart.h")
}

/// The value of a macro.
fn defined(name: &str) -> u64 {
    let header = header();
    let values = header.lines().filter_map(|line| line.strip_prefix("#define ")?.strip_prefix(name)?.strip_prefix(' '));
    let values: Vec<&str> = values.collect();
    assert_eq!(values.len(), 1, "{name}");
    values[0].split(' ').next().unwrap().parse().expect(name)
}

#[test]
fn limits() {
    assert_eq!(defined("CHART_MOST_LOCATIONS"), u64::from(MOST_LOCATIONS));
    assert_eq!(defined("CHART_MOST_TIMERS"), u64::from(MOST_TIMERS));
    assert_eq!(defined("CHART_MOST_TRANSITIONS"), u64::from(MOST_TRANSITIONS));
    assert_eq!(defined("CHART_MOST_TESTS"), u64::from(MOST_TESTS));
    assert_eq!(defined("CHART_LARGEST_FILE"), LARGEST_FILE as u64);
    assert_eq!(defined("CHART_MOST_SEARCHED"), MOST_SEARCHED as u64);
    assert_eq!(defined("CHART_MOST_HEADS"), MOST_HEADS as u64);
    assert!(library().contains(&format!("pub const MOST_HEADS: usize = {MOST_HEADS};")));
    assert_eq!(defined("CHART_MOST_TICKS"), u64::from(MOST_TICKS));
    assert_eq!(defined("CHART_COUNTER_LARGEST_CONSTANT"), u64::from(COUNTER_LARGEST_CONSTANT));
    assert_eq!(defined("CHART_COUNTER_LARGEST_COUNT"), u64::from(COUNTER_LARGEST_COUNT));
    assert_eq!(defined("CHART_NOWHERE"), NOWHERE);
}

/// The documents' numbers with the names that they have in C.
const REFUSALS: [(&str, u64); 27] = [
    ("CHART_NO_REFUSAL", 0),
    ("CHART_REFUSED_WRONG_LENGTH", 1),
    ("CHART_REFUSED_WRONG_VERSION", 2),
    ("CHART_REFUSED_CUT_OFF", 3),
    ("CHART_REFUSED_TOO_MANY", 4),
    ("CHART_REFUSED_NO_SUCH_LOCATION", 5),
    ("CHART_REFUSED_NO_SUCH_TIMER", 6),
    ("CHART_REFUSED_NOT_RISING", 7),
    ("CHART_REFUSED_NO_SUCH_COMPARISON", 8),
    ("CHART_REFUSED_UNREACHED", 9),
    ("CHART_REFUSED_UNSTARTED", 10),
    ("CHART_REFUSED_LIMIT_TOO_LARGE", 11),
    ("CHART_REFUSED_WRONG_COUNTS", 12),
    ("CHART_REFUSED_UNEQUAL_LISTS", 13),
    ("CHART_REFUSED_NO_SUCH_TRANSITION", 14),
    ("CHART_REFUSED_TIME_TOO_LARGE", 15),
    ("CHART_REFUSED_INPUT_TOO_LONG", 16),
    ("CHART_REFUSED_CONSTANT_TOO_LARGE", 17),
    ("CHART_REFUSED_NOT_FOR_COUNTER", 18),
    ("CHART_REFUSED_BOARD_TOO_SMALL", 20),
    ("CHART_REFUSED_NO_ROOM", 21),
    ("CHART_REFUSED_WRONG_SOURCE", 22),
    ("CHART_REFUSED_TIME_BEFORE", 23),
    ("CHART_REFUSED_TEST_NOT_MET", 24),
    ("CHART_REFUSED_WRONG_HEADS", 25),
    ("CHART_REFUSED_NO_FREE_HEAD", 26),
    ("CHART_REFUSED_WRONG_STATE", 32),
];

#[test]
fn refusals() {
    let header = header();
    let refusals = header.lines().filter_map(|line| {
        let (name, rest) = line.trim().split_once(" = ")?;
        let number = rest.split([',', ' ']).next()?;
        Some((name, number.parse::<u64>().expect(name)))
    });
    assert!(refusals.eq(REFUSALS));
}

/// What stands between two marks, for each time that the first one occurs.
fn between(text: &str, first: &str, second: &str) -> Vec<String> {
    text.split(first).skip(1).map(|rest| rest.split(second).next().unwrap().trim().to_string()).collect()
}

/// All white space as one space, none after an opening bracket; no comma before a closing one; no lifetimes.
fn plain(text: &str) -> String {
    let words: Vec<&str> = text.split_whitespace().collect();
    words.join(" ").replace("( ", "(").replace(", )", ")").replace("<'a>", "").replace("'a ", "")
}

/// A field or parameter of the library, `NAME: TYPE`, in C and in Rust: a slice is a pointer and a length.
fn declared(name_and_type: &str) -> [String; 2] {
    let (name, kind) = name_and_type.split_once(": ").unwrap();
    let (behind, c, rust) = if let Some(behind) = kind.strip_prefix("&mut ") {
        (behind, "", "mut")
    } else if let Some(behind) = kind.strip_prefix('&') {
        (behind, "const ", "const")
    } else if let Some(list) = kind.strip_prefix('[') {
        let (entry, length) = list.trim_end_matches(']').split_once("; ").unwrap();
        let (c, rust) = LENGTHS.iter().find(|(number, ..)| *number == length).map(|(_, c, rust)| (c, rust)).unwrap();
        return [format!("{} {name}[{c}]", c_type(entry)), format!("{name}: [{}; {rust}]", rust_type(entry))];
    } else {
        return [format!("{} {name}", c_type(kind)), format!("{name}: {}", rust_type(kind))];
    };
    let entries = behind.strip_prefix('[').map(|entries| entries.trim_end_matches(']'));
    let one = entries.unwrap_or(behind);
    let pointers = [format!("{c}{} *{name}", c_type(one)), format!("{name}: *{rust} {}", rust_type(one))];
    match entries {
        Some(_) => [format!("{}, size_t {name}_length", pointers[0]), format!("{}, {name}_length: usize", pointers[1])],
        None => pointers,
    }
}

/// The length of a list in a struct of the library, and its name in C and in Rust.
const LENGTHS: [(&str, &str, &str); 2] =
    [("MOST_HEADS", "CHART_MOST_HEADS", "MOST_HEADS"), ("64", "CHART_MOST_TIMERS", "TIMERS")];

/// `u64` or a struct in C.
fn c_type(name: &str) -> String {
    match name.strip_prefix('u') {
        Some(bits) => format!("uint{bits}_t"),
        None if name.starts_with("chart_") => name.to_string(),
        None => format!("chart_{}", name.to_lowercase()),
    }
}

/// The same in Rust: an answer's struct is `ffi`'s, the others are those of the module `controller`.
fn rust_type(name: &str) -> String {
    match name {
        "Controller" => "State".to_string(),
        _ if name.starts_with("chart_") => name.split('_').map(|word| word[..1].to_uppercase() + &word[1..]).collect(),
        _ => name.to_string(),
    }
}

/// All code of the proved library: that of every crate of the repository.
fn library() -> String {
    fn add(path: &Path, all: &mut String) {
        for entry in std::fs::read_dir(path).expect("a folder of crates").map(|entry| entry.unwrap().path()) {
            if entry.is_dir() {
                add(&entry, all);
            } else if entry.extension().is_some_and(|extension| extension == "rt") {
                all.push_str(&std::fs::read_to_string(&entry).unwrap());
            }
        }
    }
    let mut all = String::new();
    add(&Path::new(env!("CARGO_MANIFEST_DIR")).join("../crates"), &mut all);
    all
}

/// The structs of a Rust file that are laid out as in C, without their comments and derived traits.
fn rust_structs(name: &str) -> Vec<String> {
    let text: Vec<String> =
        file(name).lines().map(str::trim).filter(|line| !line.starts_with("///")).map(String::from).collect();
    let structs = between(&text.join("\n"), "#[repr(C)]\n", "}");
    structs.iter().map(|text| plain(text.split_once("pub struct ").unwrap().1)).collect()
}

#[test]
fn structs() {
    let header = plain(&header());
    let in_rust = [rust_structs("src/ffi.rs"), rust_structs("src/controller.rs")].concat();
    let structs = between(&library().replace("#[derive(Clone, Copy)]\n", ""), "#[repr(C)]\npub struct ", "}");
    assert!(!structs.is_empty());
    for text in &structs {
        let (name, fields) = text.split_once(" {").unwrap();
        let fields: Vec<&str> = fields.split(",\n").filter_map(|field| field.trim().strip_prefix("pub ")).collect();
        let fields: Vec<[String; 2]> = fields.iter().map(|field| declared(field.trim_end_matches(','))).collect();
        let c_fields: String = fields.iter().map(|field| format!("{}; ", field[0])).collect();
        let c_name = c_type(name);
        assert!(header.contains(&format!("typedef struct {c_name} {{ {c_fields}}} {c_name};")), "{name}");
        let rust_fields: Vec<String> = fields.iter().map(|field| format!(" pub {},", field[1])).collect();
        assert!(in_rust.contains(&format!("{} {{{}", rust_type(name), rust_fields.concat())), "{name}");
    }
    assert_eq!(header.matches("typedef struct ").count(), structs.len());
    assert_eq!(in_rust.len(), structs.len());
}

#[test]
fn functions() {
    let (header, ffi) = (plain(&header()), plain(&file("src/ffi.rs")));
    let functions = between(&library(), "pub extern \"C\" fn ", "\n    ensures");
    assert!(!functions.is_empty());
    for text in functions.iter().map(|text| plain(text)) {
        let (name, rest) = text.split_once('(').unwrap();
        let (parameters, answer) = rest.split_once(") -> ").unwrap();
        let parameters: Vec<[String; 2]> = parameters.split(", ").map(declared).collect();
        let list = |language: usize| parameters.iter().map(|p| p[language].as_str()).collect::<Vec<_>>().join(", ");
        assert!(header.contains(&format!(" {answer} {name}({});", list(0))), "{name}");
        assert!(ffi.contains(&format!(" pub fn {name}({}) -> {};", list(1), rust_type(answer))), "{name}");
    }
    assert_eq!(ffi.matches("pub fn ").count(), functions.len());
}
