//! The header, the declarations of these tests and the exported functions of the library say the same of
//! every call, and a C program that includes the header gets the right answers.

use model::Reply;
use model::header::{header_calls, library_calls, test_calls};
use std::fs;
use std::path::PathBuf;
use std::process::Command;

const ROOT: &str = concat!(env!("CARGO_MANIFEST_DIR"), "/..");

fn read(path: &str) -> String {
    fs::read_to_string(format!("{ROOT}/{path}")).unwrap()
}

fn library_text() -> String {
    let mut files: Vec<PathBuf> = fs::read_dir(format!("{ROOT}/crates/rudderfig_c/src"))
        .unwrap()
        .map(|entry| entry.unwrap().path())
        .collect();
    files.sort();
    files
        .iter()
        .map(|file| fs::read_to_string(file).unwrap())
        .collect()
}

#[test]
fn header_declarations_and_library_agree() {
    let header = header_calls(&read("include/rudderfig.h"));
    assert!(header.len() >= 17);
    assert_eq!(header, test_calls(&read("host/src/interface.rs")));
    assert_eq!(header, library_calls(&library_text()));
}

#[test]
fn a_state_has_as_many_words_in_the_header() {
    let header = read("include/rudderfig.h");
    let words = format!("uint64_t words[{}];", model::interface::PARITY_WORDS);
    assert_eq!(header.matches(&words).count(), 1);
}

#[test]
fn header_and_archive_show_the_version() {
    let version = read("VERSION");
    let line = format!("#define RUDDERFIG_VERSION \"{}\"\n", version.trim());
    assert!(read("include/rudderfig.h").contains(&line));
    let listed = Command::new("ar")
        .args(["t", "include/librudderfig.a"])
        .current_dir(ROOT)
        .output()
        .unwrap();
    let object = format!("rudderfig-{}.o\n", version.trim());
    assert_eq!(String::from_utf8_lossy(&listed.stdout), object);
}

/// Each reply of the model has its name and number in the header.
#[test]
fn the_header_names_every_reply() {
    let header = read("include/rudderfig.h");
    for reply in Reply::ALL {
        let mut name = String::from("RUDDERFIG");
        for letter in format!("{reply:?}").chars() {
            if letter.is_uppercase() {
                name.push('_');
            }
            name.extend(letter.to_uppercase());
        }
        let entry = format!(" {name} = {}", reply as u8);
        let ends = [",", " "].map(|end| header.matches(&format!("{entry}{end}")).count());
        assert_eq!(ends.iter().sum::<usize>(), 1, "{entry}");
    }
}

/// The README's table of stack has every call of the header, with the header's figure.
#[test]
fn the_readme_states_the_stack_of_the_header() {
    let (header, readme) = (read("include/rudderfig.h"), read("README.md"));
    let table = readme.split("| Bytes of stack at most |").nth(1).unwrap();
    let table = table.split("\n\n").next().unwrap();
    for call in header_calls(&header) {
        let name = format!("`{}`", call.name);
        let row = table.lines().find(|row| row.contains(&name)).expect(&name);
        let cell = row.split('|').nth(2).unwrap().trim();
        let figure = cell.split(' ').next().unwrap().replace(',', "");
        let of = call.name["rudderfig_".len()..].to_uppercase();
        let line = format!("#define RUDDERFIG_STACK_{of} {figure}\n");
        assert!(header.contains(&line), "{line}");
    }
}

/// The header with two lines of a declaration the other way round.
fn exchanged(header: &str, first: &str, second: &str) -> String {
    let indent = |call: &str| " ".repeat("uint64_t (".len() + call.len());
    let call = header_calls(header)
        .into_iter()
        .find(|call| header.contains(&format!("{first},\n{}{second}", indent(&call.name))))
        .expect(first);
    let between = format!(",\n{}", indent(&call.name));
    let right = format!("{first}{between}{second}");
    assert_eq!(header.matches(&right).count(), 1);
    header.replace(&right, &format!("{second}{between}{first}"))
}

/// The buffers of rudderfig_locate_errors the other way round.
fn swapped(header: &str) -> String {
    let remainder = "const uint8_t *remainder, rudderfig_length remainder_len";
    exchanged(
        header,
        remainder,
        "uint16_t *places, rudderfig_length places_len",
    )
}

/// Two buffers of one kind the other way round, which no C compiler can see.
fn renamed(header: &str) -> String {
    let metadata = "uint8_t *metadata, rudderfig_length metadata_len";
    exchanged(header, metadata, "uint8_t *data, rudderfig_length data_len")
}

#[test]
fn a_spoiled_header_does_not_agree() {
    let header = read("include/rudderfig.h");
    let calls = header_calls(&header);
    assert_ne!(header_calls(&swapped(&header)), calls);
    assert_ne!(header_calls(&renamed(&header)), calls);
}

/// Compiles host/c/every_call.c with a header and runs it; what went wrong, if anything did.
fn every_call(name: &str, compiler: &[&str], header: &str) -> Result<(), String> {
    let folder = format!("{}/{name}", env!("CARGO_TARGET_TMPDIR"));
    fs::create_dir_all(&folder).unwrap();
    fs::write(format!("{folder}/rudderfig.h"), header).unwrap();
    let program = format!("{folder}/every_call");
    let built = Command::new(compiler[0])
        .args(&compiler[1..])
        .args([
            "-Wall",
            "-Wextra",
            "-Wpedantic",
            "-Werror",
            &format!("-I{folder}"),
        ])
        .args(["host/c/every_call.c", "-x", "none"])
        .args(["include/librudderfig.a", "-o", &program])
        .current_dir(ROOT)
        .output()
        .unwrap();
    if !built.status.success() {
        return Err(String::from_utf8_lossy(&built.stderr).into_owned());
    }
    let run = Command::new(program).output().unwrap();
    match run.status.success() {
        true => Ok(()),
        false => Err(String::from_utf8_lossy(&run.stdout).into_owned()),
    }
}

const C: [&str; 2] = ["cc", "-std=c99"];
const CPP: [&str; 4] = ["c++", "-Wold-style-cast", "-x", "c++"];

#[test]
fn every_call_answers_in_c() {
    let header = read("include/rudderfig.h");
    let program = read("host/c/every_call.c");
    for call in header_calls(&header) {
        assert!(
            program.contains(&format!("{}(", call.name)),
            "{}",
            call.name
        );
    }
    assert_eq!(every_call("c", &C, &header), Ok(()));
    assert_eq!(every_call("cpp", &CPP, &header), Ok(()));
}

#[test]
fn every_call_finds_a_spoiled_header_out() {
    let header = read("include/rudderfig.h");
    assert!(every_call("spoiled", &C, &swapped(&header)).is_err());
    let numbers = header.replace(
        "RUDDERFIG_BUFFER_LENGTH = 6",
        "RUDDERFIG_BUFFER_LENGTH = 60",
    );
    assert_ne!(numbers, header);
    assert!(every_call("numbers", &C, &numbers).is_err());
    let kinds = header.replace("rudderfig_kind(answer) == 2", "rudderfig_kind(answer) == 1");
    assert_ne!(kinds, header);
    assert!(every_call("kinds", &C, &kinds).is_err());
}

/// The words of an answer are put together for one order of bytes.
#[test]
fn a_big_endian_processor_is_refused() {
    let compile = |order: &str| {
        let mut compiler = Command::new("cc");
        compiler.args(["-fsyntax-only", "-U__BYTE_ORDER__", order]);
        let output = compiler
            .arg("include/rudderfig.h")
            .current_dir(ROOT)
            .output();
        let output = output.unwrap();
        let said = String::from_utf8_lossy(&output.stderr).into_owned();
        (output.status.success(), said)
    };
    let little = compile("-D__BYTE_ORDER__=__ORDER_LITTLE_ENDIAN__");
    assert!(little.0, "{}", little.1);
    let big = compile("-D__BYTE_ORDER__=__ORDER_BIG_ENDIAN__");
    assert!(!big.0 && big.1.contains("little-endian"), "{}", big.1);
}
