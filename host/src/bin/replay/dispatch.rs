//! The C text that makes a call of the header by its number.

use model::header::{Declared, Kind};

/// The words that hand one argument of host/c/replay.c over.
fn handed(at: usize, kind: &Kind) -> String {
    match kind {
        Kind::Number => format!("a[{at}].number"),
        Kind::State => format!("a[{at}].lent"),
        _ => format!("a[{at}].lent, a[{at}].number"),
    }
}

pub fn text(calls: &[Declared]) -> String {
    let mut text = String::from(
        "static uint64_t make_call(unsigned call, const struct argument *a)\n{\n\tswitch (call) {\n",
    );
    for (number, call) in calls.iter().enumerate() {
        let kinds = call.parameters.iter().map(|(_, kind)| kind).enumerate();
        let words: Vec<String> = kinds.map(|(at, kind)| handed(at, kind)).collect();
        let words = words.join(", ");
        text += &format!("\tcase {number}:\n\t\treturn {}({words});\n", call.name);
    }
    text + "\t}\n\tabort();\n}\n"
}
