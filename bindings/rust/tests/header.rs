//! Holds this crate to include/noonpasture.h: a C program, made here, prints what the header says of
//! each struct, constant and text, and must print what this crate says of its own.

use std::fmt::Write;
use std::mem::{offset_of, size_of};
use std::path::Path;
use std::process::Command;

use noonpasture::raw::{
    FixReply, GapReply, IndexReply, LookupReply, Mark, OrbitReply, Part, PlacesReply, Player, RunReply,
    SummaryReply, Value,
};
use noonpasture::{Fix, Generator, Refusal, Run, ARCHIVE_MAX, LINE_MAX, VERSION};

/// A text of the C program, the printf format of what it gives, and what that has to be.
struct Fact {
    text: String,
    format: &'static str,
    wanted: String,
}

fn number(text: String, wanted: usize) -> Fact {
    Fact { text: format!("(unsigned long)({text})"), format: "%lu", wanted: wanted.to_string() }
}

fn string(text: String, wanted: &str) -> Fact {
    Fact { text, format: "%s", wanted: wanted.into() }
}

fn size_of_field<T, F>(_: fn(&T) -> &F) -> usize {
    size_of::<F>()
}

/// Size of a struct, and offset and size of its fields, all of which have to be listed.
macro_rules! layout {
    ($facts:ident, $name:literal, $type:ident { $($field:ident),* }) => {{
        let _ = |s: $type| { let $type { $($field: _),* } = s; };
        $facts.push(number(format!("sizeof({})", $name), size_of::<$type>()));
        $(
            let field = stringify!($field);
            $facts.push(number(format!("offsetof({}, {field})", $name), offset_of!($type, $field)));
            $facts.push(number(format!("sizeof((({} *)0)->{field})", $name), size_of_field(|s: &$type| &s.$field)));
        )*
    }};
}

fn facts() -> Vec<Fact> {
    let mut facts = vec![
        string("NP_VERSION".into(), VERSION),
        number("NP_LINE_MAX".into(), LINE_MAX),
        number("NP_ARCHIVE_MAX".into(), ARCHIVE_MAX),
    ];
    layout!(facts, "np_generator", Generator { width, multiplier, increment, seed });
    layout!(facts, "np_run", Run { generator, first, count });
    layout!(facts, "np_value", Value { refusal, value });
    layout!(facts, "np_orbit_reply", OrbitReply { refusal, preperiod, exponent, period });
    layout!(facts, "np_index_reply", IndexReply { refusal, found, index });
    layout!(facts, "np_places_reply", PlacesReply { refusal, found, index, recurs, exponent });
    layout!(facts, "np_gap_reply", GapReply { refusal, found, steps });
    facts.push(number("((np_gap_reply){0, 0, -1}).steps < 0".into(), 1));
    layout!(facts, "np_run_reply", RunReply { refusal, run });
    layout!(facts, "np_lookup_reply", LookupReply { refusal, line, found, position });
    layout!(facts, "np_part", Part { start, length });
    layout!(facts, "np_summary_reply", SummaryReply { refusal, line, line_count, total });
    layout!(facts, "np_mark", Mark { set, position });
    layout!(facts, "np_player", Player { run, position, marks });
    for mark in 0..Player::default().marks.len() {
        let place = offset_of!(Player, marks) + mark * size_of::<Mark>();
        facts.push(number(format!("offsetof(np_player, marks[{mark}])"), place));
    }
    layout!(facts, "np_fix", Fix { east, north });
    // Integers would lose the halves.
    facts.push(number("((np_fix){0.5, 0.5}).east + ((np_fix){0.5, 0.5}).north".into(), 1));
    layout!(facts, "np_fix_reply", FixReply { refusal, fix });
    for refusal in Refusal::ALL {
        let name = constant(refusal);
        facts.push(number(name.clone(), refusal.number() as usize));
        facts.push(string(format!("np_refusal_text({name})"), &refusal.to_string()));
    }
    let last = Refusal::ALL.len();
    facts.push(string("np_refusal_text(0)".into(), "not refused"));
    facts.push(string(format!("np_refusal_text({})", last + 1), "no refusal has this number"));
    facts
}

/// The header's name of a refusal: ArchiveTooLong is NP_REFUSED_ARCHIVE_TOO_LONG.
fn constant(refusal: Refusal) -> String {
    let mut name = String::from("NP_REFUSED");
    for letter in format!("{refusal:?}").chars() {
        if letter.is_uppercase() {
            name.push('_');
        }
        name.push(letter.to_ascii_uppercase());
    }
    name
}

#[test]
fn header_and_crate_say_the_same() {
    let facts = facts();
    let (mut source, mut wanted) =
        (String::from("#include <stdio.h>\n#include \"noonpasture.h\"\n\n"), String::new());
    source += "int main(void)\n{\n";
    for Fact { text, format, wanted: value } in &facts {
        writeln!(source, "    printf(\"%s is {format}\\n\", {text:?}, {text});").unwrap();
        writeln!(wanted, "{text} is {value}").unwrap();
    }
    source += "    return 0;\n}\n";

    let folder = Path::new(env!("CARGO_TARGET_TMPDIR"));
    let (file, program) = (folder.join("header.c"), folder.join("header"));
    std::fs::write(&file, source).unwrap();
    let include = Path::new(env!("CARGO_MANIFEST_DIR")).join("../../include");
    let mut compiler = Command::new("cc");
    compiler.args(["-std=c99", "-Wall", "-Wextra", "-pedantic", "-Werror", "-I"]).arg(include);
    assert!(compiler.arg(&file).arg("-o").arg(&program).status().unwrap().success());
    let printed = Command::new(&program).output().unwrap().stdout;
    assert_eq!(String::from_utf8(printed).unwrap(), wanted);
}
