//! Takes encode.rs, encoded.rs and decode.rs unchanged from the folder that
//! `S68K_SOURCES` names, and derives from their text the tables of the numeric
//! form, of the fields and of the reasons.

#[path = "build/declarations.rs"]
mod declarations;
#[path = "build/reasons.rs"]
mod reasons;
#[path = "build/tables.rs"]
mod tables;
#[path = "build/text.rs"]
mod text;
#[path = "build/writers.rs"]
mod writers;

use std::path::{Path, PathBuf};
use std::{env, fs};

const ENCODED: &str = "src--src--assembler--instructions--encoded.rs.txt";
const ENCODE: &str = "src--src--machine--encode.rs.txt";
const DECODE: &str = "src--src--machine--decode.rs.txt";

fn main() {
    println!("cargo:rerun-if-env-changed=S68K_SOURCES");
    let sources = env::var("S68K_SOURCES").expect("S68K_SOURCES names the folder of the sources");
    let sources = PathBuf::from(sources);
    let out = PathBuf::from(env::var("OUT_DIR").expect("cargo gives OUT_DIR"));
    let encoded = take(&sources, ENCODED, &out, "encoded");
    let encode = take(&sources, ENCODE, &out, "encode");
    take(&sources, DECODE, &out, "decode");
    let types = declarations::all(&text::without_comments(&encoded));
    let fields = declarations::all(&text::without_comments(&encode));
    write(&out, "schema_tables.rs", &tables::schema(&types));
    write(&out, "readers.rs", &tables::readers(&types));
    write(&out, "writers.rs", &writers::writers(&types));
    write(&out, "operands.rs", &writers::operand_changer(&types));
    write(&out, "field_numbers.rs", &tables::field_numbers(&fields));
    write(&out, "reason_texts.rs", &reasons::table(&encode));
}

/// Copies one source, and the module line that names the copy, and gives its text.
fn take(sources: &Path, file: &str, out: &Path, module: &str) -> String {
    let from = sources.join(file);
    println!("cargo:rerun-if-changed={}", from.display());
    let text = fs::read_to_string(&from)
        .unwrap_or_else(|error| panic!("{} cannot be read: {error}", from.display()));
    let copy = out.join(format!("{module}.rs"));
    fs::write(&copy, &text).expect("OUT_DIR takes a file");
    let line = format!("#[path = {:?}]\npub mod {module};\n", copy);
    write(out, &format!("mod_{module}.rs"), &line);
    text
}

fn write(out: &Path, file: &str, text: &str) {
    fs::write(out.join(file), text).expect("OUT_DIR takes a file");
}
