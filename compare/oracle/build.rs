//! Cuts the judged functions, unchanged, out of the Rust's published text. Nothing of that text is kept in the repository.
use std::{env, fs, path::Path};

/// The item whose first line holds `head`, up to the brace that closes it and what stands behind that brace on its line.
fn item<'a>(text: &'a str, head: &str) -> &'a str {
    let at = text.find(head).unwrap_or_else(|| panic!("`{head}` is not in the text"));
    let from = text[..at].rfind('\n').map_or(0, |i| i + 1);
    let mut depth = 0;
    for (i, c) in text[from..].char_indices() {
        match c {
            '{' => depth += 1,
            '}' => depth -= 1,
            ';' if depth == 0 => return &text[from..from + i + 1],
            _ => continue,
        }
        if depth == 0 {
            let end = from + i + 1;
            let line = text[end..].find('\n').map_or(text.len(), |n| end + n);
            return &text[from..line];
        }
    }
    panic!("`{head}` does not end")
}

fn main() {
    println!("cargo::rerun-if-env-changed=ASLAPUSH_RUST");
    let folder = env::var("ASLAPUSH_RUST").expect("ASLAPUSH_RUST names the folder of the Rust's text");
    let read = |name: &str| {
        let path = Path::new(&folder).join("library/std/src/sys").join(name);
        println!("cargo::rerun-if-changed={}", path.display());
        fs::read_to_string(&path).unwrap_or_else(|e| panic!("{}: {e}", path.display()))
    };
    let (args, process) = (read("args/windows.rs"), read("process/windows.rs"));
    let out = env::var("OUT_DIR").unwrap();
    let write = |name: &str, items: &[&str]| fs::write(Path::new(&out).join(name), items.join("\n\n")).unwrap();
    write(
        "args.rs",
        &[
            item(&args, "fn parse_lp_cmd_line<"),
            item(&args, "enum Arg {"),
            item(&args, "enum Quote {"),
            item(&args, "fn append_arg("),
            item(&args, "fn append_bat_arg("),
            item(&args, "fn make_bat_command_line("),
        ],
    );
    write(
        "process.rs",
        &[
            item(&process, "struct ExitStatus("),
            item(&process, "struct ExitStatusError("),
            item(&process, "impl ExitStatus {"),
            item(&process, "impl fmt::Display for ExitStatus {"),
            item(&process, "fn make_command_line("),
            item(&process, "fn make_envp("),
        ],
    );
    // A closure cannot stand alone: it is cut as it is and called by a function around it.
    write("suffix.rs", &["pub fn has_suffix(path: &[u16]) -> bool {", item(&process, "let has_bat_extension = "), "has_bat_extension(path) }"]);
}
