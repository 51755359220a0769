//! The manual page, of the same commands that the program reads its arguments by.
use clap::Command;
use roff::{bold, italic, roman, Inline, Roff};

/// How an option or argument is written.
fn written(arg: &clap::Arg) -> Vec<Inline> {
    let mut names: Vec<Inline> = Vec::new();
    let forms = arg.get_short().map(|s| format!("-{s}")).into_iter().chain(arg.get_long().map(|l| format!("--{l}")));
    for form in forms {
        if !names.is_empty() {
            names.push(roman(", "));
        }
        names.push(bold(form));
    }
    if arg.is_positional() || arg.get_action().takes_values() {
        if !names.is_empty() {
            names.push(roman(" "));
        }
        let values = arg.get_value_names().map_or_else(|| arg.get_id().as_str().to_uppercase(), |v| v.iter().map(|n| n.to_string()).collect::<Vec<_>>().join(" "));
        names.push(italic(values));
    }
    names
}

fn arguments(page: &mut Roff, command: &Command) {
    // -h is every command's, and the usage has the names that need no words
    let plain = |a: &clap::Arg| a.is_positional() && a.get_help().is_none();
    for arg in command.get_arguments().filter(|a| !a.is_hide_set() && a.get_id() != "help" && a.get_id() != "version" && !plain(a)) {
        page.control("TP", []).text(written(arg));
        let mut words = arg.get_help().map(|h| h.to_string()).unwrap_or_default();
        let defaults: Vec<String> = arg.get_default_values().iter().map(|v| v.to_string_lossy().into_owned()).collect();
        if !defaults.is_empty() && arg.get_action().takes_values() {
            words += &format!(" [{}]", defaults.join(" "));
        }
        page.text([roman(words.trim())]);
    }
}

/// What each kind of material does, as hall.toml names them.
const KINDS: [(&str, &str); 3] = [
    ("opaque", "Ends every ray, from both sides."),
    ("translucent", "Lets its transmission of the light pass, from both sides, on the way to the sun, the sky and the lamps."),
    (
        "panel",
        "Opaque from the front, the side from which the corners of its faces run counter-clockwise, and not there from behind. It stops the light that comes from \
         behind it; what falls on its front goes on through it to what stands behind. Its transmission is never read.",
    ),
];

/// plate(1) as roff.
pub fn page(mut command: Command) -> String {
    command.build();
    let version = format!("plate {}", command.get_version().unwrap_or_default());
    let about = command.get_about().map(|a| a.to_string()).unwrap_or_default();
    let mut page = Roff::new();
    page.control("TH", ["PLATE", "1", "", &version]);
    page.control("SH", ["NAME"]).text([roman(format!("plate - {}", about.trim_end_matches('.')))]);
    page.control("SH", ["SYNOPSIS"]).text([bold("plate"), roman(" "), italic("COMMAND"), roman(" ..")]);
    page.control("SH", ["DESCRIPTION"]);
    for paragraph in command.get_long_about().map(|a| a.to_string()).unwrap_or(about).split("\n\n") {
        page.text([roman(paragraph.replace('\n', " "))]).control("PP", []);
    }
    page.text([roman("What a volume means, and what is not in it, stands in docs/USE.md. Every command has "), bold("--help"), roman(".")]);
    page.control("SH", ["MATERIALS"]);
    page.text([roman("In hall.toml a material's "), bold("kind"), roman(" is one of three:")]);
    for (kind, words) in KINDS {
        page.control("TP", []).text([bold(kind)]).text([roman(words)]);
    }
    page.control("SH", ["COMMANDS"]);
    for inner in command.get_subcommands_mut().filter(|c| c.get_name() != "help" && !c.is_hide_set()) {
        let usage = inner.render_usage().to_string();
        page.control("SS", [inner.get_name()]);
        page.text([bold(usage.trim().trim_start_matches("Usage: "))]).control("PP", []);
        page.text([roman(inner.get_about().map(|a| a.to_string()).unwrap_or_default())]);
        arguments(&mut page, inner);
    }
    page.render()
}
