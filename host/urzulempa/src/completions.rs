//! What shells need to complete the command's words, made from the table of commands.

use crate::say::{print, usage, DONE};
use crate::table::{Command, Opt, What, COMMANDS, NAME};
use crate::words::Given;

pub const SHELLS: &[&str] = &["bash", "zsh", "fish"];

pub fn run(given: &Given) -> Result<u8, String> {
    let script = match given.text(0).as_deref() {
        Some("bash") => bash(),
        Some("zsh") => zsh(),
        Some("fish") => fish(),
        other => return Ok(usage(&format!("{} is no shell that is known: there are bash, zsh and fish", other.unwrap_or_default()))),
    };
    print(script.as_bytes()).map(|()| DONE)
}

fn names() -> Vec<&'static str> {
    COMMANDS.iter().map(|command| command.name).collect()
}

fn options(command: &Command) -> Vec<&'static str> {
    command.options.iter().map(|option| option.name).chain(["--help"]).collect()
}

/// The words that a word of the command, by its place, can be; none where it is a file's name or a text.
fn words(command: &Command, place: usize) -> Option<Vec<&'static str>> {
    match command.args.get(place)?.what {
        What::Word(words) => Some(words.to_vec()),
        What::Text if command.name == "help" => Some(names()),
        _ => None,
    }
}

/// The options with values that are words, and those whose values are not names of files.
fn valued(command: &Command) -> impl Iterator<Item = (&'static Opt, What)> {
    command.options.iter().filter_map(|option| option.value.as_ref().map(|value| (option, value.what)))
}

fn bash() -> String {
    let mut cases = String::new();
    for command in COMMANDS {
        let mut values = String::new();
        for (option, what) in valued(command) {
            let reply = match what {
                What::Word(words) => format!("COMPREPLY=($(compgen -W '{}' -- \"$word\"))", words.join(" ")),
                What::File => "COMPREPLY=($(compgen -f -- \"$word\"))".into(),
                What::Text | What::Number => "COMPREPLY=()".into(),
            };
            values += &format!("        {}) {reply}; return ;;\n", option.name);
        }
        let values = if values.is_empty() { String::new() } else { format!("      case $before in\n{values}      esac\n") };
        let mut places = String::new();
        for place in 0..command.args.len() {
            if let Some(words) = words(command, place) {
                places += &format!("      [ \"$place\" = {place} ] && {{ COMPREPLY=($(compgen -W '{}' -- \"$word\")); return; }}\n", words.join(" "));
            }
        }
        cases += &format!("    {})\n{values}{places}      options='{}' ;;\n", command.name, options(command).join(" "));
    }
    format!(
        "# Completions of {NAME} for bash; made by `{NAME} completions bash`.\n\
         _{NAME}() {{\n  local word=${{COMP_WORDS[COMP_CWORD]}} before=${{COMP_WORDS[COMP_CWORD-1]}} options='' place=$((COMP_CWORD - 2))\n  COMPREPLY=()\n  \
         if [ \"$COMP_CWORD\" = 1 ]; then\n    COMPREPLY=($(compgen -W '{} --help --version' -- \"$word\"))\n    return\n  fi\n  \
         case ${{COMP_WORDS[1]}} in\n{cases}  esac\n  \
         case $word in\n    -*) COMPREPLY=($(compgen -W \"$options\" -- \"$word\")) ;;\n    *) COMPREPLY=($(compgen -f -- \"$word\")) ;;\n  esac\n}}\n\
         complete -o filenames -F _{NAME} {NAME}\n",
        names().join(" ")
    )
}

/// A text between single quotes in a line of zsh's `_arguments` or `_describe`, where brackets and colons have a meaning.
fn zsh_text(text: &str) -> String {
    text.replace('\'', "'\\''").replace('[', "\\[").replace(']', "\\]").replace(':', "\\:")
}

fn zsh() -> String {
    let action = |what: What| match what {
        What::Word(words) => format!("({})", words.join(" ")),
        What::File => "_files".into(),
        What::Text | What::Number => " ".into(),
    };
    let (mut list, mut cases) = (String::new(), String::new());
    for command in COMMANDS {
        list += &format!("    '{}:{}'\n", command.name, zsh_text(command.brief));
        cases += &format!("    {})\n      _arguments", command.name);
        for option in command.options {
            let value = option.value.as_ref().map(|value| format!(":{}:{}", value.name, action(value.what))).unwrap_or_default();
            let name = if option.value.is_some() && option.name.starts_with("--") { format!("{}=", option.name) } else { option.name.to_owned() };
            cases += &format!(" \\\n        '{name}[{}]{value}'", zsh_text(option.help));
        }
        cases += " \\\n        '--help[what the command does]'";
        for (place, arg) in command.args.iter().enumerate() {
            let action = words(command, place).map_or_else(|| action(arg.what), |words| format!("({})", words.join(" ")));
            let place = if arg.shown().ends_with("...") { "*".to_owned() } else { (place + 1).to_string() };
            cases += &format!(" \\\n        '{place}:{}:{action}'", arg.name);
        }
        cases += " ;;\n";
    }
    format!(
        "#compdef {NAME}\n# Completions of {NAME} for zsh; made by `{NAME} completions zsh`.\n\
         _{NAME}() {{\n  local -a commands\n  commands=(\n{list}  )\n  \
         if (( CURRENT == 2 )); then\n    _describe command commands\n    return\n  fi\n  \
         local command=$words[2]\n  shift words\n  (( CURRENT-- ))\n  \
         case $command in\n{cases}  esac\n}}\n_{NAME} \"$@\"\n"
    )
}

fn fish() -> String {
    let text = |text: &str| text.replace('\\', "\\\\").replace('\'', "\\'");
    let mut out = format!("# Completions of {NAME} for fish; made by `{NAME} completions fish`.\n");
    for command in COMMANDS {
        out += &format!("complete -c {NAME} -n __fish_use_subcommand -f -a {} -d '{}'\n", command.name, text(command.brief));
        let when = format!("complete -c {NAME} -n '__fish_seen_subcommand_from {}'", command.name);
        for option in command.options {
            let name = match option.name.strip_prefix("--") {
                Some(long) => format!("-l {long}"),
                None => format!("-s {}", option.name.trim_start_matches('-')),
            };
            let value = match option.value.as_ref().map(|value| value.what) {
                None => String::new(),
                Some(What::File) => " -r -F".into(),
                Some(What::Word(words)) => format!(" -x -a '{}'", words.join(" ")),
                Some(What::Text | What::Number) => " -x".into(),
            };
            out += &format!("{when} {name}{value} -d '{}'\n", text(option.help));
        }
        for words in (0..command.args.len()).filter_map(|place| words(command, place)) {
            out += &format!("{when} -f -a '{}'\n", words.join(" "));
        }
    }
    out
}
