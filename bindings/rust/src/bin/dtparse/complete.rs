//! Completions for shells.

use crate::options::{Opt, all};

/// What sources and files of token rows end in.
const ENDINGS: [&str; 3] = ["dts", "dtsi", "rows"];

/// After `--entry` and the like their words; after a dash the options; else files of the usual endings and folders.
/// Bash splits `--color=never` into three words.
pub fn bash() -> String {
    let mut cases = String::new();
    for option in all().filter(|option| option.value.is_some()) {
        let words = option.words().join(" ");
        cases +=
            &format!("    --{}) mapfile -t COMPREPLY < <(compgen -W '{words}' -- \"$word\"); return ;;\n", option.long);
    }
    let options: Vec<String> = all().flat_map(names).collect();
    let files: Vec<String> = ENDINGS.iter().map(|ending| format!("compgen -f -X '!*.{ending}' -- \"$word\"")).collect();
    format!(
        "# dtparse: completions for bash\n\
         _dtparse() {{\n\
         \x20 local word=${{COMP_WORDS[COMP_CWORD]}} before=${{COMP_WORDS[COMP_CWORD - 1]}}\n\
         \x20 if [[ $word == = ]]; then word=; elif [[ $before == = ]]; then before=${{COMP_WORDS[COMP_CWORD - 2]}}; fi\n\
         \x20 case $before in\n\
         {cases}\
         \x20 esac\n\
         \x20 if [[ $word == -* ]]; then\n\
         \x20   mapfile -t COMPREPLY < <(compgen -W '{}' -- \"$word\")\n\
         \x20 else\n\
         \x20   mapfile -t COMPREPLY < <(compgen -d -- \"$word\"; {})\n\
         \x20 fi\n\
         }}\n\
         complete -o filenames -F _dtparse dtparse\n",
        options.join(" "),
        files.join("; ")
    )
}

pub fn zsh() -> String {
    let mut out = "#compdef dtparse\n# dtparse: completions for zsh\n_arguments -S \\\n".to_string();
    for option in all() {
        let value = option.value.as_ref().map_or(String::new(), |value| {
            let words = if value.words.is_empty() { " ".to_string() } else { format!("({})", value.words.join(" ")) };
            format!(":{}:{words}", value.name.replace(':', "\\:"))
        });
        let equals = if option.value.is_some() { "=" } else { "" };
        let brief = option.brief;
        let short = option.short.map_or(String::new(), |short| format!("  '*-{short}[{brief}]' \\\n"));
        out += &format!("{short}  '*--{}{equals}[{brief}]{value}' \\\n", option.long);
    }
    out + &format!("  '*:file:_files -g \"*.({})(-.)\"'\n", ENDINGS.join("|"))
}

pub fn fish() -> String {
    let mut out = "# dtparse: completions for fish\n".to_string();
    for option in all() {
        let short = option.short.map_or(String::new(), |short| format!(" -s {short}"));
        let value = match &option.value {
            None => String::new(),
            Some(value) if value.words.is_empty() => " -x".to_string(),
            Some(value) => format!(" -x -a '{}'", value.words.join(" ")),
        };
        out += &format!("complete -c dtparse{short} -l {}{value} -d '{}'\n", option.long, option.brief);
    }
    out
}

/// Both names of an option.
fn names(option: &Opt) -> Vec<String> {
    let short = option.short.map(|short| format!("-{short}"));
    std::iter::once(format!("--{}", option.long)).chain(short).collect()
}
