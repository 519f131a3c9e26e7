//! What makes a shell complete the command: made of the commands and their forms.

use crate::commands::{COMMANDS, Command};
use crate::failure::Failure;

/// The script for a shell.
pub fn script(shell: &str) -> Result<String, Failure> {
    match shell {
        "bash" => Ok(bash()),
        "zsh" => Ok(zsh()),
        "fish" => Ok(fish()),
        _ => {
            let told = format!("--completion is bash, zsh or fish, not {shell:?}");
            Err(Failure::Usage(told))
        }
    }
}

/// The names of all commands.
fn names() -> String {
    COMMANDS.map(|command| command.name).join(" ")
}

/// The options of a command.
fn options(command: &Command) -> Vec<&'static str> {
    [command.form.flags, command.form.valued, &["--help"]].concat()
}

/// What a command does, as far as its help begins.
fn purpose(command: &Command) -> String {
    let paragraph = command.help.split("\n\n").nth(1).unwrap_or("");
    let sentence = paragraph.split_inclusive(['.', ':', ';']).next();
    let words: Vec<&str> = sentence.unwrap_or("").split_whitespace().collect();
    words.join(" ").trim_end_matches(['.', ':', ';']).to_owned()
}

fn bash() -> String {
    let cases = COMMANDS.iter().map(|command| {
        let options = options(command).join(" ");
        format!("    {}) options='{options}' ;;\n", command.name)
    });
    let cases: String = cases.collect();
    let names = names();
    format!(
        "# bash completion for plot
_plot() {{
  local word=${{COMP_WORDS[COMP_CWORD]}} options=
  if [ \"$COMP_CWORD\" -eq 1 ]; then
    COMPREPLY=($(compgen -W '{names} --help --version' -- \"$word\"))
    return
  fi
  case ${{COMP_WORDS[1]}} in
{cases}  esac
  case $word in
    -*) COMPREPLY=($(compgen -W \"$options\" -- \"$word\")) ;;
    *) [ \"${{COMP_WORDS[1]}}\" != help ] || COMPREPLY=($(compgen -W '{names}' -- \"$word\")) ;;
  esac
}}
complete -o default -F _plot plot
"
    )
}

fn zsh() -> String {
    let described = COMMANDS.iter().map(|command| {
        let purpose = purpose(command).replace(['\'', ':'], "");
        format!("    '{}:{purpose}'\n", command.name)
    });
    let cases = COMMANDS.iter().map(|command| {
        let options = options(command).join(" ");
        format!("    {}) compadd -- {options} ;;\n", command.name)
    });
    let (described, cases): (String, String) = (described.collect(), cases.collect());
    format!(
        "#compdef plot
local -a commands
if (( CURRENT == 2 )); then
  commands=(
{described}  )
  _describe command commands
elif [[ $words[2] == help ]]; then
  compadd -- {names}
elif [[ $words[CURRENT] == -* ]]; then
  case $words[2] in
{cases}  esac
else
  _files
fi
",
        names = names()
    )
}

fn fish() -> String {
    let mut script = "# fish completion for plot\n".to_owned();
    for command in &COMMANDS {
        let name = command.name;
        let purpose = purpose(command).replace('\'', "");
        script +=
            &format!("complete -c plot -n __fish_use_subcommand -f -a {name} -d '{purpose}'\n");
        for option in options(command) {
            let letter = match option.strip_prefix("--") {
                Some(long) => format!("-l {long}"),
                None => format!("-s {}", option.trim_start_matches('-')),
            };
            let value = match command.form.valued.contains(&option) {
                true => " -r",
                false => "",
            };
            script += &format!(
                "complete -c plot -n '__fish_seen_subcommand_from {name}' {letter}{value}\n"
            );
        }
    }
    script
}
