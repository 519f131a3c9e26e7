//! The page for `man`, made of the help texts.

use crate::commands::COMMANDS;
use crate::help;

/// The page.
pub fn page() -> String {
    let (about, further) = help::around_usages();
    let about = about.trim().replacen(':', " \\-", 1);
    let version = help::version();
    let usages = COMMANDS.map(|command| command.usage());
    let usages: String = usages
        .map(|usage| format!("{}\n.br\n", roff(usage)))
        .concat();
    let commands = COMMANDS.iter().map(|command| {
        let (usage, text) = command.help.split_once('\n').unwrap_or((command.help, ""));
        format!(
            ".SS {}\n.nf\n{}\n{}.fi\n",
            command.name,
            roff(usage),
            roff(text)
        )
    });
    let commands: String = commands.collect();
    format!(
        ".TH PLOT 1 \"\" \"{}\" \"plot registers\"\n.SH NAME\n{about}\n.SH SYNOPSIS\n{usages}\
         .SH DESCRIPTION\n{}\n.SH COMMANDS\n{commands}",
        version.trim(),
        roff(further.trim()),
    )
}

/// A text as roff takes it: no backslash, dash or dot at the start of a line has a
/// meaning of its own.
fn roff(text: &str) -> String {
    let lines = text.split('\n').map(|line| {
        let line = line.replace('\\', "\\e").replace('-', "\\-");
        match line.starts_with(['.', '\'']) {
            true => format!("\\&{line}"),
            false => line,
        }
    });
    lines.collect::<Vec<String>>().join("\n")
}
