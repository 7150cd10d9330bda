//! README's section on the desk's tools shows what is really printed.

use super::refine;

const README: &str = include_str!("../../../README.md");

/// How a command is shown, in a block of lines with this indent.
const INDENT: &str = "    ";
const PROMPT: &str = "    $ refine ";

/// The commands of the section, each with the lines shown below it.
fn shown() -> Vec<(Vec<&'static str>, String)> {
    let section = README
        .lines()
        .skip_while(|line| *line != "## The desk's tools")
        .skip(1)
        .take_while(|line| !line.starts_with("## "));
    let mut shown: Vec<(Vec<&str>, String)> = Vec::new();
    let mut in_block = false;
    for line in section {
        if let Some(command) = line.strip_prefix(PROMPT) {
            shown.push((command.split(' ').collect(), String::new()));
            in_block = true;
            continue;
        }
        // A block may have empty lines; text ends it.
        in_block = in_block && (line.is_empty() || line.starts_with(INDENT));
        if let (true, Some((_, output))) = (in_block, shown.last_mut()) {
            *output += &format!("{}\n", line.strip_prefix(INDENT).unwrap_or(line));
        }
    }
    shown
}

#[test]
fn each_command_prints_what_is_shown() {
    let shown = shown();
    for (arguments, expected) in &shown {
        let (output, notes, _) = refine(arguments);
        assert_eq!(output.trim_end(), expected.trim_end(), "{arguments:?}");
        assert_eq!(notes, "", "{arguments:?}");
    }
    let is_shown = |command| shown.iter().any(|(arguments, _)| arguments[0] == command);
    assert!(
        ["gaps", "compare", "whatif"].into_iter().all(is_shown),
        "a command is not shown"
    );
}
