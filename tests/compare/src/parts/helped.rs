//! What `help` says is free, but both programs have to name the commands in it.

use crate::gate::{Gate, Stop};
use crate::script::Script;

pub fn run(gate: &mut Gate, commands: &[&str]) -> Result<(), Stop> {
    let mut script = Script::default();
    script.line("help");
    for output in [gate.check(&script)?, gate.ask_console(&script)?] {
        if let Some(name) = missing(&output, commands) {
            return Err(gate.reject(&format!("no line of the help begins with {name}")));
        }
    }
    Ok(())
}

/// A command that begins no line of a help.
fn missing<'c>(output: &[u8], commands: &[&'c str]) -> Option<&'c str> {
    let text = String::from_utf8_lossy(output);
    let named = |name: &str| {
        let mut lines = text.lines();
        lines.any(|line| line.split_whitespace().next() == Some(name))
    };
    commands.iter().copied().find(|name| !named(name))
}

#[cfg(test)]
mod tests {
    use super::*;

    #[test]
    fn a_help_without_one_of_the_commands_is_noticed() {
        let commands = ["area", "poke", "write", "read", "bytes"];
        let all = "help\nevent WORD\narea LENGTH\npoke START HEX\n  write SIDE START\n\
            read START\nbytes\nend\n";
        assert_eq!(missing(all.as_bytes(), &commands), None);
        for name in commands {
            let cut = all.replace(name, "other");
            assert_eq!(missing(cut.as_bytes(), &commands), Some(name));
        }
        let hidden = all.replace("read START", "event read");
        assert_eq!(missing(hidden.as_bytes(), &commands), Some("read"));
    }
}
