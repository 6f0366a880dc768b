//! The program: its arguments, its standard streams and its status.

use command_line::{run, Console, Look};
use std::{
    env,
    io::{self, IsTerminal},
    process::ExitCode,
};

fn main() -> ExitCode {
    let (mut out, mut err, mut input) = (io::stdout(), io::stderr(), io::stdin().lock());
    let prompt = if io::stdin().is_terminal() && io::stdout().is_terminal() { "> " } else { "" };
    let mut console =
        Console::new(&mut out, &mut err, Look::of_output()).reading(&mut input, prompt);
    let arguments: Result<Vec<String>, _> =
        env::args_os().skip(1).map(|a| a.into_string()).collect();
    ExitCode::from(match arguments {
        Ok(arguments) => {
            run(&arguments.iter().map(String::as_str).collect::<Vec<_>>(), &mut console)
        }
        Err(argument) => console.troubled(format!("{argument:?}: not text in UTF-8")),
    })
}
