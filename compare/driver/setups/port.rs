//! The port, as a program that answers lines of standard input.

use std::{
    io::Write,
    path::PathBuf,
    process::{Command, Output, Stdio},
    thread,
};

pub struct Port(pub PathBuf);

impl Port {
    /// An answer for each line; an error if the program does not end well.
    pub fn answers(&self, lines: &str) -> Result<Vec<String>, String> {
        let output = self.run(lines);
        if !output.status.success() {
            let said = String::from_utf8_lossy(&output.stderr).into_owned();
            return Err(format!("the program ends with {}: {said}", output.status));
        }
        let answers = String::from_utf8(output.stdout).map_err(|error| error.to_string())?;
        Ok(answers.lines().map(str::to_string).collect())
    }

    /// Whether the program ends with 1 at the second of some lines, says so, and answers the first.
    pub fn refuses_line(&self, good: &str, bad: &str) -> bool {
        self.refuses_second(good, bad, "")
    }

    /// The same with lines behind it.
    pub fn refuses_second(&self, good: &str, bad: &str, rest: &str) -> bool {
        let output = self.run(&format!("{good}\n{bad}\n{rest}"));
        let said = String::from_utf8_lossy(&output.stderr).into_owned();
        output.status.code() == Some(1)
            && output.stdout.iter().filter(|byte| **byte == b'\n').count() == 1
            && said.contains("line 2 ")
            && said.contains(bad)
    }

    fn run(&self, lines: &str) -> Output {
        let mut child = Command::new(&self.0)
            .stdin(Stdio::piped())
            .stdout(Stdio::piped())
            .stderr(Stdio::piped())
            .spawn()
            .unwrap_or_else(|error| panic!("{}: {error}", self.0.display()));
        let mut input = child.stdin.take().unwrap();
        thread::scope(|scope| {
            // The program may end before it has read everything.
            scope.spawn(move || input.write_all(lines.as_bytes()).is_ok());
            child.wait_with_output().unwrap()
        })
    }
}
