//! The driver, as a process: driver.c, which is for x86-64, by itself or under what runs such programs.

use std::io::{Read, Result, Write};
use std::process::{Child, ChildStdin, ChildStdout, Command, Stdio};

pub struct Driver {
    process: Child,
    input: ChildStdin,
    output: ChildStdout,
}

impl Driver {
    /// Starts a program with its arguments; the last one is the length of a canary.
    pub fn start(command: &[&str], canary: usize) -> Driver {
        let mut process = Command::new(command[0])
            .args(&command[1..])
            .arg(canary.to_string())
            .stdin(Stdio::piped())
            .stdout(Stdio::piped())
            .spawn()
            .unwrap_or_else(|error| panic!("{}: {error}", command[0]));
        let input = process.stdin.take().expect("standard input");
        let output = process.stdout.take().expect("standard output");
        Driver { process, input, output }
    }

    /// Sends a batch of commands. Its answers must be read before the next one is sent: driver and judge would wait for each other.
    pub fn ask(&mut self, commands: &[u8]) -> Result<()> {
        self.input.write_all(&(commands.len() as u32).to_le_bytes())?;
        self.input.write_all(commands)
    }

    /// Reads the answers to the batch that was sent last.
    pub fn read(&mut self, answers: &mut Vec<u8>) -> Result<()> {
        let mut length = [0; 4];
        self.output.read_exact(&mut length)?;
        answers.resize(u32::from_le_bytes(length) as usize, 0);
        self.output.read_exact(answers)
    }

    /// Whether it ends well, once nothing more is asked.
    pub fn ends_well(self) -> bool {
        let Driver { mut process, input, .. } = self;
        drop(input);
        process.wait().is_ok_and(|status| status.success())
    }
}
