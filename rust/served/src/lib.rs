//! The proved engine behind a pipe, as an engine that can be compared.
//!
//! The archive is for x86-64. A C program, `c/server.c`, is linked with it and answers calls over a pipe; it runs
//! under the kit's loader. So the engine is pressed as C programs call it, and in a process of its own.
#![forbid(unsafe_code)]
#![warn(missing_docs)]

mod program;
mod wire;

use std::fmt;
use std::io::{self, Read, Write};
use std::process::{Child, ChildStdin, ChildStdout, Stdio};
use std::sync::Mutex;

use compare::{Answer, Case, Engine};

pub use program::{command_for, program};

/// The engine that the archive holds, in a program of its own.
#[derive(Debug)]
pub struct Served {
    pipe: Mutex<Pipe>,
}

#[derive(Debug)]
struct Pipe {
    server: Child,
    to: ChildStdin,
    from: ChildStdout,
}

/// The server ended before it answered.
#[derive(Debug)]
pub struct Ended {
    how: String,
}

impl fmt::Display for Ended {
    fn fmt(&self, f: &mut fmt::Formatter<'_>) -> fmt::Result {
        write!(f, "the server ended before it answered: {}", self.how)
    }
}

impl std::error::Error for Ended {}

impl Served {
    /// Starts the program on the stack that programs get.
    #[must_use]
    pub fn start() -> Served {
        Served::of(None)
    }

    /// Starts the program on a stack of so many bytes, a multiple of 1,024.
    #[must_use]
    pub fn start_on(stack: usize) -> Served {
        Served::of(Some(stack))
    }

    fn of(stack: Option<usize>) -> Served {
        let mut command = program("server", stack);
        let mut server = command.stdin(Stdio::piped()).stdout(Stdio::piped()).spawn().expect("the server starts");
        let to = server.stdin.take().expect("a pipe to the server");
        let from = server.stdout.take().expect("a pipe from the server");
        Served { pipe: Mutex::new(Pipe { server, to, from }) }
    }

    /// Answers the case, and leaves in it what the call leaves.
    ///
    /// # Errors
    /// If the server ends before it answers; the case is as it was.
    ///
    /// # Panics
    /// If the call wrote beside everything that it was lent.
    pub fn try_answer(&self, case: &mut Case) -> Result<Answer, Ended> {
        let mut pipe = self.pipe.lock().expect("no call has gone wrong before");
        let request = wire::request(case);
        let mut answer = vec![0; wire::answer_length(&request)];
        match pipe.exchange(&request, &mut answer) {
            Ok(()) => Ok(wire::take_answer(&answer, case)),
            Err(error) => {
                let how = pipe.server.wait().map_or(error.to_string(), |status| format!("{error}; {status}"));
                Err(Ended { how })
            }
        }
    }
}

impl Pipe {
    fn exchange(&mut self, request: &[u8], answer: &mut [u8]) -> io::Result<()> {
        self.to.write_all(request)?;
        self.from.read_exact(answer)
    }
}

impl Drop for Pipe {
    fn drop(&mut self) {
        // What cannot be ended has ended.
        let _ = self.server.kill();
        let _ = self.server.wait();
    }
}

impl Engine for Served {
    fn answer(&self, case: &mut Case) -> Answer {
        self.try_answer(case).unwrap_or_else(|ended| panic!("{ended}\n{:?}", case.fields()))
    }
}
