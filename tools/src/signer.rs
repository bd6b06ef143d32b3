//! Commands of the user's that sign root hashes: one that is started for each, or one that is started once and answers each. No key is read here.
use crate::arguments::Arguments;
use crate::counts::Which;
use crate::words::{hex, said, usage, Done, Trouble};
use std::ffi::{OsStr, OsString};
use std::io::{self, Read, Write};
use std::os::fd::AsRawFd;
use std::process::{Child, ChildStdin, ChildStdout, Command, Stdio};

/// How long a signature is.
pub type Signature = [u8; 64];

const READABLE: i16 = 1;

#[repr(C)]
struct Polled {
    file: i32,
    asked: i16,
    told: i16,
}

extern "C" {
    fn poll(files: *mut Polled, count: u64, milliseconds: i32) -> i32;
}

/// Who signs.
pub struct Signer {
    command: OsString,
    /// It is started once, and answers one root hash after the other.
    once: bool,
    running: Option<Running>,
    /// It was handed a root hash that it has not answered yet; whether all of it could be written.
    asked: Option<bool>,
}

struct Running {
    child: Child,
    input: ChildStdin,
    output: ChildStdout,
}

impl Signer {
    /// `--sign-with COMMAND` or `--signer COMMAND`, if one is given. Nothing is started yet.
    pub fn of(arguments: &Arguments) -> Done<Option<Signer>> {
        let signer = |command: &OsStr, once| Signer { command: command.to_owned(), once, running: None, asked: None };
        match (arguments.option("--sign-with"), arguments.option("--signer")) {
            (Some(_), Some(_)) => usage("--sign-with starts a command for each root hash, --signer one for all: one of them"),
            (Some(command), None) => Ok(Some(signer(command, false))),
            (None, Some(command)) => Ok(Some(signer(command, true))),
            (None, None) => Ok(None),
        }
    }

    fn failed(&self, words: impl AsRef<str>) -> Trouble {
        Trouble::File(format!("{}: {}", self.command.to_string_lossy(), words.as_ref()))
    }

    /// The signature of a root hash; where one was asked for, of that one.
    pub fn sign(&mut self, which: Which, root: &[u8; 32]) -> Done<Signature> {
        if self.asked.is_none() {
            self.ask(root)?;
        }
        let signature = if self.once { self.answer()? } else { made_by(&self.command, which, root)? };
        match signature == [0; 64] {
            true => Err(self.failed("gave 64 zero bytes, which are no signature")),
            false => Ok(signature),
        }
    }

    /// Hands a root hash to a command that is started once, which signs it while other work is done; whether it has it. It never has two: not every command
    /// reads 32 bytes alone where there are more.
    pub fn ask(&mut self, root: &[u8; 32]) -> Done<bool> {
        if !self.once {
            return Ok(false);
        }
        self.quiet()?;
        if self.running.is_none() {
            let started = started(&mut shell(&self.command)).map_err(|error| self.failed(said(&error)))?;
            self.running = Some(started);
        }
        let Running { input, .. } = self.running.as_mut().expect("it runs");
        self.asked = Some(input.write_all(root).and_then(|()| input.flush()).is_ok());
        Ok(true)
    }

    /// What the command that runs answers to the root hash that it has.
    fn answer(&mut self) -> Done<Signature> {
        let Running { output, .. } = self.running.as_mut().expect("it runs");
        let (mut signature, mut count) = ([0; 64], 0);
        let written = self.asked.take() == Some(true);
        while written && count < 64 {
            match output.read(&mut signature[count..]) {
                Ok(0) => break,
                Ok(more) => count += more,
                Err(error) if error.kind() == io::ErrorKind::Interrupted => continue,
                Err(error) => return Err(self.failed(said(&error))),
            }
        }
        if count == 64 {
            return Ok(signature);
        }
        let status = self.ended().map_err(|error| self.failed(said(&error)))?;
        Err(self.failed(format!("it ended with {status}, after {count} of the 64 bytes of a signature")))
    }

    /// Holds that nothing waits to be read: bytes that nobody asked for would be taken for the next signature.
    pub fn quiet(&self) -> Done<()> {
        let Some(running) = &self.running else { return Ok(()) };
        let mut polled = Polled { file: running.output.as_raw_fd(), asked: READABLE, told: 0 };
        if unsafe { poll(&mut polled, 1, 0) } > 0 && polled.told & READABLE != 0 {
            return Err(self.failed("it gave more than the 64 bytes of a signature"));
        }
        Ok(())
    }

    fn ended(&mut self) -> io::Result<std::process::ExitStatus> {
        let Running { mut child, input, output } = self.running.take().expect("it runs");
        drop((input, output));
        child.wait()
    }

    /// Lets it end, when everything is signed.
    pub fn end(mut self) -> Done<()> {
        if self.running.is_none() {
            return Ok(());
        }
        let status = self.ended().map_err(|error| self.failed(said(&error)))?;
        match status.success() {
            true => Ok(()),
            false => Err(self.failed(format!("everything is signed and stored; but then it ended with {status}"))),
        }
    }
}

fn shell(command: &OsStr) -> Command {
    let mut shell = Command::new("sh");
    shell.arg("-c").arg(command).arg("sh").stdin(Stdio::piped()).stdout(Stdio::piped());
    shell
}

fn started(command: &mut Command) -> io::Result<Running> {
    let mut child = command.spawn()?;
    let (input, output) = (child.stdin.take().expect("a pipe"), child.stdout.take().expect("a pipe"));
    Ok(Running { child, input, output })
}

/// The 64 bytes that a shell command prints: `$1` is the register's name, `$2` the root hash in hex, and its 32 bytes are there to read.
pub fn made_by(command: &OsStr, which: Which, root: &[u8; 32]) -> Done<Signature> {
    let failed = |words: String| Trouble::File(format!("{}: {words}", command.to_string_lossy()));
    let mut running = started(shell(command).arg(which.name()).arg(hex(root))).map_err(|error| failed(said(&error)))?;
    // A command that takes the words alone needs not read.
    let _ = running.input.write_all(root);
    drop(running.input);
    let mut bytes = Vec::new();
    let read = running.output.take(65).read_to_end(&mut bytes);
    if bytes.len() > 64 {
        let _ = running.child.kill();
    }
    let status = running.child.wait().map_err(|error| failed(said(&error)))?;
    read.map_err(|error| failed(said(&error)))?;
    match bytes.len() {
        65.. => Err(failed("64 bytes are needed, and it gave more".into())),
        _ if !status.success() => Err(failed(format!("ended with {status}"))),
        count => bytes.try_into().map_err(|_| failed(format!("64 bytes are needed, and it gave {count}"))),
    }
}
