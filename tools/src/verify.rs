//! Signatures: one is given out, or all are handed to a command of the user's that checks them. This program knows no key and no rule of them.
use crate::arguments::{number, Arguments};
use crate::counts::{Which, HEADER, SIGNATURE};
use crate::folder::Opening;
use crate::kept::Lent;
use crate::outputs::{self, report};
use crate::parts::{self, Threads};
use crate::progress;
use crate::reading::{archive_and_registers, audited, only_register, Archive};
use crate::sleep_register::Register;
use crate::words::{counted, hex, refused, said, usage, Done, Trouble};
use std::ffi::OsStr;
use std::io::Write;
use std::process::{Command, Stdio};

/// How a shell ends that could not start a command.
const NOT_STARTED: [i32; 2] = [126, 127];

/// The signature of a chunk, as it is stored: the register has passed its first checks, and s is above the chunk's number.
pub fn stored<'a>(register: &Register<'a>, chunk: u64) -> &'a [u8; 64] {
    let at = (HEADER + SIGNATURE * chunk) as usize;
    register.signatures[at..at + SIGNATURE as usize].try_into().expect("64 bytes")
}

fn is_zeros(signature: &[u8; 64]) -> bool {
    signature.iter().all(|byte| *byte == 0)
}

/// The chunks that have a signature of their own: one that is not zeros.
pub fn signed(register: &Register) -> Vec<u64> {
    (0..register.s).filter(|chunk| !is_zeros(stored(register, *chunk))).collect()
}

/// `signature`: the signature that stands behind a chunk, which is that of the root hash of all chunks up to it.
pub fn signature(arguments: &Arguments) -> Done<()> {
    let [path, which, chunk] = arguments.words()[..] else {
        return usage("an archive, metadata or content, and a chunk's number are needed");
    };
    let (which, chunk) = (only_register(which)?, number(chunk, "a chunk")?);
    let archive = Archive::open(path, Opening::reading(arguments)?)?;
    let named = archive.named(which);
    let register = archive.register(which).whole(&named)?;
    register.root_hash().map_err(|reason| refused(&named, reason))?;
    let none = |why: String| Err(Trouble::Refused(format!("{named}: {why}")));
    match register {
        Register { n, .. } if chunk >= n => none(format!("there is no chunk {chunk}, and no signature of one")),
        Register { s, .. } if chunk >= s => none(format!("the signature of chunk {chunk} is owed")),
        _ if is_zeros(stored(&register, chunk)) => {
            let next = signed(&register).into_iter().find(|signed| *signed > chunk);
            let next = next.map_or("none that follows either".into(), |next| format!("the next is that of chunk {next}"));
            none(format!("chunk {chunk} has no signature of its own, but zeros; {next}"))
        }
        _ if arguments.has("--raw") => outputs::give(None, stored(&register, chunk)),
        _ => outputs::say(&hex(stored(&register, chunk))),
    }
}

/// A signature and what it is said to be of.
pub struct Signed {
    pub chunk: u64,
    pub root: [u8; 32],
    pub signature: [u8; 64],
}

/// What is to be checked in a register, or why there is nothing.
struct ToCheck {
    which: Which,
    n: u64,
    s: u64,
    all: Result<Vec<Signed>, String>,
}

/// Audits a register, and takes out its signatures, so that the archive needs not stand still while they are checked.
fn taken_out(archive: &Archive, which: Which, threads: Threads) -> Done<ToCheck> {
    let nothing = |why: String| Ok(ToCheck { which, n: 0, s: 0, all: Err(why) });
    if let Err(why) = audited(archive, which, threads, None)? {
        return nothing(why);
    }
    let Lent::Whole(register) = archive.register(which) else {
        return nothing("a partial copy, which has no signatures".into());
    };
    let with_root = |chunk: u64| {
        let root = register.old_root(chunk + 1).map_err(|reason| refused(&archive.named(which), reason))?;
        Ok(Signed { chunk, root, signature: *stored(&register, chunk) })
    };
    let all = signed(&register).into_iter().map(with_root).collect::<Done<Vec<_>>>()?;
    Ok(ToCheck { which, n: register.n, s: register.s, all: Ok(all) })
}

/// `verify`: audits, and hands every signature that is not zeros to a command.
pub fn verify(arguments: &Arguments) -> Done<()> {
    let Some(command) = arguments.option("--with") else { return usage("--with is needed: the command that checks a signature") };
    let ((path, registers), threads) = (archive_and_registers(arguments)?, parts::threads(arguments)?);
    let archive = Archive::open(path, Opening::reading(arguments)?)?;
    parts::stop_between_parts();
    let to_check = registers.iter().map(|which| taken_out(&archive, *which, threads)).collect::<Done<Vec<_>>>()?;
    parts::stop_at_once("before a signature was checked")?;
    let shown = archive.folder.path.display().to_string();
    drop(archive);
    let mut wrong = Vec::new();
    for register in to_check {
        if !checked(command, &register)? {
            wrong.push(register.which.name());
        }
    }
    if wrong.is_empty() {
        return Ok(());
    }
    Err(Trouble::Refused(format!("{shown}: not verified: {}", wrong.join(", "))))
}

/// Checks the signatures of a register, and says how far they reach. True where all are good and the last is that of the last chunk.
fn checked(command: &OsStr, register: &ToCheck) -> Done<bool> {
    let name = register.which.name();
    let all = match &register.all {
        Ok(all) => all,
        Err(why) => return report(&format!("{name}: {why}; no signature is checked")).map(|()| false),
    };
    let mut good = Vec::new();
    for (count, signed) in all.iter().enumerate() {
        progress::note(&format!("{name}: checking signature {} of {}", count + 1, all.len()));
        let is_good = is_good(command, register.which, signed);
        progress::note("");
        match is_good? {
            true => good.push(signed.chunk),
            false => report(&format!("{name}: the signature of chunk {} is not good", signed.chunk))?,
        }
    }
    let reach = match good.last() {
        Some(chunk) => {
            format!("; the last good one reaches up to chunk {chunk}, the first {} of {}", chunk + 1, counted(register.n, "chunk"))
        }
        None => String::new(),
    };
    report(&format!("{name}: {} checked, {} good{reach}", counted(all.len() as u64, "signature"), good.len()))?;
    let reaches = register.n > 0 && good.last() == Some(&(register.n - 1));
    if !reaches {
        report(&format!("{name}: {}", unreached(register)))?;
    }
    Ok(reaches && good.len() == all.len())
}

/// Why no good signature is that of the last chunk.
fn unreached(register: &ToCheck) -> String {
    let last = register.n.wrapping_sub(1);
    let of_last = register.all.as_ref().is_ok_and(|all| all.last().is_some_and(|signed| signed.chunk == last));
    match register {
        ToCheck { n: 0, .. } => "there are no chunks, and no signature".into(),
        ToCheck { n, s, .. } if s < n => format!("the signature of chunk {last}, the last, is owed"),
        _ if of_last => format!("no good signature reaches chunk {last}, the last"),
        _ => format!("the signature of chunk {last}, the last, is zeros"),
    }
}

/// Whether the command ends with 0: `$1` is the register's name, `$2` the root hash and `$3` the signature in hex, `$4` the chunk's number; the bytes of
/// both are there to read, the root hash's 32 first. What it prints goes nowhere, but for its errors.
pub fn is_good(command: &OsStr, which: Which, signed: &Signed) -> Done<bool> {
    let failed = |words: String| Trouble::File(format!("{}: {words}", command.to_string_lossy()));
    let mut shell = Command::new("sh");
    shell.arg("-c").arg(command).args(["sh", which.name(), &hex(&signed.root), &hex(&signed.signature), &signed.chunk.to_string()]);
    let mut child = shell.stdin(Stdio::piped()).stdout(Stdio::null()).spawn().map_err(|error| failed(said(&error)))?;
    // A command that takes the words alone needs not read.
    let _ = child.stdin.take().expect("a pipe").write_all(&[&signed.root[..], &signed.signature[..]].concat());
    let status = child.wait().map_err(|error| failed(said(&error)))?;
    match status.code() {
        Some(code) if NOT_STARTED.contains(&code) => Err(failed(format!("ended with {status}: it can't be run, and nothing is known"))),
        code => Ok(code == Some(0)),
    }
}
