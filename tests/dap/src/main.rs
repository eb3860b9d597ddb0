//! Serves the debug adapter protocol on standard input and output, in the toolchain's trial build. With a word it reads the file of
//! this name first: whoever copies the program while it runs lets it wait at a fifo.
#![tactic(auto)]

use dap::{Sources, serve};
use std::alloc::{AllocError, Global};
use std::io;
use std::io::ErrorKind;
use std::process::ExitCode;
use std::{env, fs};

/// The files of the system.
#[derive(Drop)]
struct Disk<'a, R> {
    rt: &'a R,
}

impl<R: fs::Files + AllocGlobal> Sources for Disk<'_, R> {
    // No contract says what the system's files hold.
    ghost reads = { λ _ _ _. Unit {0} };

    fn read(&self, _alloc: Global, name: &str) -> Result<Option<Vec<u8>>, AllocError> {
        match fs::read(self.rt, name) {
            Ok(bytes) => Ok(Some(bytes)),
            Err(error) if error.kind() == ErrorKind::OutOfMemory => Err(AllocError),
            Err(_) => Ok(None),
        }
    }
}

/// Reads the file that the first word names, if there is one.
fn wait(rt: &HostRuntime) -> io::Result<()> {
    if let Some(name) = env::args(rt)?.nth(1) {
        drop(fs::read(rt, name.as_str())?);
    }
    Ok(())
}

fn main(rt: HostRuntime) -> ExitCode {
    if wait(&rt).is_err() {
        let _ = eprintln!(rt; "balsadbg: refused 1");
        return ExitCode::from(1);
    }
    let mut reader = rt.stdin();
    let mut writer = rt.stdout();
    let files = Disk { rt: &rt };
    match serve(rt.alloc(), &mut reader, &mut writer, &files) {
        Ok(()) => ExitCode::from(0),
        Err(fault) => {
            let number = fault.number();
            let _ = eprintln!(rt; "balsadbg: refused {number}");
            ExitCode::from(1)
        }
    }
}
