//! A panic within quinn that nothing keeps away ends the process, since its locks are poisoned. So the host serves in a child, and another takes its place
//! at once: on the same socket, which is never closed, so that what comes meanwhile waits in it.

#![allow(unsafe_code)]

use std::env;
use std::error::Error;
use std::net::UdpSocket;
use std::os::fd::{AsFd, OwnedFd};
use std::process::{ExitCode, Stdio};
use tokio::process::{Child, Command};
use tokio::signal::unix::{signal, SignalKind};

pub const SERVE: &str = "--serve"; // the child's first word: its standard input is the socket

extern "C" {
    fn kill(process: i32, signal: i32) -> i32;
}

fn pass_on(child: &Child, signal: SignalKind) {
    if let Some(process) = child.id().and_then(|id| i32::try_from(id).ok()) {
        // SAFETY: it has no conditions; the child was not waited for yet, so the number is its own.
        unsafe { kill(process, signal.as_raw_value()) };
    }
}

/// Children, one after another, until one ends by itself: stopped, or with a fault of its own to tell of.
pub async fn supervise(socket: UdpSocket, words: &[String]) -> Result<ExitCode, Box<dyn Error>> {
    let mut terminated = signal(SignalKind::terminate())?;
    loop {
        let lent: OwnedFd = socket.as_fd().try_clone_to_owned()?;
        let mut child =
            Command::new(env::current_exe()?).arg(SERVE).args(words).stdin(Stdio::from(lent)).spawn()?;
        let ended = loop {
            tokio::select! {
                ended = child.wait() => break ended?,
                _ = terminated.recv() => pass_on(&child, SignalKind::terminate()),
            }
        };
        match ended.code() {
            Some(0) => return Ok(ExitCode::SUCCESS),
            Some(code) if code != i32::from(PANICKED) => return Ok(ExitCode::FAILURE),
            _ => println!("ended by {ended}: served again"),
        }
    }
}

const PANICKED: u8 = 101; // the status of a program whose main thread panicked
