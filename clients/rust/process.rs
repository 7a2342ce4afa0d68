//! Processes that are children of this one. If they report too, each is started and joined as a thread is.

use crate::journal::Site;
use crate::traced;
use std::io;
use std::ops::{Deref, DerefMut};
use std::panic::Location;
use std::process::{self, Command, ExitStatus, Output, Stdio};

/// A child process. Whoever waits for it comes after its end.
#[derive(Debug)]
pub struct Child {
    child: process::Child,
    task: Option<String>,
}

/// Starts a process, as [`Command::spawn`] does. What this thread did before comes before all that the process does.
///
/// # Errors
///
/// If the process cannot be started.
#[track_caller]
pub fn spawn(command: &mut Command) -> io::Result<Child> {
    let site = Some(Location::caller());
    let task = traced::begin_child(command, site);
    Ok(Child { child: command.spawn()?, task })
}

/// Starts a process and waits for it, as [`Command::status`] does.
///
/// # Errors
///
/// If the process cannot be started.
#[track_caller]
pub fn status(command: &mut Command) -> io::Result<ExitStatus> {
    spawn(command)?.wait()
}

/// Starts a process, waits for it and gives what it has written, as [`Command::output`] does.
///
/// # Errors
///
/// If the process cannot be started.
#[track_caller]
pub fn output(command: &mut Command) -> io::Result<Output> {
    spawn(command.stdout(Stdio::piped()).stderr(Stdio::piped()))?.wait_with_output()
}

impl Child {
    /// Waits for its end.
    ///
    /// # Errors
    ///
    /// If the system cannot wait for it.
    #[track_caller]
    pub fn wait(&mut self) -> io::Result<ExitStatus> {
        let status = self.child.wait()?;
        self.is_over(Some(Location::caller()));
        Ok(status)
    }

    /// How it has ended, if it has.
    ///
    /// # Errors
    ///
    /// If the system cannot tell.
    #[track_caller]
    pub fn try_wait(&mut self) -> io::Result<Option<ExitStatus>> {
        let status = self.child.try_wait()?;
        if status.is_some() {
            self.is_over(Some(Location::caller()));
        }
        Ok(status)
    }

    /// Waits for its end, and gives what it has written.
    ///
    /// # Errors
    ///
    /// If it cannot be read.
    #[track_caller]
    pub fn wait_with_output(mut self) -> io::Result<Output> {
        let task = self.task.take();
        let output = self.child.wait_with_output()?;
        traced::join_process(task, Some(Location::caller()));
        Ok(output)
    }

    fn is_over(&mut self, site: Site) {
        traced::join_process(self.task.take(), site);
    }
}

impl Deref for Child {
    type Target = process::Child;

    fn deref(&self) -> &process::Child {
        &self.child
    }
}

impl DerefMut for Child {
    fn deref_mut(&mut self) -> &mut process::Child {
        &mut self.child
    }
}
