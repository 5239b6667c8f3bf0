//! How a command ends that does not answer.

use crate::names::shown;
use std::io::ErrorKind;
use std::process::ExitCode;

/// The exit statuses beside 0, which says that the command answered.
const REFUSED: u8 = 1;
const WRONG_USAGE: u8 = 2;

/// Why a command ends without an answer.
#[derive(Debug)]
pub enum Failure {
    /// What was handed in is refused; the lines say why, each with its file.
    Refused(String),
    /// The command line cannot be understood.
    Usage {
        /// Why not.
        message: String,
        /// The command whose help is to be read.
        command: String,
    },
    /// Nobody reads the output any more.
    NoReader,
}

impl Failure {
    /// A command line that cannot be understood.
    pub fn usage(message: impl Into<String>, command: impl Into<String>) -> Self {
        Self::Usage { message: message.into(), command: command.into() }
    }

    /// A file that cannot be read or written.
    pub fn file(name: &str, error: &std::io::Error) -> Self {
        match error.kind() {
            ErrorKind::BrokenPipe => Self::NoReader,
            _ => Self::Refused(format!("{}: {error}", shown(name))),
        }
    }

    /// Why, in words.
    pub fn message(&self) -> &str {
        match self {
            Self::Refused(message) | Self::Usage { message, .. } => message,
            Self::NoReader => "nobody reads the output any more",
        }
    }

    /// Says on standard error what went wrong, and answers the exit status.
    pub fn report(&self) -> ExitCode {
        match self {
            Self::Refused(message) => {
                eprintln!("{}", shown(message));
                ExitCode::from(REFUSED)
            }
            Self::Usage { message, command } => {
                eprintln!("{command}: {}\ntry `{command} --help`", shown(message));
                ExitCode::from(WRONG_USAGE)
            }
            Self::NoReader => ExitCode::SUCCESS,
        }
    }
}

impl From<spireyerba::Error> for Failure {
    fn from(error: spireyerba::Error) -> Self {
        Self::Refused(error.to_string())
    }
}
