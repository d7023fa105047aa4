//! Scripts. Each call of the library is as `calls` says.

use crate::calls::{done, written};
use crate::raw::{self, Handle};
use crate::{Refused, Rules};

/// A script that is given line by line, in the language of `numaplan run`.
#[derive(Debug)]
#[must_use]
pub struct Script(Handle);

// SAFETY: as for a core.
unsafe impl Send for Script {}

impl Script {
    /// A script before its first line, where the rules of the documents count unless a line gives
    /// others.
    ///
    /// # Errors
    /// `NO_MEMORY`.
    pub fn open() -> Result<Script, Refused> {
        Script::open_by(Rules::Document)
    }

    /// The same with these rules, unless a line gives others.
    ///
    /// # Errors
    /// `NO_MEMORY`.
    pub fn open_by(rules: Rules) -> Result<Script, Refused> {
        let mut script = Script(Handle::closed());
        done(unsafe { raw::np_script_open_by(&mut script.0, rules.number()) })?;
        Ok(script)
    }

    /// The answers to a whole script, as `numaplan run` prints them.
    ///
    /// # Errors
    /// `NO_MEMORY`.
    pub fn run(script: &str) -> Result<String, Refused> {
        written(65_536, |answers, length| unsafe {
            raw::np_script_run(
                script.as_ptr(),
                script.len(),
                answers.as_mut_ptr(),
                answers.len(),
                length,
            )
        })
    }

    /// Serves a line, which comes without its line feed, and gives its answer, which has one. What is
    /// faulty or refused stands in the answer.
    ///
    /// # Errors
    /// `NO_MEMORY`: nothing has changed; `ANSWER_LOST`: the line was served.
    pub fn line(&mut self, line: &str) -> Result<Vec<u8>, Refused> {
        let mut needed = 0;
        done(unsafe {
            raw::np_script_line(&mut self.0, line.as_ptr(), line.len(), &mut needed)
        })?;
        let mut answer = vec![0; needed];
        done(unsafe {
            raw::np_script_answer(&mut self.0, answer.as_mut_ptr(), needed, &mut needed)
        })?;
        Ok(answer)
    }
}

impl Drop for Script {
    fn drop(&mut self) {
        unsafe { raw::np_script_close(&mut self.0) }
    }
}
