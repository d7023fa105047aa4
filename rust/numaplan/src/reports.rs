//! What the words of the program answer. Each call of the library is as `calls` says.

use std::error::Error;
use std::fmt;

use crate::calls::{done, text_of};
use crate::raw::{self, AskedReport, FreePages, ToldReport};
use crate::{Refused, Rules};

/// A script that is asked about, played to its end from a fresh start: its text, in the language of
/// `numaplan run`, lines to add to it, and the task that touches pages on a CPU of a node.
/// Begin with `Question::of(text)`.
///
/// ```
/// use numaplan::{Format, Question};
///
/// let host = "machine 2 0-1 0 flat\nmap 0x10000 0x4000 0x10\ntask 1 interleave:0-1\n";
/// let report = Question { lines: "mems 0", ..Question::of(host) }.diff(Format::Text)?;
/// assert_eq!(report.text.lines().last(), Some("total differs=2 N1->N0=2"));
/// let report = Question::of(host).predict(Format::Json, &[(0, 1)])?;
/// assert!(report.messages.is_empty());
/// # Ok::<(), numaplan::Unanswered>(())
/// ```
#[derive(Clone, Copy, Debug)]
#[must_use]
pub struct Question<'a> {
    pub script: &'a str,
    pub lines: &'a str,
    pub task: u32,
    pub node: u32,
    /// Whose rules count unless a line gives others.
    pub rules: Rules,
}

/// The format of an answer: lines, JSON, records with a header, a picture, or a page for a browser.
/// Each answer has some of them, as the word of the program has, and is text where it lacks the wanted
/// one.
#[derive(Clone, Copy, Debug, PartialEq, Eq)]
pub enum Format {
    Text,
    Json,
    Csv,
    Svg,
    Html,
}

impl Format {
    /// Its number, of enum np_format.
    pub(crate) fn number(self) -> u32 {
        match self {
            Format::Text => 0,
            Format::Json => 1,
            Format::Csv => 2,
            Format::Svg => 3,
            Format::Html => 4,
        }
    }
}

/// What was answered: the text that the word of the program prints, what is wrong with lines, which are
/// passed over, and whether some were malformed, refused or not judged.
#[derive(Clone, Debug, PartialEq, Eq)]
pub struct Report {
    pub text: String,
    pub messages: Vec<String>,
    pub is_faulty: bool,
}

/// Why there is no answer, and what is wrong with lines; the last message says which line of a trace
/// can't be replayed.
#[derive(Clone, Debug, PartialEq, Eq)]
pub struct Unanswered {
    pub cause: Refused,
    pub messages: Vec<String>,
}

impl fmt::Display for Unanswered {
    fn fmt(&self, f: &mut fmt::Formatter<'_>) -> fmt::Result {
        write!(f, "{}", self.cause)?;
        match self.messages.last() {
            Some(message) if self.cause == Refused::BAD_ACCESS => write!(f, ": {message}"),
            _ => Ok(()),
        }
    }
}

impl Error for Unanswered {}

impl<'a> Question<'a> {
    /// A question about this script, without lines to add, of task 1 on node 0, by the documents'
    /// rules.
    pub fn of(script: &'a str) -> Question<'a> {
        Question {
            script,
            lines: "",
            task: 1,
            node: 0,
            rules: Rules::Document,
        }
    }

    fn asked(&self, format: Format) -> AskedReport {
        AskedReport {
            task: self.task,
            cpu: self.node,
            rules: self.rules.number(),
            format: format.number(),
        }
    }

    /// What is wrong with the lines of the script alone, and what a running kernel would do otherwise
    /// with them: `numaplan check`.
    ///
    /// # Errors
    /// `NO_MEMORY`.
    pub fn check(&self, format: Format) -> Result<Report, Unanswered> {
        let asked = self.asked(format);
        told(|text, report| unsafe {
            raw::np_check(
                self.script.as_ptr(),
                self.script.len(),
                &asked,
                text.as_mut_ptr(),
                text.len(),
                report,
            )
        })
    }

    /// Where all mapped pages would go, where nodes (the first of each pair) have so many free pages;
    /// others never run out: `numaplan predict`.
    ///
    /// # Errors
    /// `NO_MEMORY`, `NO_MACHINE`, `NO_SUCH_NODE`, `BAD_CPU`.
    pub fn predict(&self, format: Format, free: &[(u8, u64)]) -> Result<Report, Unanswered> {
        let (asked, free) = (self.asked(format), free_pages(free));
        told(|text, report| unsafe {
            raw::np_predict(
                self.script.as_ptr(),
                self.script.len(),
                self.lines.as_ptr(),
                self.lines.len(),
                &asked,
                free.as_ptr(),
                free.len(),
                text.as_mut_ptr(),
                text.len(),
                report,
            )
        })
    }

    /// The same, but pages that are there are counted where they lie, and take no free page: as the
    /// script and the lines leave them, and then as lines `at START LENGTH NODE` of this text say:
    /// `numaplan predict --at`. There is no page for a browser, but text.
    ///
    /// ```
    /// use numaplan::{Format, Question};
    ///
    /// let host = "machine 2 0-1 0 flat\nmap 0x10000 0x4000 0x10\n"; // (of task 1 on node 0)
    /// let at = "at 0x10000 0x3000 1\n";
    /// let report = Question::of(host).predict_at(at, Format::Text, &[])?;
    /// assert_eq!(report.text.lines().last(), Some("total anon=4 N0=1 N1=3 kernelpagesize_kB=4"));
    /// let report = Question { lines: "mems 1", ..Question::of(host) }.moves_touched(Format::Text, &[])?;
    /// assert_eq!(report.text.lines().last(), Some("total placed=4 moved=4 N0->N1=4"));
    /// # Ok::<(), numaplan::Unanswered>(())
    /// ```
    ///
    /// # Errors
    /// As [`Question::predict`].
    pub fn predict_at(&self, at: &str, format: Format, free: &[(u8, u64)]) -> Result<Report, Unanswered> {
        let (asked, free) = (self.asked(format), free_pages(free));
        told(|text, report| unsafe {
            raw::np_predict_at(
                self.script.as_ptr(),
                self.script.len(),
                self.lines.as_ptr(),
                self.lines.len(),
                at.as_ptr(),
                at.len(),
                &asked,
                free.as_ptr(),
                free.len(),
                text.as_mut_ptr(),
                text.len(),
                report,
            )
        })
    }

    /// What becomes of pages that are there by each of the lines (`mems`, `migrate`, `cgroup-mems`,
    /// `attach`): `numaplan moves`. They lie as the script leaves them, and then as lines `at START
    /// LENGTH NODE` of this text say. Nodes take so many more pages, else as many as the script
    /// leaves.
    ///
    /// ```
    /// use numaplan::{Format, Question};
    ///
    /// let host = "machine 2 0-1 0 flat\nmap 0x10000 0x4000 0x10\nat 0x10000 0x3000 1\n";
    /// let report = Question { lines: "mems 0", ..Question::of(host) }.moves_at("", Format::Text, &[(0, 2)])?;
    /// assert_eq!(report.text, "00010000-00014000 placed=3 moved=2 N1->N0=2 noroom=1 N1=1\n\
    ///     total placed=3 moved=2 N1->N0=2 noroom=1 N1=1\nleft N0=0\n");
    /// # Ok::<(), numaplan::Unanswered>(())
    /// ```
    ///
    /// # Errors
    /// `NO_MEMORY`, `NO_MACHINE`, `NO_SUCH_NODE`; `MANY_PROCESSES` for a picture of a host.
    pub fn moves_at(&self, at: &str, format: Format, free: &[(u8, u64)]) -> Result<Report, Unanswered> {
        let (asked, free) = (self.asked(format), free_pages(free));
        told(|text, report| unsafe {
            raw::np_moves_at(
                self.script.as_ptr(),
                self.script.len(),
                self.lines.as_ptr(),
                self.lines.len(),
                at.as_ptr(),
                at.len(),
                &asked,
                free.as_ptr(),
                free.len(),
                text.as_mut_ptr(),
                text.len(),
                report,
            )
        })
    }

    /// The same of pages that lie where the task touched them on a CPU of the node, while every node had
    /// room: `numaplan moves --node`.
    ///
    /// # Errors
    /// As [`Question::moves_at`]; `BAD_CPU`.
    pub fn moves_touched(&self, format: Format, free: &[(u8, u64)]) -> Result<Report, Unanswered> {
        let (asked, free) = (self.asked(format), free_pages(free));
        told(|text, report| unsafe {
            raw::np_moves_touched(
                self.script.as_ptr(),
                self.script.len(),
                self.lines.as_ptr(),
                self.lines.len(),
                &asked,
                free.as_ptr(),
                free.len(),
                text.as_mut_ptr(),
                text.len(),
                report,
            )
        })
    }

    /// Which pages would go to another node after the lines than after the script alone:
    /// `numaplan diff`.
    ///
    /// # Errors
    /// `NO_MEMORY`, `NO_MACHINE`, `BAD_CPU`.
    pub fn diff(&self, format: Format) -> Result<Report, Unanswered> {
        let asked = self.asked(format);
        told(|text, report| unsafe {
            raw::np_diff(
                self.script.as_ptr(),
                self.script.len(),
                self.lines.as_ptr(),
                self.lines.len(),
                &asked,
                text.as_mut_ptr(),
                text.len(),
                report,
            )
        })
    }

    /// Why the page of a number (address / 4096) would go where it goes, and of one that is there
    /// where it lies and how it would come there: `numaplan explain`.
    ///
    /// # Errors
    /// `NO_MEMORY`, `NO_MACHINE`, `BAD_CPU`, `UNMAPPED`.
    pub fn explain(&self, page: u64, format: Format) -> Result<Report, Unanswered> {
        let asked = self.asked(format);
        told(|text, report| unsafe {
            raw::np_explain(
                self.script.as_ptr(),
                self.script.len(),
                self.lines.as_ptr(),
                self.lines.len(),
                &asked,
                page,
                text.as_mut_ptr(),
                text.len(),
                report,
            )
        })
    }

    /// The same, but lines `at START LENGTH NODE` of this text, in a host `in P at ..`, follow the
    /// script and the lines: `numaplan explain --at`.
    ///
    /// ```
    /// use numaplan::{Format, Question};
    ///
    /// let host = "machine 2 0-1 0 flat\nmap 0x10000 0x4000 0x10\n"; // (of task 1 on node 0)
    /// let report = Question::of(host).explain_at("at 0x10000 0x1000 1\n", 0x10, Format::Text)?;
    /// assert_eq!(report.text.lines().next(), Some("page 0x10000 is resident on node 1"));
    /// # Ok::<(), numaplan::Unanswered>(())
    /// ```
    ///
    /// # Errors
    /// As [`Question::explain`].
    pub fn explain_at(&self, at: &str, page: u64, format: Format) -> Result<Report, Unanswered> {
        let asked = self.asked(format);
        told(|text, report| unsafe {
            raw::np_explain_at(
                self.script.as_ptr(),
                self.script.len(),
                self.lines.as_ptr(),
                self.lines.len(),
                at.as_ptr(),
                at.len(),
                &asked,
                page,
                text.as_mut_ptr(),
                text.len(),
                report,
            )
        })
    }

    /// What a trace of accesses, `TASK ADDRESS CPU [COUNT]` or `mark TEXT` a line, meets where no
    /// page is placed, or beside the script's pages where no node has a frame: `numaplan replay`.
    ///
    /// # Errors
    /// `NO_MEMORY`, `NO_MACHINE`; `BAD_ACCESS`, of which the last message says why.
    pub fn replay(&self, trace: &str, format: Format) -> Result<Report, Unanswered> {
        let asked = self.asked(format);
        told(|text, report| unsafe {
            raw::np_replay(
                self.script.as_ptr(),
                self.script.len(),
                self.lines.as_ptr(),
                self.lines.len(),
                trace.as_ptr(),
                trace.len(),
                &asked,
                text.as_mut_ptr(),
                text.len(),
                report,
            )
        })
    }
}

/// Free pages of nodes as a call takes them.
fn free_pages(free: &[(u8, u64)]) -> Vec<FreePages> {
    free.iter().map(|&(node, pages)| FreePages { pages, node }).collect()
}

/// The report that a call writes into a room of bytes: at first of 64 KiB, then of what it needs.
pub(crate) fn told(mut call: impl FnMut(&mut [u8], &mut ToldReport) -> u32) -> Result<Report, Unanswered> {
    let (mut room, mut told) = (vec![0; 65_536], ToldReport::default());
    let mut answer = done(call(&mut room, &mut told));
    if answer == Err(Refused::NO_ROOM) {
        room.resize(told.answer + told.messages, 0);
        answer = done(call(&mut room, &mut told));
    }
    let (text, behind) = room[..told.answer + told.messages].split_at(told.answer);
    let messages = text_of(behind).lines().map(str::to_owned).collect();
    match answer {
        Ok(()) => Ok(Report {
            text: text_of(text),
            messages,
            is_faulty: told.faulty != 0,
        }),
        Err(cause) => Err(Unanswered { cause, messages }),
    }
}
