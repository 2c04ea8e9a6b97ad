//! What was searched when nothing was found.

use std::fmt;

/// A run is counted by its steps of rules with variables; any number of steps
/// of rules without variables may stand before, between and after them.
#[derive(Clone, Debug, Default, PartialEq, Eq)]
pub struct Bound {
    /// All runs with up to so many steps of rules with variables were searched;
    /// none if not even those without any were searched to the end.
    pub steps: Option<usize>,
    /// No longer run reaches anything new: runs of any length were searched.
    pub whole: bool,
    /// The runs with one such step more were begun, and the work allowed for a
    /// search ended before they were through.
    pub begun: bool,
    /// Runs with a message of more symbols than this were left out; none if
    /// no such run was met.
    pub left_out_above: Option<usize>,
}

impl fmt::Display for Bound {
    fn fmt(&self, f: &mut fmt::Formatter<'_>) -> fmt::Result {
        write!(f, "{}", self.searched())?;
        if self.begun {
            write!(f, "; {} and not ended", self.next())?;
        }
        if let Some(symbols) = self.left_out_above {
            write!(f, "; left out were runs with a message of more than ")?;
            write!(f, "{symbols} symbols")?;
        }
        Ok(())
    }
}

impl Bound {
    fn searched(&self) -> String {
        match self.steps {
            _ if self.whole => "no run of any length derives a listed secret".to_string(),
            None => "no kind of run was searched to its end".to_string(),
            Some(0) => "no run of rules without variables derives a listed secret".to_string(),
            Some(steps) => format!(
                "no run with at most {} of rules with variables, and any number of steps of rules \
                 without variables between them, derives a listed secret",
                counted(steps)
            ),
        }
    }

    fn next(&self) -> String {
        match self.steps {
            None => "runs of rules without variables were begun".to_string(),
            Some(steps) => format!("runs with {} were begun", counted(steps + 1)),
        }
    }
}

fn counted(steps: usize) -> String {
    match steps {
        1 => "1 step".to_string(),
        _ => format!("{steps} steps"),
    }
}
