//! The files that a run leaves: the order taken, the step log, the plot and the report.

use crate::files::shown;
use crate::options::{Kept, Options, Order};
use crate::orderfile::text_of_order;
use crate::told::{Outcome, Told};
use crate::version::version;
use crate::written::Begun;
use crate::{log, plot, report};
use std::ffi::OsStr;
use std::path::Path;

/// Why a file that was wanted is not there, or is as it was before.
#[derive(Clone, Debug, PartialEq, Eq)]
pub enum Unwritten {
    /// Nothing was judged that it could tell of: no fault besides the one that the answer has.
    Untold(String),
    /// It could not be written.
    Failed(String),
}

/// Those that are wanted, begun.
#[derive(Debug)]
pub struct Outputs {
    order: Option<Begun>,
    log: Option<Begun>,
    plot: Option<Begun>,
    report: Option<Begun>,
}

impl Outputs {
    /// Begins all that is wanted.
    pub fn begun(options: &Options) -> Result<Outputs, String> {
        spare_what_is_read(options)?;
        let Kept {
            order,
            log,
            plot,
            report,
        } = &options.kept;
        let begin = |path: &Option<_>| path.as_deref().map(Begun::at).transpose();
        Ok(Outputs {
            order: begin(order)?,
            log: begin(log)?,
            plot: begin(plot)?,
            report: begin(report)?,
        })
    }

    /// Whether anything is to be written of what is told.
    pub fn are_wanted(&self) -> bool {
        let single = [&self.order, &self.log, &self.plot];
        self.report.is_some() || single.iter().any(|begun| begun.is_some())
    }

    /// Writes all that is wanted, and gives a message for each file that is not written. Where nothing was judged there is
    /// no order, no log and no plot; of a refusal there is a report.
    pub fn finished(self, all: &[Told]) -> Vec<Unwritten> {
        let judged = match all {
            [told] => order_taken(told).map(|order| (told, order)),
            _ => None,
        };
        let order = judged.map(|(_, order)| text_of_order(order));
        let log = judged.map(|(told, _)| log::log(told));
        let plot = judged.map(|(told, _)| plot::plot(told));
        let report = (!all.is_empty()).then(|| report::report(all, &version()));
        let pairs = [
            (self.order, order),
            (self.log, log),
            (self.plot, plot),
            (self.report, report),
        ];
        pairs.into_iter().filter_map(unwritten).collect()
    }
}

/// Writes one file, and gives the message if it is not written.
fn unwritten((begun, content): (Option<Begun>, Option<String>)) -> Option<Unwritten> {
    let begun = begun?;
    let Some(content) = content else {
        let name = begun.name();
        let message = format!("'{name}' is not written: nothing was judged");
        return Some(Unwritten::Untold(message));
    };
    let failed = begun.finish(content.as_bytes()).err();
    failed.map(Unwritten::Failed)
}

/// The order by which a file was judged.
fn order_taken(told: &Told) -> Option<&[u32]> {
    match &told.outcome {
        Outcome::Judged { taken, .. } => Some(&taken.order),
        Outcome::Refused { .. } => None,
    }
}

/// A file that is read must not be written over.
fn spare_what_is_read(options: &Options) -> Result<(), String> {
    let order = match &options.order {
        Order::File(name) => Some(name),
        _ => None,
    };
    for (option, path) in options.kept.named() {
        let same = |name: &&std::ffi::OsString| are_same_file(path, name);
        if let Some(name) = options.files.iter().chain(order).find(same) {
            let name = shown(name);
            return Err(format!(
                "{option} would write over '{name}', which is read: name another file"
            ));
        }
    }
    Ok(())
}

fn are_same_file(path: &Path, name: &OsStr) -> bool {
    let place = |path: &Path| path.canonicalize().ok().filter(|place| place.is_file());
    name != "-" && place(path).is_some() && place(path) == place(Path::new(name))
}
