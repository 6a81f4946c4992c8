//! The command line of the comparison.

use crate::second::fault::Fault;

/// The seed of a run that names none.
pub const SEED: u64 = 65_146_625;

/// Random cases of a run that names no number.
pub const CASES: u64 = 2_500_000;

#[derive(Clone, Debug)]
pub struct Options {
    pub seed: u64,
    pub cases: u64,
    pub fault: Option<Fault>,
    pub list_faults: bool,
    pub every_fault: bool,
    pub listing: Option<String>,
    pub outside: bool,
}

impl Options {
    fn new() -> Self {
        Options {
            seed: SEED,
            cases: CASES,
            fault: None,
            list_faults: false,
            every_fault: false,
            listing: None,
            outside: false,
        }
    }

    pub fn parse(mut arguments: impl Iterator<Item = String>) -> Result<Options, String> {
        let mut options = Options::new();
        while let Some(argument) = arguments.next() {
            let mut value = || arguments.next().ok_or(format!("{argument} needs a value"));
            match argument.as_str() {
                "--seed" => options.seed = number(&value()?)?,
                "--cases" => options.cases = number(&value()?)?,
                "--fault" => options.fault = Some(fault(&value()?)?),
                "--list-faults" => options.list_faults = true,
                "--every-fault" => options.every_fault = true,
                "--listing" => options.listing = Some(value()?),
                "--outside" => options.outside = true,
                _ => return Err(format!("unknown argument {argument}")),
            }
        }
        Ok(options)
    }
}

fn number(text: &str) -> Result<u64, String> {
    text.parse().map_err(|_| format!("{text} is not a number"))
}

fn fault(name: &str) -> Result<Fault, String> {
    Fault::named(name).ok_or(format!("unknown fault {name}; see --list-faults"))
}
