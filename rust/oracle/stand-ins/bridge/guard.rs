// Stand-in: guards stand around data structures, which are no part of the text.

use crate::bridge::out::OutFile;
use crate::syntax::Pair;
use std::fmt::{self, Display};

pub(crate) struct Guard;

impl Guard {
    pub(crate) fn new(_out: &mut OutFile, _prefix: &'static str, _name: &Pair) -> Self {
        unreachable!("no data structure is written")
    }
}

impl Display for Guard {
    fn fmt(&self, _formatter: &mut fmt::Formatter) -> fmt::Result {
        Ok(())
    }
}
