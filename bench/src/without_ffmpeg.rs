//! Stands in for beside.rs where libavcodec is not installed: FFmpeg takes no part.

use std::rc::Rc;

use crate::contest::Contestant;
use crate::readers::Reading;
use crate::story::Story;

pub fn version() -> Option<String> {
    None
}

pub fn reader(_: &Rc<Reading>) -> Option<Box<dyn Contestant>> {
    None
}

pub fn writer(_: &Rc<Story>) -> Option<Box<dyn Contestant>> {
    None
}
