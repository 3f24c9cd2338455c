//! Contexts without effects, and the short form of values for messages.

use std::fmt::{Debug, Display, Formatter};
use std::rc::Rc;

use tracing::Span;
use tycho_network::PeerId;

use crate::engine::MempoolConfig;
use crate::models::PointId;

#[derive(thiserror::Error, Debug, Copy, Clone)]
#[error("task is cancelled")]
pub struct Cancelled();
pub type TaskResult<R> = Result<R, Cancelled>;

pub trait Ctx {
    fn span(&self) -> &Span;
    fn conf(&self) -> &MempoolConfig;
}

#[derive(Clone)]
pub struct ValidateCtx {
    span: Span,
    conf: Rc<MempoolConfig>,
}

impl ValidateCtx {
    pub fn new(conf: Rc<MempoolConfig>) -> Self {
        Self { span: Span::none(), conf }
    }
}

impl Ctx for ValidateCtx {
    fn span(&self) -> &Span {
        &self.span
    }
    fn conf(&self) -> &MempoolConfig {
        &self.conf
    }
}

pub struct AltFmt<'a, T: ?Sized>(&'a T);

pub trait AltFormat {
    fn alt(&self) -> AltFmt<'_, Self> {
        AltFmt(self)
    }
    fn unpack<'a>(fmt: &AltFmt<'a, Self>) -> &'a Self {
        fmt.0
    }
}

impl AltFormat for PeerId {}
impl Display for AltFmt<'_, PeerId> {
    fn fmt(&self, f: &mut Formatter<'_>) -> std::fmt::Result {
        self.0.0.iter().take(4).try_for_each(|byte| write!(f, "{byte:02x}"))
    }
}

impl AltFormat for [PeerId] {}
impl Display for AltFmt<'_, [PeerId]> {
    fn fmt(&self, f: &mut Formatter<'_>) -> std::fmt::Result {
        f.debug_list().entries(self.0).finish()
    }
}

impl AltFormat for PointId {}
impl Debug for AltFmt<'_, PointId> {
    fn fmt(&self, f: &mut Formatter<'_>) -> std::fmt::Result {
        write!(f, "{} @ {} # {:.4}", self.0.author.alt(), self.0.round.0, self.0.digest)
    }
}
