//! Shim of drop_bomb: panics on drop unless defused (or already panicking).
use std::borrow::Cow;
pub struct DropBomb {
    msg: Cow<'static, str>,
    defused: bool,
}
impl DropBomb {
    pub fn new(m: impl Into<Cow<'static, str>>) -> Self {
        DropBomb { msg: m.into(), defused: false }
    }
    pub fn defuse(&mut self) {
        self.defused = true
    }
}
impl Drop for DropBomb {
    fn drop(&mut self) {
        if !self.defused && !std::thread::panicking() {
            panic!("{}", self.msg)
        }
    }
}
