//! Shim of smol_str: inline to 23 bytes, else Arc<str>.
use std::sync::Arc;
#[derive(Clone)]
enum Repr {
    Inline(u8, [u8; 23]),
    Heap(Arc<str>),
}
#[derive(Clone)]
pub struct SmolStr(Repr);
impl SmolStr {
    #[inline]
    pub fn new(s: impl AsRef<str>) -> Self {
        let s = s.as_ref();
        if s.len() <= 23 {
            let mut b = [0u8; 23];
            b[..s.len()].copy_from_slice(s.as_bytes());
            SmolStr(Repr::Inline(s.len() as u8, b))
        } else {
            SmolStr(Repr::Heap(Arc::from(s)))
        }
    }
    #[inline]
    pub fn as_str(&self) -> &str {
        match &self.0 {
            Repr::Inline(n, b) => unsafe { std::str::from_utf8_unchecked(&b[..*n as usize]) },
            Repr::Heap(a) => a,
        }
    }
    #[inline]
    pub fn len(&self) -> usize {
        self.as_str().len()
    }
}
impl std::ops::Deref for SmolStr {
    type Target = str;
    fn deref(&self) -> &str {
        self.as_str()
    }
}
impl PartialEq for SmolStr {
    fn eq(&self, o: &Self) -> bool {
        self.as_str() == o.as_str()
    }
}
impl Eq for SmolStr {}
impl std::hash::Hash for SmolStr {
    fn hash<H: std::hash::Hasher>(&self, h: &mut H) {
        self.as_str().hash(h)
    }
}
impl std::fmt::Debug for SmolStr {
    fn fmt(&self, f: &mut std::fmt::Formatter<'_>) -> std::fmt::Result {
        self.as_str().fmt(f)
    }
}
impl std::fmt::Display for SmolStr {
    fn fmt(&self, f: &mut std::fmt::Formatter<'_>) -> std::fmt::Result {
        self.as_str().fmt(f)
    }
}
