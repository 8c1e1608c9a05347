//! Shim of smallvec: inline up to N, then a Vec. Only Copy items (all that the parser stores).
use std::mem::MaybeUninit;
pub unsafe trait Array {
    type Item: Copy;
    const N: usize;
    type Buf;
    fn uninit() -> Self::Buf;
    fn ptr(b: &Self::Buf) -> *const Self::Item;
    fn ptr_mut(b: &mut Self::Buf) -> *mut Self::Item;
}
unsafe impl<T: Copy, const N: usize> Array for [T; N] {
    type Item = T;
    const N: usize = N;
    type Buf = [MaybeUninit<T>; N];
    fn uninit() -> Self::Buf {
        [const { MaybeUninit::uninit() }; N]
    }
    #[inline]
    fn ptr(b: &Self::Buf) -> *const T {
        b.as_ptr() as *const T
    }
    #[inline]
    fn ptr_mut(b: &mut Self::Buf) -> *mut T {
        b.as_mut_ptr() as *mut T
    }
}
enum Data<A: Array> {
    Inline(A::Buf, usize),
    Heap(Vec<A::Item>),
}
pub struct SmallVec<A: Array>(Data<A>);
impl<A: Array> SmallVec<A> {
    #[inline]
    pub fn new() -> Self {
        SmallVec(Data::Inline(A::uninit(), 0))
    }
    #[inline]
    pub fn as_slice(&self) -> &[A::Item] {
        match &self.0 {
            Data::Inline(b, n) => unsafe { std::slice::from_raw_parts(A::ptr(b), *n) },
            Data::Heap(v) => v.as_slice(),
        }
    }
    #[inline]
    pub fn push(&mut self, x: A::Item) {
        match &mut self.0 {
            Data::Inline(b, n) if *n < A::N => {
                unsafe { A::ptr_mut(b).add(*n).write(x) };
                *n += 1;
            }
            Data::Heap(v) => v.push(x),
            Data::Inline(..) => {
                let mut v = Vec::with_capacity(A::N * 2);
                v.extend_from_slice(self.as_slice());
                v.push(x);
                self.0 = Data::Heap(v);
            }
        }
    }
    #[inline]
    pub fn clear(&mut self) {
        match &mut self.0 {
            Data::Inline(_, n) => *n = 0,
            Data::Heap(v) => v.clear(),
        }
    }
}
impl<A: Array> Default for SmallVec<A> {
    fn default() -> Self {
        Self::new()
    }
}
impl<A: Array> std::ops::Deref for SmallVec<A> {
    type Target = [A::Item];
    #[inline]
    fn deref(&self) -> &[A::Item] {
        self.as_slice()
    }
}
impl<A: Array> Extend<A::Item> for SmallVec<A> {
    #[inline]
    fn extend<I: IntoIterator<Item = A::Item>>(&mut self, it: I) {
        for x in it {
            self.push(x)
        }
    }
}
impl<A: Array> From<Vec<A::Item>> for SmallVec<A> {
    fn from(v: Vec<A::Item>) -> Self {
        SmallVec(Data::Heap(v))
    }
}
impl<A: Array> std::fmt::Debug for SmallVec<A>
where
    A::Item: std::fmt::Debug,
{
    fn fmt(&self, f: &mut std::fmt::Formatter<'_>) -> std::fmt::Result {
        self.as_slice().fmt(f)
    }
}
impl<A: Array> IntoIterator for SmallVec<A> {
    type Item = A::Item;
    type IntoIter = std::vec::IntoIter<A::Item>;
    fn into_iter(self) -> Self::IntoIter {
        match self.0 {
            Data::Heap(v) => v.into_iter(),
            _ => self.as_slice().to_vec().into_iter(),
        }
    }
}
