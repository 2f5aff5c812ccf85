//! Tables and vectors laid down, from the end of the buffer to its front.
use crate::scalar::emplace_scalar;
use crate::table::{ForwardsUOffset, VTable, Vector};
use crate::{SOffsetT, UOffsetT, VOffsetT, FLATBUFFERS_MAX_BUFFER_SIZE, SIZE_UOFFSET, SIZE_VOFFSET};
use std::marker::PhantomData;
use std::mem::size_of;

pub trait Push: Sized {
    type Output;
    unsafe fn push(&self, dst: &mut [u8], written_len: usize);
    fn size() -> usize {
        size_of::<Self::Output>()
    }
    fn alignment() -> usize {
        Self::size()
    }
}
macro_rules! push_scalar { ($($t:ident)*) => {$(
    impl Push for $t {
        type Output = $t;
        #[inline] unsafe fn push(&self, dst: &mut [u8], _w: usize) { emplace_scalar::<$t>(dst, *self) }
    })*}
}
push_scalar!(u8 i8 u16 i16 u32 i32 u64 i64 f64 bool);

#[derive(Debug)]
pub struct WIPOffset<T>(UOffsetT, PhantomData<T>);
impl<T> Copy for WIPOffset<T> {}
impl<T> Clone for WIPOffset<T> {
    fn clone(&self) -> Self {
        *self
    }
}
impl<T> PartialEq for WIPOffset<T> {
    fn eq(&self, o: &Self) -> bool {
        self.0 == o.0
    }
}
impl<T> WIPOffset<T> {
    #[inline]
    pub fn new(o: UOffsetT) -> Self {
        WIPOffset(o, PhantomData)
    }
    #[inline]
    pub fn value(self) -> UOffsetT {
        self.0
    }
}
impl<T> Push for WIPOffset<T> {
    type Output = ForwardsUOffset<T>;
    #[inline(always)]
    unsafe fn push(&self, dst: &mut [u8], written_len: usize) {
        let n = (SIZE_UOFFSET + written_len - self.value() as usize) as UOffsetT;
        emplace_scalar::<UOffsetT>(dst, n);
    }
    fn size() -> usize {
        SIZE_UOFFSET
    }
}
pub struct TableUnfinishedWIPOffset {}
pub struct TableFinishedWIPOffset {}

/// Memory for the builder, filled from its end.
pub unsafe trait Allocator: std::ops::DerefMut<Target = [u8]> {
    fn grow_downwards(&mut self);
    fn len(&self) -> usize {
        (**self).len()
    }
}
#[derive(Default)]
pub struct DefaultAllocator(Vec<u8>);
impl std::ops::Deref for DefaultAllocator {
    type Target = [u8];
    fn deref(&self) -> &[u8] {
        &self.0
    }
}
impl std::ops::DerefMut for DefaultAllocator {
    fn deref_mut(&mut self) -> &mut [u8] {
        &mut self.0
    }
}
unsafe impl Allocator for DefaultAllocator {
    fn grow_downwards(&mut self) {
        let old = self.0.len();
        let new = std::cmp::max(1, old * 2);
        self.0.resize(new, 0);
        if new == 1 {
            return;
        }
        let mid = new / 2;
        let (l, r) = self.0.split_at_mut(mid);
        r.copy_from_slice(l);
        l.fill(0);
    }
}
#[derive(Clone, Copy)]
struct FieldLoc {
    off: UOffsetT,
    id: VOffsetT,
}

pub struct FlatBufferBuilder<'fbb, A: Allocator + 'fbb = DefaultAllocator> {
    allocator: A,
    used: usize, // bytes from the end
    field_locs: Vec<FieldLoc>,
    written_vtable_revpos: Vec<UOffsetT>,
    nested: bool,
    finished: bool,
    min_align: usize,
    _p: PhantomData<&'fbb ()>,
}
impl<'fbb> FlatBufferBuilder<'fbb, DefaultAllocator> {
    #[allow(clippy::new_without_default)]
    pub fn new() -> Self {
        FlatBufferBuilder {
            allocator: DefaultAllocator::default(),
            used: 0,
            field_locs: Vec::new(),
            written_vtable_revpos: Vec::new(),
            nested: false,
            finished: false,
            min_align: 0,
            _p: PhantomData,
        }
    }
}
impl<'fbb, A: Allocator + 'fbb> FlatBufferBuilder<'fbb, A> {
    #[inline]
    fn head(&self) -> usize {
        self.allocator.len() - self.used
    }
    fn ensure_capacity(&mut self, want: usize) {
        if self.head() >= want {
            return;
        }
        assert!(want <= FLATBUFFERS_MAX_BUFFER_SIZE, "cannot grow buffer beyond 2 gigabytes");
        while self.head() < want {
            self.allocator.grow_downwards();
        }
    }
    #[inline]
    fn align(&mut self, len: usize, alignment: usize) {
        self.min_align = self.min_align.max(alignment);
        let pad = (!(self.used + len)).wrapping_add(1) & (alignment - 1);
        self.ensure_capacity(pad);
        self.used += pad;
    }
    #[inline]
    pub fn push<P: Push>(&mut self, x: P) -> WIPOffset<P::Output> {
        let sz = P::size();
        self.align(sz, P::alignment());
        self.ensure_capacity(sz);
        self.used += sz;
        let h = self.head();
        let (dst, rest) = self.allocator[h..].split_at_mut(sz);
        unsafe { x.push(dst, rest.len()) };
        WIPOffset::new(self.used as UOffsetT)
    }
    #[inline]
    pub fn push_slot<X: Push + PartialEq>(&mut self, slot: VOffsetT, x: X, default: X) {
        assert!(self.nested, "push_slot outside a table");
        if x != default {
            self.push_slot_always(slot, x);
        }
    }
    #[inline]
    pub fn push_slot_always<X: Push>(&mut self, slot: VOffsetT, x: X) {
        assert!(self.nested, "push_slot_always outside a table");
        let off = self.push(x);
        self.field_locs.push(FieldLoc { off: off.value(), id: slot });
    }
    pub fn start_table(&mut self) -> WIPOffset<TableUnfinishedWIPOffset> {
        assert!(!self.nested, "start_table inside a table");
        self.nested = true;
        WIPOffset::new(self.used as UOffsetT)
    }
    pub fn end_table(&mut self, start: WIPOffset<TableUnfinishedWIPOffset>) -> WIPOffset<TableFinishedWIPOffset> {
        assert!(self.nested, "end_table outside a table");
        let o = self.write_vtable(start);
        self.nested = false;
        self.field_locs.clear();
        WIPOffset::new(o)
    }
    fn write_vtable(&mut self, start: WIPOffset<TableUnfinishedWIPOffset>) -> UOffsetT {
        let obj = self.push::<UOffsetT>(0xF0F0_F0F0).value();
        let vtable_len = match self.field_locs.iter().map(|f| f.id).max() {
            None => 4,
            Some(m) => m as usize + SIZE_VOFFSET,
        };
        self.ensure_capacity(vtable_len);
        let size = obj - start.value();
        let (s, e) = (self.head() - vtable_len, self.head());
        let vt = &mut self.allocator[s..e];
        vt.fill(0);
        vt[0..2].copy_from_slice(&(vtable_len as u16).to_le_bytes());
        vt[2..4].copy_from_slice(&(size as u16).to_le_bytes());
        for f in &self.field_locs {
            let p = (obj - f.off) as u16;
            vt[f.id as usize..f.id as usize + 2].copy_from_slice(&p.to_le_bytes());
        }
        let total = self.allocator.len();
        let new = &self.allocator[s..e];
        let found = self.written_vtable_revpos.binary_search_by(|r| {
            let old = unsafe { VTable::init(&self.allocator, total - *r as usize) };
            new.cmp(old.as_bytes())
        });
        let revpos = match found {
            Ok(i) => {
                self.allocator[s..e].fill(0);
                self.written_vtable_revpos[i]
            }
            Err(i) => {
                self.used += vtable_len;
                let r = self.used as UOffsetT;
                self.written_vtable_revpos.insert(i, r);
                r
            }
        };
        let tp = self.allocator.len() - obj as usize;
        let so = revpos as SOffsetT - obj as SOffsetT;
        self.allocator[tp..tp + 4].copy_from_slice(&so.to_le_bytes());
        obj
    }
    #[inline]
    pub fn create_vector<'a: 'b, 'b, T: Push + 'b>(&'a mut self, items: &'b [T]) -> WIPOffset<Vector<'fbb, T::Output>> {
        let sz = T::size();
        let bytes = items.len() * sz;
        self.align(bytes, T::alignment().max(SIZE_UOFFSET));
        self.ensure_capacity(bytes + SIZE_UOFFSET);
        self.used += bytes;
        let mut written = self.used;
        let h = self.head();
        let buf = &mut self.allocator[h..h + bytes];
        for (item, out) in items.iter().zip(buf.chunks_exact_mut(sz)) {
            written -= sz;
            unsafe { item.push(out, written) };
        }
        WIPOffset::new(self.push::<UOffsetT>(items.len() as UOffsetT).value())
    }
    pub fn create_vector_from_iter<T: Push + Copy>(
        &mut self,
        items: impl ExactSizeIterator<Item = T> + DoubleEndedIterator,
    ) -> WIPOffset<Vector<'fbb, T::Output>> {
        let sz = T::size();
        self.align(items.len() * sz, T::alignment().max(SIZE_UOFFSET));
        let mut n = 0;
        for item in items.rev() {
            self.push(item);
            n += 1;
        }
        WIPOffset::new(self.push::<UOffsetT>(n).value())
    }
    pub fn create_string<'a: 'b, 'b>(&'a mut self, s: &'b str) -> WIPOffset<&'fbb str> {
        self.align(s.len() + 1, SIZE_UOFFSET);
        self.push(0u8);
        self.ensure_capacity(s.len());
        self.used += s.len();
        let h = self.head();
        self.allocator[h..h + s.len()].copy_from_slice(s.as_bytes());
        WIPOffset::new(self.push::<UOffsetT>(s.len() as UOffsetT).value())
    }
    fn finish_with_opts<T>(&mut self, root: WIPOffset<T>, id: Option<&str>, prefix: bool) {
        assert!(!self.finished && !self.nested && id.is_none());
        let extra = SIZE_UOFFSET + if prefix { SIZE_UOFFSET } else { 0 };
        self.align(extra, self.min_align.max(SIZE_UOFFSET));
        self.push(root);
        if prefix {
            let n = self.used as UOffsetT;
            self.push::<UOffsetT>(n);
        }
        self.finished = true;
    }
    pub fn finish<T>(&mut self, root: WIPOffset<T>, id: Option<&str>) {
        self.finish_with_opts(root, id, false)
    }
    pub fn finish_size_prefixed<T>(&mut self, root: WIPOffset<T>, id: Option<&str>) {
        self.finish_with_opts(root, id, true)
    }
    pub fn finished_data(&self) -> &[u8] {
        assert!(self.finished);
        &self.allocator[self.head()..]
    }
    pub fn reset(&mut self) {
        let h = self.head();
        self.allocator[h..].fill(0);
        self.used = 0;
        self.written_vtable_revpos.clear();
        self.nested = false;
        self.finished = false;
        self.min_align = 0;
        self.field_locs.clear();
    }
}
