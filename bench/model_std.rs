// What the model of the programs takes for the libraries of the kit: the same calls, over Rust's own.
#![allow(warnings)]

pub mod prelude {
    pub use crate::string::String;
    pub use crate::vec::Vec;
    pub use crate::Box;
    pub use crate::HostRuntime;
    pub use crate::{CollectIn, ToVecIn};
}

pub trait CollectIn: Iterator + Sized {
    fn collect_in(self, _: alloc::Global) -> Result<vec::Vec<Self::Item>, alloc::AllocError> {
        Ok(vec::Vec(self.collect()))
    }
}

impl<I: Iterator> CollectIn for I {}

pub trait ToVecIn<T> {
    fn to_vec_in(&self, _: alloc::Global) -> Result<vec::Vec<T>, alloc::AllocError>;
}

impl<T: Clone> ToVecIn<T> for [T] {
    fn to_vec_in(&self, _: alloc::Global) -> Result<vec::Vec<T>, alloc::AllocError> {
        Ok(vec::Vec(self.iter().cloned().collect()))
    }
}

#[derive(Clone, Copy)]
pub struct HostRuntime;

impl HostRuntime {
    pub fn alloc(&self) -> alloc::Global {
        alloc::Global
    }
    pub fn stdin(&self) -> std::io::Stdin {
        std::io::stdin()
    }
    pub fn stderr(&self) -> std::io::Stderr {
        std::io::stderr()
    }
    pub fn stdout(&self) -> std::io::Stdout {
        std::io::stdout()
    }
}

pub struct Box<T: ?Sized>(std::boxed::Box<T>);

impl<T> Box<T> {
    pub fn new(_: alloc::Global, value: T) -> Result<Box<T>, alloc::AllocError> {
        Ok(Box(std::boxed::Box::new(value)))
    }
    pub fn into_inner(value: Box<T>) -> T {
        *value.0
    }
}

impl<T: ?Sized> std::ops::Deref for Box<T> {
    type Target = T;
    fn deref(&self) -> &T {
        &self.0
    }
}

impl<T: ?Sized> std::ops::DerefMut for Box<T> {
    fn deref_mut(&mut self) -> &mut T {
        &mut self.0
    }
}

pub mod alloc {
    #[derive(Clone, Copy, Debug, PartialEq, Eq, Default)]
    pub struct Global;
    #[derive(Clone, Copy, Debug, PartialEq, Eq)]
    pub struct AllocError;
    pub struct AllocFailed<T>(pub T);
    impl std::fmt::Display for AllocError {
        fn fmt(&self, f: &mut std::fmt::Formatter<'_>) -> std::fmt::Result {
            f.write_str("no memory")
        }
    }
    impl From<AllocError> for std::io::Error {
        fn from(_: AllocError) -> Self {
            std::io::ErrorKind::OutOfMemory.into()
        }
    }
}

pub mod marker {
    pub trait Model {}
}

pub mod cmp {
    pub use std::cmp::*;
}
pub mod mem {
    pub use std::mem::*;
}
pub mod fmt {
    pub use std::fmt::*;
}
pub mod hash {
    pub use std::hash::*;
}
pub mod process {
    pub use std::process::*;
}
pub mod iter {
    pub use std::iter::*;
}
pub mod ops {
    pub use std::ops::*;
}
pub mod slice {
    pub use std::slice::*;
}
pub mod num {
    pub use std::num::*;
}
pub mod str {
    pub use std::str::*;
}

pub mod env {
    pub fn args(_: &crate::HostRuntime) -> std::io::Result<std::vec::IntoIter<crate::string::String>> {
        Ok(std::env::args().map(crate::string::String).collect::<std::vec::Vec<_>>().into_iter())
    }
}

pub mod io {
    pub use std::io::{Error, ErrorKind, Read, Result, Write};
    pub struct BufWriter<W: Write>(std::io::BufWriter<W>);
    impl<W: Write> BufWriter<W> {
        pub fn with_capacity(_: crate::alloc::Global, room: usize, inner: W) -> Result<BufWriter<W>> {
            Ok(BufWriter(std::io::BufWriter::with_capacity(room, inner)))
        }
        pub fn new(_: crate::alloc::Global, inner: W) -> Result<BufWriter<W>> {
            Ok(BufWriter(std::io::BufWriter::new(inner)))
        }
    }
    impl<W: Write> Write for BufWriter<W> {
        fn write(&mut self, bytes: &[u8]) -> Result<usize> {
            self.0.write(bytes)
        }
        fn flush(&mut self) -> Result<()> {
            self.0.flush()
        }
    }
}

pub mod rc {
    pub struct Rc<T>(std::rc::Rc<T>);
    impl<T> Rc<T> {
        pub fn new(_: crate::alloc::Global, value: T) -> Result<Rc<T>, crate::alloc::AllocError> {
            Ok(Rc(std::rc::Rc::new(value)))
        }
    }
    impl<T> Rc<T> {
        pub fn clone(&self) -> Result<Rc<T>, crate::alloc::AllocError> {
            Ok(Rc(self.0.clone()))
        }
        pub fn as_ref(&self) -> &T {
            &self.0
        }
    }
    impl<T> std::ops::Deref for Rc<T> {
        type Target = T;
        fn deref(&self) -> &T {
            &self.0
        }
    }
}

pub mod borrow {
    use crate::vec::Vec;
    #[derive(Debug)]
    pub enum CowSlice<'v, T> {
        Owned(Vec<T>),
        Borrowed(&'v [T]),
    }
    impl<'v, T> CowSlice<'v, T> {
        pub fn as_slice(&self) -> &[T] {
            match self {
                CowSlice::Owned(it) => it,
                CowSlice::Borrowed(it) => it,
            }
        }
    }
}

pub mod string {
    use crate::alloc::{AllocError, Global};
    #[derive(Debug, PartialEq, Eq, PartialOrd, Ord, Hash, Default)]
    pub struct String(pub std::string::String);
    impl String {
        pub fn new(_: Global) -> String {
            String(std::string::String::new())
        }
        pub fn from_str(_: Global, text: &str) -> Result<String, AllocError> {
            Ok(String(text.to_string()))
        }
        pub fn push(&mut self, c: char) -> Result<(), AllocError> {
            self.0.push(c);
            Ok(())
        }
        pub fn push_str(&mut self, text: &str) -> Result<(), AllocError> {
            self.0.push_str(text);
            Ok(())
        }
        pub fn as_str(&self) -> &str {
            &self.0
        }
        pub fn clone(&self) -> Result<String, AllocError> {
            Ok(String(self.0.clone()))
        }
    }
    impl std::ops::Deref for String {
        type Target = str;
        fn deref(&self) -> &str {
            &self.0
        }
    }
    impl std::fmt::Display for String {
        fn fmt(&self, f: &mut std::fmt::Formatter<'_>) -> std::fmt::Result {
            f.write_str(&self.0)
        }
    }
}

pub mod vec {
    use crate::alloc::{AllocError, Global};
    use std::ops::{Deref, DerefMut};
    #[derive(Debug, PartialEq, Eq, PartialOrd, Ord, Hash)]
    pub struct Vec<T>(pub std::vec::Vec<T>);
    impl<T> Vec<T> {
        pub fn new(_: Global) -> Vec<T> {
            Vec(std::vec::Vec::new())
        }
        pub fn with_capacity(_: Global, n: usize) -> Result<Vec<T>, AllocError> {
            Ok(Vec(std::vec::Vec::with_capacity(n)))
        }
        pub fn from_array<const N: usize>(_: Global, values: [T; N]) -> Result<Vec<T>, AllocError> {
            Ok(Vec(values.into_iter().collect()))
        }
        pub fn from_slice(_: Global, values: &[T]) -> Result<Vec<T>, AllocError>
        where
            T: Clone,
        {
            Ok(Vec(values.to_vec()))
        }
        pub fn from_iter<I: IntoIterator<Item = T>>(_: Global, values: I) -> Result<Vec<T>, AllocError> {
            Ok(Vec(values.into_iter().collect()))
        }
        pub fn push(&mut self, value: T) -> Result<(), AllocError> {
            self.0.push(value);
            Ok(())
        }
        pub fn insert(&mut self, at: usize, value: T) -> Result<(), AllocError> {
            self.0.insert(at, value);
            Ok(())
        }
        pub fn reserve(&mut self, n: usize) -> Result<(), AllocError> {
            self.0.reserve(n);
            Ok(())
        }
        pub fn extend_from_slice(&mut self, values: &[T]) -> Result<(), AllocError>
        where
            T: Clone,
        {
            self.0.extend_from_slice(values);
            Ok(())
        }
        pub fn extend<I: IntoIterator<Item = T>>(&mut self, values: I) -> Result<(), AllocError> {
            self.0.extend(values);
            Ok(())
        }
        pub fn append(&mut self, other: &mut Vec<T>) -> Result<(), AllocError> {
            self.0.append(&mut other.0);
            Ok(())
        }
        pub fn resize(&mut self, n: usize, value: T) -> Result<(), AllocError>
        where
            T: Clone,
        {
            self.0.resize(n, value);
            Ok(())
        }
        pub fn resize_with<F: FnMut() -> T>(&mut self, n: usize, value: F) -> Result<(), AllocError> {
            self.0.resize_with(n, value);
            Ok(())
        }
        pub fn allocator(&self) -> &Global {
            &Global
        }
        pub fn clone(&self) -> Result<Vec<T>, AllocError>
        where
            T: Clone,
        {
            Ok(Vec(self.0.clone()))
        }
        pub fn sort(&mut self) -> Result<(), AllocError>
        where
            T: Ord,
        {
            self.0.sort();
            Ok(())
        }
        pub fn sort_by_key<K: Ord, F: FnMut(&T) -> K>(&mut self, key: F) -> Result<(), AllocError> {
            self.0.sort_by_key(key);
            Ok(())
        }
        pub fn sort_by<F: FnMut(&T, &T) -> std::cmp::Ordering>(&mut self, order: F) -> Result<(), AllocError> {
            self.0.sort_by(order);
            Ok(())
        }
    }
    impl<T> Deref for Vec<T> {
        type Target = std::vec::Vec<T>;
        fn deref(&self) -> &std::vec::Vec<T> {
            &self.0
        }
    }
    impl<T> DerefMut for Vec<T> {
        fn deref_mut(&mut self) -> &mut std::vec::Vec<T> {
            &mut self.0
        }
    }
    impl<T> IntoIterator for Vec<T> {
        type Item = T;
        type IntoIter = std::vec::IntoIter<T>;
        fn into_iter(self) -> Self::IntoIter {
            self.0.into_iter()
        }
    }
    impl<'a, T> IntoIterator for &'a Vec<T> {
        type Item = &'a T;
        type IntoIter = std::slice::Iter<'a, T>;
        fn into_iter(self) -> Self::IntoIter {
            self.0.iter()
        }
    }
    impl<'a, T> IntoIterator for &'a mut Vec<T> {
        type Item = &'a mut T;
        type IntoIter = std::slice::IterMut<'a, T>;
        fn into_iter(self) -> Self::IntoIter {
            self.0.iter_mut()
        }
    }
}

pub mod collections {
    use crate::alloc::{AllocError, Global};
    use std::ops::{Deref, DerefMut};
    pub struct BTreeMap<K, V>(std::collections::BTreeMap<K, V>);
    impl<K: Ord, V> BTreeMap<K, V> {
        pub fn new(_: Global) -> BTreeMap<K, V> {
            BTreeMap(std::collections::BTreeMap::new())
        }
        pub fn insert(&mut self, key: K, value: V) -> Result<Option<V>, AllocError> {
            Ok(self.0.insert(key, value))
        }
    }
    impl<K, V> Deref for BTreeMap<K, V> {
        type Target = std::collections::BTreeMap<K, V>;
        fn deref(&self) -> &Self::Target {
            &self.0
        }
    }
    impl<K, V> DerefMut for BTreeMap<K, V> {
        fn deref_mut(&mut self) -> &mut Self::Target {
            &mut self.0
        }
    }
    pub struct VecDeque<T>(std::collections::VecDeque<T>);
    impl<T> VecDeque<T> {
        pub fn new(_: Global) -> VecDeque<T> {
            VecDeque(std::collections::VecDeque::new())
        }
        pub fn push_back(&mut self, value: T) -> Result<(), AllocError> {
            self.0.push_back(value);
            Ok(())
        }
        pub fn push_front(&mut self, value: T) -> Result<(), AllocError> {
            self.0.push_front(value);
            Ok(())
        }
    }
    impl<T> Deref for VecDeque<T> {
        type Target = std::collections::VecDeque<T>;
        fn deref(&self) -> &Self::Target {
            &self.0
        }
    }
    impl<T> DerefMut for VecDeque<T> {
        fn deref_mut(&mut self) -> &mut Self::Target {
            &mut self.0
        }
    }
    impl<'a, T> IntoIterator for &'a VecDeque<T> {
        type Item = &'a T;
        type IntoIter = std::collections::vec_deque::Iter<'a, T>;
        fn into_iter(self) -> Self::IntoIter {
            self.0.iter()
        }
    }
}

#[macro_export]
macro_rules! vec_in {
    ($alloc:expr; $value:expr; $n:expr) => {{
        let _ = $alloc;
        Ok::<_, $crate::alloc::AllocError>($crate::vec::Vec(std::vec![$value; $n]))
    }};
    ($alloc:expr; $($value:expr),* $(,)?) => {{
        let _ = $alloc;
        Ok::<_, $crate::alloc::AllocError>($crate::vec::Vec(std::vec![$($value),*]))
    }};
}

#[macro_export]
macro_rules! format_in {
    ($alloc:expr; $($rest:tt)*) => {{
        let _ = $alloc;
        Ok::<_, $crate::alloc::AllocError>($crate::string::String(std::format!($($rest)*)))
    }};
}

#[macro_export]
macro_rules! println_rt {
    ($rt:expr; $($rest:tt)*) => {{
        let _ = $rt;
        std::println!($($rest)*);
        Ok::<_, std::io::Error>(())
    }};
}

pub mod kit {
    pub mod itoa {
        pub struct Buffer(std::string::String);
        impl Buffer {
            pub fn new() -> Buffer {
                Buffer(std::string::String::new())
            }
            pub fn format<N: std::fmt::Display>(&mut self, n: N) -> &str {
                self.0 = n.to_string();
                &self.0
            }
        }
    }

    pub mod memchr {
        pub fn memchr(byte: u8, bytes: &[u8]) -> Option<usize> {
            bytes.iter().position(|&it| it == byte)
        }
    }

    pub mod rand_core {
        pub mod utils {
            pub trait NextWord<W> {
                fn next_word(&mut self) -> W;
            }
        }
    }

    pub mod rand_pcg {
        const MULTIPLIER: u64 = 6_364_136_223_846_793_005;
        #[derive(Clone)]
        pub struct Lcg64Xsh32 {
            state: u64,
            increment: u64,
        }
        impl Lcg64Xsh32 {
            pub fn new(state: u64, stream: u64) -> Lcg64Xsh32 {
                let increment = (stream << 1) | 1;
                let mut made = Lcg64Xsh32 {
                    state: state.wrapping_add(increment),
                    increment,
                };
                made.step();
                made
            }
            fn step(&mut self) {
                self.state = self.state.wrapping_mul(MULTIPLIER).wrapping_add(self.increment);
            }
        }
        impl super::rand_core::utils::NextWord<u32> for Lcg64Xsh32 {
            fn next_word(&mut self) -> u32 {
                let state = self.state;
                self.step();
                let rot = (state >> 59) as u32;
                let xsh = (((state >> 18) ^ state) >> 27) as u32;
                xsh.rotate_right(rot)
            }
        }
    }

    pub mod bumpalo {
        use crate::alloc::{AllocError, Global};
        pub struct Bump;
        impl Bump {
            pub fn new(_: Global) -> Bump {
                Bump
            }
            pub fn try_alloc_slice_copy<'a, T: Copy>(&'a self, values: &[T]) -> Result<&'a [T], AllocError> {
                Ok(std::vec::Vec::leak(values.to_vec()))
            }
        }
    }

    pub mod csv {
        use crate::alloc::{AllocError, Global};
        pub struct Position {
            pub byte: u64,
        }
        pub struct ByteRecord {
            fields: std::vec::Vec<std::vec::Vec<u8>>,
            byte: u64,
        }
        impl ByteRecord {
            pub fn new(_: Global) -> ByteRecord {
                ByteRecord { fields: std::vec::Vec::new(), byte: 0 }
            }
            pub fn len(&self) -> usize {
                self.fields.len()
            }
            pub fn is_empty(&self) -> bool {
                self.fields.is_empty()
            }
            pub fn get(&self, n: usize) -> Option<&[u8]> {
                self.fields.get(n).map(|it| it.as_slice())
            }
            pub fn iter(&self) -> impl Iterator<Item = &[u8]> {
                self.fields.iter().map(|it| it.as_slice())
            }
            pub fn position(&self) -> Option<Position> {
                Some(Position { byte: self.byte })
            }
        }
        pub struct ReaderBuilder;
        impl ReaderBuilder {
            pub fn new() -> ReaderBuilder {
                ReaderBuilder
            }
            pub fn has_headers(&self, _: bool) -> &ReaderBuilder {
                self
            }
            pub fn flexible(&self, _: bool) -> &ReaderBuilder {
                self
            }
            pub fn from_reader<'a>(&self, _: Global, text: &'a [u8]) -> Reader<&'a [u8]> {
                Reader { text, at: 0 }
            }
        }
        pub struct Reader<R> {
            text: R,
            at: usize,
        }
        impl<'a> Reader<&'a [u8]> {
            fn next_record(&mut self) -> Option<ByteRecord> {
                if self.at == 0 && self.text.starts_with(b"\xEF\xBB\xBF") {
                    self.at = 3;
                }
                let byte = self.at as u64;
                let is_end = |b: u8| b == b'\r' || b == b'\n';
                while self.at < self.text.len() && is_end(self.text[self.at]) {
                    self.at += 1;
                }
                if self.at >= self.text.len() {
                    return None;
                }
                let mut fields = std::vec::Vec::new();
                let mut field = std::vec::Vec::new();
                let (mut quoted, mut first) = (false, true);
                loop {
                    let Some(&b) = self.text.get(self.at) else {
                        fields.push(field);
                        return Some(ByteRecord { fields, byte });
                    };
                    self.at += 1;
                    if quoted {
                        if b == b'"' {
                            if self.text.get(self.at) == Some(&b'"') {
                                self.at += 1;
                                field.push(b'"');
                            } else {
                                quoted = false;
                            }
                        } else {
                            field.push(b);
                        }
                    } else if first && b == b'"' {
                        quoted = true;
                        first = false;
                    } else if b == b',' {
                        fields.push(std::mem::take(&mut field));
                        first = true;
                    } else if is_end(b) {
                        fields.push(field);
                        if b == b'\r' && self.text.get(self.at) == Some(&b'\n') {
                            self.at += 1;
                        }
                        return Some(ByteRecord { fields, byte });
                    } else {
                        first = false;
                        field.push(b);
                    }
                }
            }
            pub fn read_byte_record(&mut self, row: &mut ByteRecord) -> Result<bool, AllocError> {
                match self.next_record() {
                    Some(it) => {
                        *row = it;
                        Ok(true)
                    }
                    None => {
                        row.fields.clear();
                        Ok(false)
                    }
                }
            }
            pub fn into_byte_records(mut self) -> impl Iterator<Item = Result<ByteRecord, AllocError>> + 'a {
                std::iter::from_fn(move || self.next_record().map(Ok))
            }
        }
    }

    pub mod slab {
        use crate::alloc::{AllocError, Global};
        pub struct Slab<T> {
            entries: std::vec::Vec<Option<T>>,
            free: std::vec::Vec<usize>,
        }
        impl<T> Slab<T> {
            pub fn new(_: Global) -> Slab<T> {
                Slab { entries: std::vec::Vec::new(), free: std::vec::Vec::new() }
            }
            pub fn insert(&mut self, value: T) -> Result<usize, AllocError> {
                if let Some(key) = self.free.pop() {
                    self.entries[key] = Some(value);
                    return Ok(key);
                }
                self.entries.push(Some(value));
                Ok(self.entries.len() - 1)
            }
            pub fn reserve(&mut self, _: usize) -> Result<(), AllocError> {
                Ok(())
            }
            pub fn vacant_key(&self) -> usize {
                self.free.last().copied().unwrap_or(self.entries.len())
            }
            pub fn insert_reserved(&mut self, value: T) -> usize {
                self.insert(value).unwrap()
            }
            pub fn remove(&mut self, key: usize) -> T {
                self.free.push(key);
                self.entries[key].take().unwrap()
            }
            pub fn try_remove(&mut self, key: usize) -> Option<T> {
                let found = self.entries.get_mut(key)?.take();
                if found.is_some() {
                    self.free.push(key);
                }
                found
            }
            pub fn get(&self, key: usize) -> Option<&T> {
                self.entries.get(key)?.as_ref()
            }
            pub fn get_mut(&mut self, key: usize) -> Option<&mut T> {
                self.entries.get_mut(key)?.as_mut()
            }
            pub fn len(&self) -> usize {
                self.entries.len() - self.free.len()
            }
            pub fn is_empty(&self) -> bool {
                self.len() == 0
            }
            pub fn contains(&self, key: usize) -> bool {
                self.get(key).is_some()
            }
        }
        impl<T> std::ops::Index<usize> for Slab<T> {
            type Output = T;
            fn index(&self, key: usize) -> &T {
                self.entries[key].as_ref().unwrap()
            }
        }
    }

    pub mod arrayvec {
        #[derive(Clone, Debug, PartialEq, Eq)]
        pub struct ArrayVec<T, const N: usize>(std::vec::Vec<T>);
        impl<T, const N: usize> ArrayVec<T, N> {
            pub fn new() -> Self {
                ArrayVec(std::vec::Vec::new())
            }
            pub fn push(&mut self, value: T) {
                assert!(self.0.len() < N);
                self.0.push(value);
            }
            pub fn try_push(&mut self, value: T) -> Result<(), T> {
                if self.0.len() < N {
                    self.0.push(value);
                    return Ok(());
                }
                Err(value)
            }
            pub fn is_full(&self) -> bool {
                self.0.len() == N
            }
            pub fn as_slice(&self) -> &[T] {
                &self.0
            }
        }
        impl<T, const N: usize> std::ops::Deref for ArrayVec<T, N> {
            type Target = std::vec::Vec<T>;
            fn deref(&self) -> &std::vec::Vec<T> {
                &self.0
            }
        }
        impl<T, const N: usize> std::ops::DerefMut for ArrayVec<T, N> {
            fn deref_mut(&mut self) -> &mut std::vec::Vec<T> {
                &mut self.0
            }
        }
        impl<T, const N: usize> IntoIterator for ArrayVec<T, N> {
            type Item = T;
            type IntoIter = std::vec::IntoIter<T>;
            fn into_iter(self) -> Self::IntoIter {
                self.0.into_iter()
            }
        }
        impl<'a, T, const N: usize> IntoIterator for &'a ArrayVec<T, N> {
            type Item = &'a T;
            type IntoIter = std::slice::Iter<'a, T>;
            fn into_iter(self) -> Self::IntoIter {
                self.0.iter()
            }
        }
    }

    pub mod smallvec {
        use crate::alloc::{AllocError, Global};
        #[derive(Debug, PartialEq, Eq)]
        pub struct SmallVec<T, const N: usize>(std::vec::Vec<T>);
        impl<T: Clone, const N: usize> SmallVec<T, N> {
            pub fn new(_: Global) -> Self {
                SmallVec(std::vec::Vec::new())
            }
            pub fn from_slice(_: Global, values: &[T]) -> Result<Self, AllocError> {
                Ok(SmallVec(values.to_vec()))
            }
            pub fn push(&mut self, value: T) -> Result<(), AllocError> {
                self.0.push(value);
                Ok(())
            }
            pub fn clone(&self) -> Result<Self, AllocError> {
                Ok(SmallVec(self.0.clone()))
            }
            pub fn as_slice(&self) -> &[T] {
                &self.0
            }
        }
        impl<T, const N: usize> std::ops::Deref for SmallVec<T, N> {
            type Target = std::vec::Vec<T>;
            fn deref(&self) -> &std::vec::Vec<T> {
                &self.0
            }
        }
        impl<T, const N: usize> std::ops::DerefMut for SmallVec<T, N> {
            fn deref_mut(&mut self) -> &mut std::vec::Vec<T> {
                &mut self.0
            }
        }
    }

    pub mod indexmap {
        use crate::alloc::{AllocError, Global};
        use std::collections::HashMap;
        use std::hash::Hash;
        /// Keys and values in the order of their first insertion.
        pub struct IndexMap<K, V> {
            keys: std::vec::Vec<K>,
            values: std::vec::Vec<V>,
            places: HashMap<u64, std::vec::Vec<usize>>,
        }
        fn hash_of<K: Hash>(key: &K) -> u64 {
            let mut state = std::collections::hash_map::DefaultHasher::new();
            key.hash(&mut state);
            std::hash::Hasher::finish(&state)
        }
        impl<K: Hash + Eq, V> IndexMap<K, V> {
            pub fn new(_: Global) -> Self {
                IndexMap { keys: std::vec::Vec::new(), values: std::vec::Vec::new(), places: HashMap::new() }
            }
            pub fn with_capacity(alloc: Global, _: usize) -> Result<Self, AllocError> {
                Ok(Self::new(alloc))
            }
            pub fn reserve(&mut self, _: usize) -> Result<(), AllocError> {
                Ok(())
            }
            pub fn len(&self) -> usize {
                self.keys.len()
            }
            pub fn is_empty(&self) -> bool {
                self.keys.is_empty()
            }
            pub fn clear(&mut self) {
                self.keys.clear();
                self.values.clear();
                self.places.clear();
            }
            pub fn insert(&mut self, key: K, value: V) -> Result<Option<V>, AllocError> {
                if let Some(at) = self.get_index_of(&key) {
                    return Ok(Some(std::mem::replace(&mut self.values[at], value)));
                }
                self.places.entry(hash_of(&key)).or_default().push(self.keys.len());
                self.keys.push(key);
                self.values.push(value);
                Ok(None)
            }
            pub fn get_index_of(&self, key: &K) -> Option<usize> {
                self.places.get(&hash_of(key))?.iter().copied().find(|&at| self.keys[at] == *key)
            }
            pub fn get(&self, key: &K) -> Option<&V> {
                self.get_index_of(key).map(|at| &self.values[at])
            }
            pub fn get_mut(&mut self, key: &K) -> Option<&mut V> {
                let at = self.get_index_of(key)?;
                Some(&mut self.values[at])
            }
            pub fn get_full(&self, key: &K) -> Option<(usize, &K, &V)> {
                self.get_index_of(key).map(|at| (at, &self.keys[at], &self.values[at]))
            }
            pub fn get_index(&self, at: usize) -> Option<(&K, &V)> {
                self.keys.get(at).map(|it| (it, &self.values[at]))
            }
            pub fn contains_key(&self, key: &K) -> bool {
                self.get_index_of(key).is_some()
            }
            pub fn shift_remove(&mut self, key: &K) -> Option<V> {
                let at = self.get_index_of(key)?;
                self.keys.remove(at);
                let value = self.values.remove(at);
                self.places.clear();
                for (n, it) in self.keys.iter().enumerate() {
                    self.places.entry(hash_of(it)).or_default().push(n);
                }
                Some(value)
            }
            pub fn iter(&self) -> impl Iterator<Item = (&K, &V)> {
                self.keys.iter().zip(self.values.iter())
            }
            pub fn keys(&self) -> std::slice::Iter<'_, K> {
                self.keys.iter()
            }
            pub fn values(&self) -> std::slice::Iter<'_, V> {
                self.values.iter()
            }
            pub fn clone(&self) -> Result<Self, AllocError>
            where
                K: Clone,
                V: Clone,
            {
                Ok(IndexMap { keys: self.keys.clone(), values: self.values.clone(), places: self.places.clone() })
            }
        }

        /// Values in the order of their first insertion.
        pub struct IndexSet<T>(IndexMap<T, ()>);
        impl<T: Hash + Eq> IndexSet<T> {
            pub fn new(alloc: Global) -> Self {
                IndexSet(IndexMap::new(alloc))
            }
            pub fn with_capacity(alloc: Global, _: usize) -> Result<Self, AllocError> {
                Ok(Self::new(alloc))
            }
            pub fn len(&self) -> usize {
                self.0.len()
            }
            pub fn is_empty(&self) -> bool {
                self.0.is_empty()
            }
            pub fn insert(&mut self, value: T) -> Result<bool, AllocError> {
                if self.contains(&value) {
                    return Ok(false);
                }
                self.0.insert(value, ())?;
                Ok(true)
            }
            pub fn insert_full(&mut self, value: T) -> Result<(usize, bool), AllocError> {
                if let Some(at) = self.get_index_of(&value) {
                    return Ok((at, false));
                }
                self.0.insert(value, ())?;
                Ok((self.len() - 1, true))
            }
            pub fn contains(&self, value: &T) -> bool {
                self.0.contains_key(value)
            }
            pub fn get_index_of(&self, value: &T) -> Option<usize> {
                self.0.get_index_of(value)
            }
            pub fn get_index(&self, at: usize) -> Option<&T> {
                self.0.get_index(at).map(|(key, _)| key)
            }
            pub fn reserve(&mut self, _: usize) -> Result<(), AllocError> {
                Ok(())
            }
            pub fn as_slice(&self) -> &[T] {
                &self.0.keys
            }
            pub fn clear(&mut self) {
                self.0.clear();
            }
            pub fn clone(&self) -> Result<Self, AllocError>
            where
                T: Clone,
            {
                Ok(IndexSet(self.0.clone()?))
            }
            pub fn iter(&self) -> impl Iterator<Item = &T> {
                self.0.keys()
            }
        }
        impl<T: Hash + Eq> std::ops::Index<usize> for IndexSet<T> {
            type Output = T;
            fn index(&self, at: usize) -> &T {
                self.get_index(at).unwrap()
            }
        }
    }
}
