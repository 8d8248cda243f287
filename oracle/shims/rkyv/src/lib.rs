//! The part of rkyv 0.8 that lindera's files name, so that they compile unchanged. Debian has only
//! 0.7. Archives are outside the port, and no request reaches one of these functions.

pub use rkyv_derive::{Archive, Deserialize, Serialize};

const UNUSED: &str = "the oracle archives nothing";

pub trait Archive {
    type Archived;
    type Resolver;
    fn resolve(&self, resolver: Self::Resolver, out: Place<Self::Archived>);
}

pub trait Serialize<S: rancor::Fallible + ?Sized>: Archive {
    fn serialize(&self, serializer: &mut S) -> Result<Self::Resolver, S::Error>;
}

pub trait Deserialize<T, D: rancor::Fallible + ?Sized> {
    fn deserialize(&self, deserializer: &mut D) -> Result<T, D::Error>;
}

pub struct Place<T>(std::marker::PhantomData<T>);

pub fn to_bytes<E>(_value: &impl Sized) -> Result<Vec<u8>, E> {
    unreachable!("{UNUSED}")
}

pub fn from_bytes<T, E>(_bytes: &[u8]) -> Result<T, E> {
    unreachable!("{UNUSED}")
}

pub mod rancor {
    pub trait Fallible {
        type Error;
    }

    #[derive(Debug)]
    pub struct Error;

    impl std::fmt::Display for Error {
        fn fmt(&self, _: &mut std::fmt::Formatter) -> std::fmt::Result {
            unreachable!("{}", crate::UNUSED)
        }
    }

    impl std::error::Error for Error {}
}

pub mod ser {
    pub trait Writer {}
    pub trait Allocator {}
}

pub mod util {
    pub struct AlignedVec<const ALIGNMENT: usize>;

    impl<const ALIGNMENT: usize> AlignedVec<ALIGNMENT> {
        #[allow(clippy::new_without_default)]
        pub fn new() -> Self {
            unreachable!("{}", crate::UNUSED)
        }

        pub fn extend_from_slice(&mut self, _bytes: &[u8]) {
            unreachable!("{}", crate::UNUSED)
        }
    }

    impl<const ALIGNMENT: usize> std::ops::Deref for AlignedVec<ALIGNMENT> {
        type Target = [u8];
        fn deref(&self) -> &[u8] {
            unreachable!("{}", crate::UNUSED)
        }
    }
}

pub mod vec {
    use crate::{Place, rancor::Fallible};

    pub struct VecResolver;
    pub struct ArchivedVec<T>(std::marker::PhantomData<T>);

    impl<T> ArchivedVec<T> {
        pub fn resolve_from_slice(_slice: &[T], _resolver: VecResolver, _out: Place<Self>) {
            unreachable!("{}", crate::UNUSED)
        }

        pub fn serialize_from_slice<S: Fallible + ?Sized>(
            _slice: &[T],
            _serializer: &mut S,
        ) -> Result<VecResolver, S::Error> {
            unreachable!("{}", crate::UNUSED)
        }

        #[allow(clippy::len_without_is_empty)]
        pub fn len(&self) -> usize {
            unreachable!("{}", crate::UNUSED)
        }

        pub fn as_slice(&self) -> &[T] {
            unreachable!("{}", crate::UNUSED)
        }
    }
}
