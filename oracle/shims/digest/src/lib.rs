//! The trait `Digest`, for signatures only: nothing is hashed here.

pub trait Digest {
    fn update(&mut self, bytes: impl AsRef<[u8]>);
}
