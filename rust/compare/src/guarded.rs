//! Buffers between guard elements, which no call may change.

use std::fmt;
use std::ops::{Deref, DerefMut};

use crate::Random;

/// Guard elements on each side of a buffer. Without any, each buffer is an allocation of just its own length, and valgrind
/// sees what reads or writes beyond it.
const GUARDS: usize = if cfg!(feature = "bare") { 0 } else { 8 };

/// What a lent buffer holds.
pub trait Element: Copy + PartialEq + fmt::Debug + Default {
    /// The guard element.
    const GUARD: Self;
    /// An element out of 64 random bits.
    fn of_bits(bits: u64) -> Self;
    /// Puts its bytes at the end of a list, the lowest first.
    fn send(self, bytes: &mut Vec<u8>);
    /// The element of as many bytes as it has.
    fn receive(bytes: &[u8]) -> Self;
}

macro_rules! element {
    ($type:ty, $guard:expr) => {
        impl Element for $type {
            const GUARD: $type = $guard;
            fn of_bits(bits: u64) -> $type {
                bits as $type
            }
            fn send(self, bytes: &mut Vec<u8>) {
                bytes.extend(self.to_le_bytes());
            }
            fn receive(bytes: &[u8]) -> $type {
                <$type>::from_le_bytes(bytes.try_into().expect("as many bytes as the element has"))
            }
        }
    };
}

element!(u8, 0xA5);
element!(u16, 0xA5C3);
element!(i16, 0x25C3);
element!(i32, 0x25C3_A51E);
element!(u32, 0xA5C3_251E);

/// A buffer with guard elements before and after it.
#[derive(Clone, PartialEq)]
pub struct Guarded<T> {
    room: Vec<T>,
}

/// A guarded buffer of any elements.
pub trait Buffer: fmt::Debug {
    /// Whether every guard element is as it was.
    fn intact(&self) -> bool;
    /// The number of elements between the guards.
    fn length(&self) -> usize;
    /// The bytes of one element.
    fn width(&self) -> usize;
    /// Puts all bytes at the end of a list, those of the guards too; gives the place of the first that is lent.
    fn send(&self, bytes: &mut Vec<u8>) -> usize;
    /// Takes all bytes, those of the guards too, from the front of a row, and gives the rest of it.
    fn receive<'a>(&mut self, bytes: &'a [u8]) -> &'a [u8];
}

impl<T: Element> Buffer for Guarded<T> {
    fn intact(&self) -> bool {
        let (before, rest) = self.room.split_at(GUARDS);
        let after = &rest[rest.len() - GUARDS..];
        before.iter().chain(after).all(|&guard| guard == T::GUARD)
    }

    fn length(&self) -> usize {
        self.len()
    }

    fn width(&self) -> usize {
        size_of::<T>()
    }

    fn send(&self, bytes: &mut Vec<u8>) -> usize {
        let lent = bytes.len() + GUARDS * size_of::<T>();
        self.room.iter().for_each(|element| element.send(bytes));
        lent
    }

    fn receive<'a>(&mut self, bytes: &'a [u8]) -> &'a [u8] {
        let (own, rest) = bytes.split_at(self.room.len() * size_of::<T>());
        for (element, bytes) in self.room.iter_mut().zip(own.chunks_exact(size_of::<T>())) {
            *element = T::receive(bytes);
        }
        rest
    }
}

impl<T: Element> Guarded<T> {
    /// Changes the buffer as a list, which may become longer or shorter.
    pub fn edit(&mut self, change: impl FnOnce(&mut Vec<T>)) {
        let mut held = self.to_vec();
        change(&mut held);
        *self = held.into();
    }

    /// Puts the element at a place, if there is such a place.
    pub fn put(&mut self, place: usize, element: T) {
        if let Some(slot) = self.get_mut(place) {
            *slot = element;
        }
    }

    /// A buffer of elements that mean nothing.
    pub fn junk(random: &mut Random, length: usize) -> Self {
        (0..length).map(|_| T::of_bits(random.bits())).collect::<Vec<T>>().into()
    }

    /// Makes the buffer longer by elements that mean nothing.
    pub fn lengthen(&mut self, random: &mut Random, by: usize) {
        self.edit(|held| held.extend((0..by).map(|_| T::of_bits(random.bits()))));
    }
}

impl<T: Element> Default for Guarded<T> {
    fn default() -> Self {
        Vec::new().into()
    }
}

impl<T: Element> From<Vec<T>> for Guarded<T> {
    fn from(held: Vec<T>) -> Self {
        let mut room = Vec::with_capacity(held.len() + 2 * GUARDS);
        room.extend([T::GUARD; GUARDS]);
        room.extend(held);
        room.extend([T::GUARD; GUARDS]);
        Guarded { room }
    }
}

impl<T> Deref for Guarded<T> {
    type Target = [T];
    fn deref(&self) -> &[T] {
        &self.room[GUARDS..self.room.len() - GUARDS]
    }
}

impl<T> DerefMut for Guarded<T> {
    fn deref_mut(&mut self) -> &mut [T] {
        let end = self.room.len() - GUARDS;
        &mut self.room[GUARDS..end]
    }
}

impl<T: Element> fmt::Debug for Guarded<T> {
    fn fmt(&self, f: &mut fmt::Formatter<'_>) -> fmt::Result {
        fmt::Debug::fmt(&**self, f)
    }
}

#[cfg(test)]
mod tests {
    use super::*;

    #[test]
    fn a_guard_on_either_side_is_watched() {
        let buffer = Guarded::from(vec![1u16, 2, 3]);
        assert!(buffer.intact());
        for place in [0, GUARDS - 1, GUARDS + 3, 2 * GUARDS + 2] {
            let mut hurt = buffer.clone();
            hurt.room[place] = 0;
            assert!(!hurt.intact(), "guard {place}");
        }
    }

    #[test]
    fn all_bytes_go_and_come_back() {
        let buffer = Guarded::from(vec![1i16, -2, 300]);
        let mut bytes = vec![9];
        assert_eq!(buffer.send(&mut bytes), 1 + 2 * GUARDS);
        assert_eq!(bytes[1 + 2 * GUARDS..][..6], [1, 0, 254, 255, 44, 1]);
        bytes[1] ^= 1;
        bytes.push(7);
        let mut back = Guarded::from(vec![0i16; 3]);
        assert_eq!(back.receive(&bytes[1..]), [7]);
        assert_eq!(*back, *buffer);
        assert!(!back.intact(), "a guard that changed on the way");
    }

    #[test]
    fn what_is_held_may_change() {
        let mut buffer = Guarded::from(vec![1u8, 2, 3]);
        buffer[0] = 9;
        buffer.edit(|held| held.push(4));
        assert!(buffer.intact());
        assert_eq!(*buffer, [9, 2, 3, 4]);
    }
}
