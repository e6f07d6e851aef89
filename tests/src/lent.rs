//! Memory lent to a library: filled with a pattern and with guards on both sides, so that every change shows.

const GUARD: usize = 16;

pub trait Element: Copy + PartialEq {
    fn pattern(place: usize) -> Self;
}

impl Element for u8 {
    fn pattern(place: usize) -> u8 {
        (place as u8).wrapping_mul(37) ^ 0xa5
    }
}

impl Element for u32 {
    fn pattern(place: usize) -> u32 {
        (place as u32).wrapping_mul(0x9e37_79b1) ^ 0xa5c3_5a3c
    }
}

impl Element for i32 {
    fn pattern(place: usize) -> i32 {
        u32::pattern(place) as i32
    }
}

impl Element for u64 {
    fn pattern(place: usize) -> u64 {
        u64::from(u32::pattern(place)) << 32 | u64::from(u32::pattern(place + 1))
    }
}

pub struct Lent<T> {
    elements: Vec<T>,
    room: usize,
}

impl<T: Element> Lent<T> {
    pub fn new(room: usize) -> Lent<T> {
        Lent { elements: (0..GUARD + room + GUARD).map(T::pattern).collect(), room }
    }

    /// An out-parameter.
    pub fn one() -> Lent<T> {
        Lent::new(1)
    }

    pub fn room(&self) -> usize {
        self.room
    }

    pub fn pointer(&mut self) -> *mut T {
        self.elements[GUARD..].as_mut_ptr()
    }

    /// The first elements lent, provided that all others are untouched.
    pub fn output(&self, length: u64) -> Result<Vec<T>, String> {
        let end = usize::try_from(length).ok().filter(|&length| length <= self.room).map(|length| GUARD + length);
        let end = end.ok_or(format!("the length written is {length}, and {} were lent", self.room))?;
        let places = (0..GUARD).chain(end..self.elements.len());
        match places.into_iter().find(|&place| self.elements[place] != T::pattern(place)) {
            Some(place) => Err(format!("element {} of {} was changed", place as isize - GUARD as isize, self.room)),
            None => Ok(self.elements[GUARD..end].to_vec()),
        }
    }

    /// The value of an out-parameter.
    pub fn value(&self) -> Result<T, String> {
        Ok(self.output(1)?[0])
    }
}

/// Lent memory of any element type.
pub trait Unchanged {
    fn unchanged(&self) -> Result<(), String>;
}

impl<T: Element> Unchanged for Lent<T> {
    fn unchanged(&self) -> Result<(), String> {
        self.output(0).map(|_| ())
    }
}
