use core::fmt;

/// One of a desk's eight seats, 0 to 7.
///
/// The desk refuses a seat above 7 with the number 10. A `Seat` can't be one, so in Rust that refusal does not come up.
///
/// ```
/// use coe_desk::Seat;
///
/// assert_eq!(Seat::new(7).map(Seat::number), Some(7));
/// assert_eq!(Seat::new(8), None);
/// ```
#[derive(Debug, Clone, Copy, PartialEq, Eq, PartialOrd, Ord, Hash)]
pub struct Seat(u8);

impl Seat {
    /// Every seat, in order.
    pub const ALL: [Seat; 8] = [Seat(0), Seat(1), Seat(2), Seat(3), Seat(4), Seat(5), Seat(6), Seat(7)];

    /// The seat of this number, if there is one.
    pub const fn new(number: u8) -> Option<Seat> {
        if number < 8 {
            Some(Seat(number))
        } else {
            None
        }
    }

    /// Its number.
    pub const fn number(self) -> u8 {
        self.0
    }
}

impl fmt::Display for Seat {
    fn fmt(&self, f: &mut fmt::Formatter<'_>) -> fmt::Result {
        write!(f, "seat {}", self.0)
    }
}
