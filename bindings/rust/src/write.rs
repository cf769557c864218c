use crate::raw::{self, Written};
use crate::Refused;

/// Room that is always enough for [`write_header`].
pub const HEADER_ROOM: usize = 16;

/// Room that is always enough for [`write_integer_frame`].
pub const INTEGER_FRAME_ROOM: usize = 17;

/// The room of [`write_opening`].
pub const OPENING_ROOM: usize = 12;

/// Writes the header of a frame of that type, whose payload of `length` bytes the host sends behind it.
///
/// As all writes: answers how many bytes were written, from the room's beginning; a refused one writes none.
/// Refused as `BadValue`, `RoomShort`.
pub fn write_header(kind: u64, length: u64, room: &mut [u8]) -> Result<usize, Refused> {
    raw::write_header(kind, length, room).count()
}

/// Writes a whole frame of that type whose payload is one integer. Refused as [`write_header`].
pub fn write_integer_frame(kind: u64, value: u64, room: &mut [u8]) -> Result<usize, Refused> {
    raw::write_integer_frame(kind, value, room).count()
}

/// Writes the opening of our control stream: its type, and SETTINGS with no QPACK table and a section size of
/// 16,384, as [`Connection::give`](crate::Connection::give) measures it. Refused as `RoomShort`.
pub fn write_opening(room: &mut [u8]) -> Result<usize, Refused> {
    raw::write_opening(room).count()
}

impl Written {
    pub(crate) fn count(self) -> Result<usize, Refused> {
        Refused::unless_0(self.number).map(|()| self.count as usize)
    }
}
