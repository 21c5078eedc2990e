//! How a room stands to what is due in it.

pub const NO_ROOM: &str = "no room at all";
pub const ONE_LESS: &str = "one byte less than is due";
pub const EXACT: &str = "room to the byte";
pub const ONE_MORE: &str = "one byte more than is due";
pub const MOST_ROOM: &str = "the most room";

/// None for a room that stands to it in no way of these.
pub fn standing(room: usize, due: usize) -> Option<&'static str> {
    match room {
        _ if room + 1 == due => Some(ONE_LESS),
        _ if room == due => Some(EXACT),
        _ if room == due + 1 => Some(ONE_MORE),
        0 => Some(NO_ROOM),
        1024 => Some(MOST_ROOM),
        _ => None,
    }
}
