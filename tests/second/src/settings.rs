//! SETTINGS: pairs of identifier and value, judged when the payload is complete.

use crate::integers;
use crate::numbers::{FRAME_ERROR, SETTINGS_ERROR};

#[derive(Clone, Copy, Debug, Default, PartialEq, Eq)]
pub struct Settings {
    /// 6; absent means unlimited, kept apart from every value.
    pub section_size: Option<u64>,
    /// 1; absent means 0.
    pub table_capacity: u64,
    /// 7; absent means 0.
    pub blocked_streams: u64,
}

/// The settings of a whole payload, or the code of its first faulty pair.
pub fn judge(payload: &[u8]) -> Result<Settings, u16> {
    let mut settings = Settings::default();
    let mut seen = Vec::new();
    let mut place = 0;
    while place < payload.len() {
        let (identifier, size) = integers::read(payload, place).ok_or(FRAME_ERROR)?;
        place += size;
        let (value, size) = integers::read(payload, place).ok_or(FRAME_ERROR)?;
        place += size;
        if (2..=5).contains(&identifier) || seen.contains(&identifier) {
            return Err(SETTINGS_ERROR);
        }
        seen.push(identifier);
        match identifier {
            6 => settings.section_size = Some(value),
            1 => settings.table_capacity = value,
            7 => settings.blocked_streams = value,
            _ => {}
        }
    }
    Ok(settings)
}
