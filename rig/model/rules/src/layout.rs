//! Where each part of a net stands among its bytes, in either form.

pub const PLAN_BYTES: usize = 112;
pub const NET_BYTES: usize = 15_728;
pub const LIST_BYTES: usize = 48;
pub const TALLY_BYTES: usize = 36;
pub const SCRIPT_BYTES_MOST: usize = 16_384;

pub const MOST_STATIONS: usize = 16;
pub const MOST_GROUPS: usize = 4;
pub const NAME_BYTES: usize = 16;
pub const CHANNEL_HOLDS: usize = 8;
pub const NIL: u8 = 255;

/// The two forms of a net. The mark tells which one the bytes are in, and the entries stand in the form's order: by
/// group in the saved form, by station in the working form. All else stands where it stands in both.
#[derive(Clone, Copy, Debug, PartialEq, Eq)]
pub enum Form {
    Saved,
    Working,
}

impl Form {
    pub fn other(self) -> Form {
        match self {
            Form::Saved => Form::Working,
            Form::Working => Form::Saved,
        }
    }
}

pub const GROUP_SIZE: usize = 18;
pub const ENTRY_SIZE: usize = 12;
pub const MESSAGE_SIZE: usize = 7;
pub const CHANNEL_SIZE: usize = 1 + CHANNEL_HOLDS * MESSAGE_SIZE;

pub const STATIONS_AT: usize = 5;
pub const GROUPS_AT: usize = 6;
pub const MARK_AT: usize = 7;
pub const FIRST_GROUP: usize = 8;
pub const FIRST_MASK: usize = 80;
pub const FIRST_ROUTE: usize = 112;
pub const FIRST_ENTRY: usize = 368;
pub const FIRST_CHANNEL: usize = 1136;

pub fn group_at(group: usize) -> usize {
    FIRST_GROUP + GROUP_SIZE * group
}

pub fn root_at(group: usize) -> usize {
    group_at(group) + 1 + NAME_BYTES
}

pub fn mask_at(station: usize) -> usize {
    FIRST_MASK + 2 * station
}

pub fn route_at(station: usize, destination: usize) -> usize {
    FIRST_ROUTE + MOST_STATIONS * station + destination
}

pub fn mark(form: Form) -> u8 {
    match form {
        Form::Saved => 0,
        Form::Working => 1,
    }
}

pub fn entry_at(form: Form, group: usize, station: usize) -> usize {
    let entries_before = match form {
        Form::Saved => MOST_STATIONS * group + station,
        Form::Working => MOST_GROUPS * station + group,
    };
    FIRST_ENTRY + ENTRY_SIZE * entries_before
}

pub fn channel_at(from: usize, to: usize) -> usize {
    FIRST_CHANNEL + CHANNEL_SIZE * (MOST_STATIONS * from + to)
}

pub fn message_at(from: usize, to: usize, position: usize) -> usize {
    channel_at(from, to) + 1 + MESSAGE_SIZE * position
}

#[cfg(test)]
mod tests {
    use super::*;

    #[test]
    fn the_parts_fill_the_net() {
        assert_eq!(mask_at(MOST_STATIONS), FIRST_ROUTE);
        assert_eq!(group_at(MOST_GROUPS), FIRST_MASK);
        assert_eq!(route_at(MOST_STATIONS, 0), FIRST_ENTRY);
        assert_eq!(entry_at(Form::Saved, MOST_GROUPS, 0), FIRST_CHANNEL);
        assert_eq!(entry_at(Form::Working, 0, MOST_STATIONS), FIRST_CHANNEL);
        assert_eq!(channel_at(MOST_STATIONS, 0), NET_BYTES);
        assert_eq!(NET_BYTES, 0x3d70);
    }
}
