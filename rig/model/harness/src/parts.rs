//! The name of the part of a net that stands at an offset, to tell where two nets differ.

use rules::layout::*;

/// The part of a net in this form that the byte at this offset belongs to.
pub fn part_at(form: Form, offset: usize) -> String {
    match offset {
        0..=3 => format!("length byte {offset}"),
        4 => "version".to_string(),
        STATIONS_AT => "number of stations".to_string(),
        GROUPS_AT => "number of groups".to_string(),
        MARK_AT => "mark".to_string(),
        _ if offset < FIRST_MASK => part_of_group(offset - FIRST_GROUP),
        _ if offset < FIRST_ROUTE => {
            let place = offset - FIRST_MASK;
            format!("neighbours of station {} byte {}", place / 2, place % 2)
        }
        _ if offset < FIRST_ENTRY => {
            let place = offset - FIRST_ROUTE;
            format!("route station {} destination {}", place / MOST_STATIONS, place % MOST_STATIONS)
        }
        _ if offset < FIRST_CHANNEL => part_of_entry(form, offset - FIRST_ENTRY),
        _ if offset < NET_BYTES => part_of_channel(offset - FIRST_CHANNEL),
        _ => format!("byte {offset}, past the end of a net"),
    }
}

fn part_of_group(place: usize) -> String {
    let (group, byte) = (place / GROUP_SIZE, place % GROUP_SIZE);
    match byte {
        0 => format!("group {group} name length"),
        17 => format!("group {group} root"),
        _ => format!("group {group} name byte {}", byte - 1),
    }
}

fn part_of_entry(form: Form, place: usize) -> String {
    let (entry, byte) = (place / ENTRY_SIZE, place % ENTRY_SIZE);
    let (group, station) = match form {
        Form::Saved => (entry / MOST_STATIONS, entry % MOST_STATIONS),
        Form::Working => (entry % MOST_GROUPS, entry / MOST_GROUPS),
    };
    format!("entry group {group} station {station} byte {byte}")
}

fn part_of_channel(place: usize) -> String {
    let (channel, byte) = (place / CHANNEL_SIZE, place % CHANNEL_SIZE);
    let (from, to) = (channel / MOST_STATIONS, channel % MOST_STATIONS);
    if byte == 0 {
        return format!("channel from {from} to {to} count");
    }
    let (message, byte) = ((byte - 1) / MESSAGE_SIZE, (byte - 1) % MESSAGE_SIZE);
    format!("channel from {from} to {to} message {message} byte {byte}")
}

#[cfg(test)]
mod tests {
    use super::*;

    #[test]
    fn an_offset_has_its_name() {
        for form in [Form::Saved, Form::Working] {
            assert_eq!(part_at(form, entry_at(form, 1, 3) + 4), "entry group 1 station 3 byte 4");
            assert_eq!(part_at(form, root_at(2)), "group 2 root");
            assert_eq!(part_at(form, message_at(4, 5, 7) + 6), "channel from 4 to 5 message 7 byte 6");
        }
    }
}
