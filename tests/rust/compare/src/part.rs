//! What the byte of a refusal counts in.

use model::{ByteOrder, Refusal, hex};

#[derive(Clone, Copy, Debug, PartialEq, Eq, PartialOrd, Ord)]
pub enum Part {
    Table,
    /// The object in a DMInfo.
    Info,
    /// The file of a manager, and the index text of StandardStMan; of a big
    /// endian table.
    File,
    Text,
    /// The same of a little endian table.
    LittleFile,
    LittleText,
    /// The asked TableRecord, in `table.dat`.
    Keywords,
}

impl Part {
    pub const ALL: [Self; 7] = [
        Self::Table,
        Self::Info,
        Self::File,
        Self::Text,
        Self::LittleFile,
        Self::LittleText,
        Self::Keywords,
    ];

    pub fn name(self) -> &'static str {
        match self {
            Self::Table => "table",
            Self::Info => "info",
            Self::File => "file",
            Self::Text => "text",
            Self::LittleFile => "little-file",
            Self::LittleText => "little-text",
            Self::Keywords => "keywords",
        }
    }

    pub fn from_name(name: &str) -> Option<Self> {
        Self::ALL.into_iter().find(|part| part.name() == name)
    }

    /// The refusal numbers that blame a field of it. Index text and DMInfo have
    /// no Bool, and nothing else that gives 5; no two facts of a TableRecord can
    /// disagree.
    pub fn numbers(self) -> &'static [usize] {
        match self {
            Self::Table | Self::File | Self::LittleFile => &[1, 2, 3, 4, 5, 6, 7],
            Self::Info | Self::Text | Self::LittleText => &[1, 2, 3, 4, 6, 7],
            Self::Keywords => &[1, 2, 3, 4, 5, 7],
        }
    }

    /// Where a request is refused that blames this byte. The table comes before
    /// keywords and before the file; and after the file's header and length, but before its text,
    /// comes a room that is too short.
    pub fn of(request: &str, byte: usize) -> Self {
        let table = request.split(' ').nth(1).and_then(hex::decode).unwrap_or_default();
        let Ok(description) = model::describe(&table) else {
            return if is_in_info(&table, byte) { Self::Info } else { Self::Table };
        };
        if request.starts_with("keyword ") || request.starts_with("field ") {
            return Self::Keywords;
        }
        let without_room = request.rsplit_once(' ').map(|(rest, _)| format!("{rest} 0"));
        let answer = model::answer(&without_room.unwrap_or_default());
        match (answer.starts_with("refused 13 "), description.byte_order) {
            (false, ByteOrder::Big) => Self::File,
            (true, ByteOrder::Big) => Self::Text,
            (false, ByteOrder::Little) => Self::LittleFile,
            (true, ByteOrder::Little) => Self::LittleText,
        }
    }
}

/// Whether a byte is of a DMInfo that is read as an object: without the mark
/// that stands last before it, the DMInfo has a wrong length.
fn is_in_info(table: &[u8], byte: usize) -> bool {
    let before = table.get(..byte).unwrap_or_default();
    let Some(mark) = before.windows(4).rposition(|bytes| bytes == [0xBE; 4]) else {
        return false;
    };
    let mut unmarked = table.to_vec();
    unmarked[mark] = 0;
    // The mark before Table is at 0.
    mark > 4 && model::describe(&unmarked) == Err(Refusal::at(7, mark - 4))
}
