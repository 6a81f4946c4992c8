//! The numbers a call gives back (document 01, "The numbers a call gives back"; document 02).

#[derive(Clone, Copy, Debug, PartialEq, Eq)]
pub enum Number {
    Done = 0,
    Short = 1,
    Type = 2,
    Length = 3,
    Width = 4,
    Key = 5,
    Tunnel = 6,
    Ident = 7,
    Long = 8,
    Label = 9,
    Family = 10,
    Table = 11,
    Kind = 12,
    Room = 13,
    Absent = 14,
    Flow = 15,
    Space = 16,
    Deep = 17,
    Range = 18,
    Group = 19,
    Conflict = 20,
}

impl Number {
    pub fn value(self) -> u32 {
        self as u32
    }
}
