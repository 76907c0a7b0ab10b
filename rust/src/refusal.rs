//! Why a call was refused.

use std::error::Error;
use std::fmt;
use std::io;

/// Makes the enum, and what each number is called, means and asks for, from one table.
macro_rules! refusals {
    ($($number:literal $variant:ident, $name:literal, $cause:literal, $help:literal;)*) => {
        /// Why a call was refused: the cause, by the number that the specification gives it.
        ///
        /// A refused call on a chain leaves the bytes, the tables and the state as they were; a refused opening leaves
        /// the bytes, and lent tables as they were at 1 to 11 and zero at 12 to 18. Each refusal has its
        /// [`number`](Refusal::number), a [`name`](Refusal::name), its [`reason`](Refusal::reason) and a sentence of
        /// [`help`](Refusal::help). docs/MOVING-FROM-CFB.md has a table of where each may come from.
        ///
        /// ```
        /// use rasuvelk::{Image, Refusal, Validation};
        ///
        /// let refusal = Image::open(vec![0; 512], Validation::Strict).unwrap_err();
        /// assert_eq!(refusal, Refusal::Signature);
        /// assert_eq!(refusal.number(), 2);
        /// assert_eq!(refusal.to_string(), "refusal 2, signature: the first eight bytes are not the signature");
        /// ```
        #[derive(Clone, Copy, Debug, PartialEq, Eq, Hash, PartialOrd, Ord)]
        #[non_exhaustive]
        pub enum Refusal {
            $(
                #[doc = concat!(stringify!($number), ": ", $cause, ".")]
                $variant,
            )*
            /// A number that this package has no row for: the archive is not the one that it was written for.
            Unknown(u32),
        }

        impl Refusal {
            /// Every refusal that has a row, by number upward.
            ///
            /// ```
            /// use rasuvelk::Refusal;
            ///
            /// let numbers: Vec<u32> = Refusal::ALL.iter().map(|refusal| refusal.number()).collect();
            /// assert_eq!(numbers, (1..=26).collect::<Vec<u32>>());
            /// ```
            pub const ALL: [Refusal; 26] = [$(Refusal::$variant),*];

            /// The refusal of a number. One without a row, such as 0, which is acceptance, gives
            /// [`Unknown`](Refusal::Unknown).
            ///
            /// ```
            /// use rasuvelk::Refusal;
            ///
            /// assert_eq!(Refusal::from_number(24), Refusal::NoRoom);
            /// assert_eq!(Refusal::from_number(27), Refusal::Unknown(27));
            /// ```
            pub fn from_number(number: u32) -> Refusal {
                match number {
                    $($number => Refusal::$variant,)*
                    number => Refusal::Unknown(number),
                }
            }

            /// The number that the specification, the archive and docs/NUMBERS.md know it by.
            ///
            /// ```
            /// use rasuvelk::Refusal;
            ///
            /// assert_eq!(Refusal::FreePointee.number(), 18);
            /// ```
            pub fn number(self) -> u32 {
                match self {
                    $(Refusal::$variant => $number,)*
                    Refusal::Unknown(number) => number,
                }
            }

            /// A short name, in words.
            ///
            /// ```
            /// use rasuvelk::Refusal;
            ///
            /// assert_eq!(Refusal::PointedTwice.name(), "pointed to twice");
            /// ```
            pub fn name(self) -> &'static str {
                match self {
                    $(Refusal::$variant => $name,)*
                    Refusal::Unknown(_) => "unknown",
                }
            }

            /// The reason, as half a sentence.
            ///
            /// ```
            /// use rasuvelk::Refusal;
            ///
            /// assert_eq!(Refusal::Loop.reason(), "the chain comes back to its start");
            /// ```
            pub fn reason(self) -> &'static str {
                match self {
                    $(Refusal::$variant => $cause,)*
                    Refusal::Unknown(_) => "the archive gave a number that this package does not know",
                }
            }

            /// What to do about it, in a sentence.
            ///
            /// ```
            /// use rasuvelk::Refusal;
            ///
            /// assert!(Refusal::NoRoom.help().contains("Growth"));
            /// ```
            pub fn help(self) -> &'static str {
                match self {
                    $(Refusal::$variant => $help,)*
                    Refusal::Unknown(_) => "Link the archive that was made from the same checkout as this package.",
                }
            }
        }
    };
}

refusals! {
    1 TooShort, "too short",
        "fewer than 512 bytes, or more are said to be used than there are",
        "Hand in the whole file; one of under 512 bytes is no compound file.";
    2 Signature, "signature",
        "the first eight bytes are not the signature",
        "The file is of another format; compound files begin with d0 cf 11 e0 a1 b1 1a e1.";
    3 ByteOrder, "byte order",
        "the byte order mark is not 0xfffe",
        "The header is damaged; get the file anew.";
    4 Version, "version",
        "the major version is neither 3 nor 4",
        "No other version is defined; the header is damaged, or the words handed to the writer hold no header.";
    5 SectorShift, "sector shift",
        "the sector shift is not that of the version, 9 or 12",
        "The header is damaged; get the file anew.";
    6 MiniSectorShift, "mini sector shift",
        "the mini sector shift is not 6",
        "The header is damaged; get the file anew.";
    7 DirSectors, "directory sectors",
        "version 3 counts directory sectors, in strict mode or in a header to be written",
        "Open it permissively to read it; in a header of your own set num_dir_sectors to 0.";
    8 Cutoff, "cutoff",
        "the mini stream cutoff is not 4096",
        "The header is damaged, or its writer chose another cutoff; get the file anew, or have another program save it.";
    9 HeaderList, "header list",
        "the header's list of FAT sectors is not ids and then FREE to its end",
        "The header is damaged or hides ids behind the first FREE; get the file anew, or have another program save it.";
    10 WholeSectors, "whole sectors",
        "the used bytes are no whole number of sectors, or more than 16,384 besides the header's",
        "A file that was cut off or has bytes after its end: get it anew; a larger one than 16,384 sectors cannot be opened.";
    11 ShortTable, "short table",
        "a lent table or the id list has fewer elements than the image has room for sectors",
        "Lend at least `room_for` elements in each; `Image` never meets this.";
    12 FatLists, "FAT lists",
        "the counts or lists of FAT and DIFAT sectors are not those that the number of sectors asks for",
        "The file was cut off, has sectors without a FAT, or spare FAT sectors; get it anew, or have another program save it.";
    13 FatTail, "FAT tail",
        "a FAT entry past the last sector is not FREE",
        "The file was cut off, or its writer left entries there; get it anew, set those entries to FREE, or have another program save it.";
    14 Unmarked, "unmarked",
        "a FAT or DIFAT sector is not marked as one in the FAT, in strict mode",
        "Open it permissively to read it; to change it, have another program save it.";
    15 PastEnd, "past the end",
        "an entry names a sector that is not there, in strict mode",
        "Open it permissively to read what there is; chains that ran past the end are cut there.";
    16 PointedTwice, "pointed to twice",
        "two entries name one sector",
        "Two chains share a sector, so one of them holds the other's bytes; get the file anew.";
    17 InvalidEntry, "invalid entry",
        "an entry is 0xfffffffb, which means nothing",
        "The FAT is damaged; get the file anew.";
    18 FreePointee, "FREE pointee",
        "an entry names a sector that is FREE",
        "A chain runs into a sector that the next write would give away; get the file anew.";
    19 Disagrees, "disagrees",
        "state and tables are not what an opening of the image gives",
        "Something changed bytes, tables or state between two calls; open the image again. `Image` keeps them together.";
    20 BadStart, "bad start",
        "the start is neither END_OF_CHAIN nor a sector of the image",
        "Take the start from the header, from a directory entry or from `chain_starts`.";
    21 BrokenChain, "broken chain",
        "the chain meets an entry that is neither END_OF_CHAIN nor a sector of the image",
        "The start is FREE, or the chain runs into a sector of the FAT or the DIFAT: what named the start is wrong, or the FAT is; other chains can be read.";
    22 Loop, "loop",
        "the chain comes back to its start",
        "The FAT is damaged, and this chain has no end; other chains of the file can be read.";
    23 Offset, "offset",
        "the offset lies past the chain's end",
        "Offsets may be at most the chain's length; make it longer by `resize` first.";
    24 NoRoom, "no room",
        "the change would end with more sectors than there is room for",
        "Make room by `reserve` or choose a `Growth` (of an `Image`), or lend a longer image; 16,384 sectors is the most.";
    25 MidChain, "middle of a chain",
        "a change was asked for from the middle of a chain",
        "Change a chain by its first sector, the one that no entry names; reading from the middle is allowed.";
    26 PermissiveChange, "permissive change",
        "a change was asked for of an image that was opened permissively",
        "Open it strictly to change it; where that is refused, have another program save it.";
}

impl fmt::Display for Refusal {
    fn fmt(&self, out: &mut fmt::Formatter<'_>) -> fmt::Result {
        write!(out, "refusal {}, {}: {}", self.number(), self.name(), self.reason())
    }
}

impl Error for Refusal {}

/// A refusal as an `io::Error`, for callers whose functions give one: what the file is to blame for is `InvalidData`,
/// what the call is to blame for `InvalidInput`.
///
/// ```
/// use rasuvelk::Refusal;
/// use std::io::{Error, ErrorKind};
///
/// assert_eq!(Error::from(Refusal::FreePointee).kind(), ErrorKind::InvalidData);
/// assert_eq!(Error::from(Refusal::Offset).kind(), ErrorKind::InvalidInput);
/// ```
impl From<Refusal> for io::Error {
    fn from(refusal: Refusal) -> io::Error {
        let kind = match refusal.number() {
            1..=10 | 12..=18 | 21 | 22 => io::ErrorKind::InvalidData,
            _ => io::ErrorKind::InvalidInput,
        };
        io::Error::new(kind, refusal)
    }
}
