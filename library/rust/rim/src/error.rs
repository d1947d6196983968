//! Why a call has no answer.

use std::fmt;

/// Makes the enum `Error` of a table: the name of each code of rim.h, its number, its word as the program `rim` prints it, and what it means.
macro_rules! errors {
    ($($name:ident = $code:literal, $word:literal, $text:literal;)*) => {
        /// Why a call has no answer: a variant for each code of rim.h that is none.
        #[derive(Debug, Clone, Copy, PartialEq, Eq, Hash)]
        #[non_exhaustive]
        pub enum Error {
            $(#[doc = $text] $name,)*
            /// The library ends with a code, or answers in a form, that this crate does not know: it is of another version.
            Unknown(u32),
        }

        impl Error {
            /// All that rim.h has.
            pub const ALL: &'static [Error] = &[$(Error::$name),*];

            /// The error of a code of rim.h.
            pub fn of_code(code: u32) -> Error {
                match code {
                    $($code => Error::$name,)*
                    other => Error::Unknown(other),
                }
            }

            /// The code, as rim.h has it.
            pub fn code(self) -> u32 {
                match self {
                    $(Error::$name => $code,)*
                    Error::Unknown(code) => code,
                }
            }

            /// The word, as the program `rim` prints it; only in the place of `no-file` it prints `file-unreadable`, since it opens files.
            pub fn word(self) -> &'static str {
                match self {
                    $(Error::$name => $word,)*
                    Error::Unknown(_) => "unknown",
                }
            }

            fn text(self) -> &'static str {
                match self {
                    $(Error::$name => $text,)*
                    Error::Unknown(_) => "The library is of a version that this crate does not know.",
                }
            }
        }
    };
}

errors! {
    // of the call
    Null = 2, "null", "A pointer is null where there must be one. No call of this crate ends with it.";
    NoMemory = 4, "no-memory", "The allocator refused a growth.";
    Room = 5, "room", "The answer has more bytes than its room. The calls of this crate then make more room.";
    // of what was given
    NoText = 6, "no-text", "The path of the manifest, or a launch's name, is no UTF-8.";
    NoFile = 7, "no-file", "The manifest names a file that is not among those that were given.";
    FileTooLarge = 8, "file-too-large", "A file has more than 256 MiB.";
    NoSuchLaunch = 9, "no-such-launch", "No launch of the manifest has the name.";
    NoDevicetree = 10, "no-devicetree", "The launch has no devicetree.";
    TooManyPages = 11, "too-many-pages", "The launches have more than 1,048,576 different measured pages.";
    Never = 12, "never", "No call ends with this.";
    // why a manifest is refused
    Syntax = 20, "syntax", "The manifest is no UTF-8, or no TOML document.";
    Version = 21, "version", "`rim_manifest` is absent, or is not the whole number 1 or 2.";
    WrongKind = 22, "wrong-kind", "A known key holds another kind of value.";
    UnknownKey = 23, "unknown-key", "A table has a key that is not listed for it.";
    MissingKey = 24, "missing-key", "A required key is absent.";
    Limit = 25, "limit", "An array has more members than it may have.";
    Range = 26, "range", "A value is outside its range or form.";
    TwoNames = 27, "two-names", "Two files, two launches or two items share a name, or two items a kind that is there once.";
    NoSuchFile = 28, "no-such-file", "The `file` of an item is no file's name.";
    BadStep = 29, "bad-step", "`steps` has a text that is no step, or leaves something out, or names it twice.";
    // why a kernel is no Image
    KernelShort = 40, "kernel-short", "The Image has fewer than 64 bytes.";
    KernelBadMagic = 41, "kernel-bad-magic", "The Image has no magic.";
    // why a devicetree cannot be used
    DtbShort = 50, "dtb-short", "The devicetree has fewer than 40 bytes.";
    DtbBadMagic = 51, "dtb-bad-magic", "The first word of the devicetree is not 0xd00dfeed.";
    DtbBadVersion = 52, "dtb-bad-version", "The version of the devicetree is not 17, or the last compatible one is above 17.";
    DtbBadBlock = 53, "dtb-bad-block", "A block of the devicetree is not inside it, or is not aligned.";
    DtbBadReserve = 54, "dtb-bad-reserve", "No pair of zeros ends the reservations of the devicetree.";
    DtbBadToken = 55, "dtb-bad-token", "A token of the devicetree is not whole, has another number, or is not at its place.";
    DtbBadName = 56, "dtb-bad-name", "A node or a property of the devicetree has a name that is none.";
    DtbBadString = 57, "dtb-bad-string", "The name of a property is not inside the strings of the devicetree.";
    DtbLateProperty = 58, "dtb-late-property", "A property comes after a child of its node.";
    DtbTooDeep = 59, "dtb-too-deep", "A node of the devicetree is deeper than 64.";
    DtbBadCells = 60, "dtb-bad-cells", "The devicetree is to be edited, and its numbers of cells do not allow it.";
    DtbTooLarge = 61, "dtb-too-large", "The devicetree, or what it is edited to, has more than 2,097,152 bytes.";
    // where items are
    LayoutUnaligned = 70, "layout-unaligned", "A devicetree is not at a multiple of 8.";
    KernelBase = 71, "kernel-base", "A kernel's base is not a multiple of 2 MiB.";
    OutsideRam = 72, "outside-ram", "A page of an item is not wholly in one region of RAM.";
    Overlap = 73, "overlap", "Two items share a page.";
    InitrdWindow = 74, "initrd-window", "Kernel and initrd need more than 32 GiB of whole GiB.";
    Size = 75, "size", "A stated size is below the number of bytes, or the launch has more than 1,048,576 pages.";
    // what pages become
    PlanOutsideProtected = 80, "plan-outside-protected", "A region or an item ends above the protected half of the IPA space.";
    PlanUnaligned = 81, "plan-unaligned", "A region is not of whole pages.";
    PlanRipasTwice = 82, "plan-ripas-twice", "A page becomes RAM twice.";
    PlanNotRam = 83, "plan-not-ram", "A page of an item is not RAM yet.";
    PlanDataTwice = 84, "plan-data-twice", "A page of an item has contents already.";
    PlanTooManyEntries = 85, "plan-too-many-entries", "The launch has more than 4,194,304 blocks of RAM.";
    // granules and RECs
    PoolEnd = 90, "pool-end", "The pool has too few granules.";
    TooManyRecs = 91, "too-many-recs", "The launch has more than 512 RECs.";
    RecOrder = 92, "rec-order", "A step's REC is not the next one.";
    RecNotRunnable = 93, "rec-not-runnable", "A step's REC is not runnable, in a launch without a rule for such RECs.";
}

impl Error {
    /// The error of a word.
    pub fn of_word(word: &str) -> Option<Error> {
        Error::ALL.iter().copied().find(|each| each.word() == word)
    }

    /// Whether the manifest is refused.
    pub fn is_of_manifest(self) -> bool {
        (20..30).contains(&self.code())
    }

    /// Whether a launch is refused; or the file is no Image or no devicetree, where that was asked.
    pub fn is_of_launch(self) -> bool {
        (40..100).contains(&self.code())
    }
}

impl fmt::Display for Error {
    fn fmt(&self, out: &mut fmt::Formatter) -> fmt::Result {
        write!(out, "{}: {}", self.word(), self.text())
    }
}

impl std::error::Error for Error {}
