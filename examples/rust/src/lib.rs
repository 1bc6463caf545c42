//! A safe wrapper of the link security module. Slices carry their own lengths and cannot overlap where one is lent for writing, which is all
//! that the module asks of a caller; so nothing here can break its contract. `include/xistalvo.h` has that contract in words.

/// The managed numbers of an image, one for each entry: the last number sent or accepted. Made by [`load`].
#[derive(Clone, Debug, PartialEq, Eq)]
pub struct Numbers([u32; 32]);

impl Numbers {
    /// The last number of an entry, or none where there is no such entry in any image.
    pub fn last(&self, entry: usize) -> Option<u32> {
        self.0.get(entry).copied()
    }
}

/// What checks and commands are noted in: a frame security report for each desk, and a log of 256 events.
#[derive(Clone, Debug, PartialEq, Eq)]
pub struct Notes {
    lent: LentNotes,
    events: [u8; 768],
}

/// As `xistalvo_notes` of `include/xistalvo.h`.
#[repr(C)]
#[derive(Clone, Debug, PartialEq, Eq)]
struct LentNotes {
    reports: [u8; 12],
    kept: u32,
    dropped: u32,
}

/// One check or command: the desk that it was made for, the command's first octet or 0, and the number of the answer.
#[derive(Clone, Copy, Debug, PartialEq, Eq)]
pub struct Event {
    pub desk: u8,
    pub tag: u8,
    pub answer: u8,
}

impl Notes {
    /// No alarm, no flag and no event.
    pub fn fresh() -> Notes {
        let mut notes = Notes { lent: LentNotes { reports: [0; 12], kept: 0, dropped: 0 }, events: [0; 768] };
        // Safety: the struct is borrowed alone, and laid out as the interface has it.
        unsafe { interface::xistalvo_fresh_notes(&mut notes.lent) };
        notes
    }

    /// The report of a desk, as it rides in an operational control field.
    pub fn report(&self, desk: Desk) -> [u8; 4] {
        let first = 4 * desk as usize;
        [0, 1, 2, 3].map(|octet| self.lent.reports[first + octet])
    }

    /// The events that are kept, the oldest first.
    pub fn events(&self) -> impl Iterator<Item = Event> + '_ {
        let kept = (self.lent.kept as usize).min(256);
        self.events.chunks_exact(3).take(kept).map(|event| Event { desk: event[0], tag: event[1], answer: event[2] })
    }

    /// How many events found the log full.
    pub fn dropped(&self) -> u32 {
        self.lent.dropped
    }
}

/// The desks: the key office's, which sees every association, and those of two laboratories, which see their own.
#[derive(Clone, Copy, Debug, PartialEq, Eq)]
pub enum Desk {
    KeyOffice = 0,
    One = 1,
    Two = 2,
}

/// The kinds of frames.
#[derive(Clone, Copy, Debug, PartialEq, Eq)]
pub enum Kind {
    Tc = 1,
    TcSegment = 2,
    Tm = 3,
    Aos = 4,
}

/// Why a call was refused. It then changed nothing but the notes.
#[derive(Clone, Copy, Debug, PartialEq, Eq)]
pub enum Refusal {
    BadImage = 1,
    NumbersDisagree = 2,
    BadFrame = 3,
    NoAssociation = 4,
    SecuredTooShort = 5,
    OutputTooShort = 6,
    MacDiffers = 7,
    NumberRefused = 8,
    NumbersUsedUp = 10,
    SecuredTooLong = 11,
    CheckFieldDiffers = 12,
    BadCommand = 13,
    UnknownSpi = 14,
    WrongState = 15,
    ValueRefused = 16,
    UnknownKey = 17,
    WrongKeyState = 18,
    DeskRefused = 19,
}

impl Refusal {
    /// The answer's number in the scope paper.
    pub fn number(self) -> u8 {
        self as u8
    }

    /// The answer in words.
    pub fn name(self) -> &'static str {
        match self {
            Refusal::BadImage => "image breaks a rule",
            Refusal::NumbersDisagree => "numbers do not agree with the marks",
            Refusal::BadFrame => "frame breaks a rule of its kind",
            Refusal::NoAssociation => "no association matches",
            Refusal::SecuredTooShort => "secured frame too short",
            Refusal::OutputTooShort => "output too short",
            Refusal::MacDiffers => "MAC differs",
            Refusal::NumberRefused => "number outside the window",
            Refusal::NumbersUsedUp => "numbers used up",
            Refusal::SecuredTooLong => "secured frame would be too long",
            Refusal::CheckFieldDiffers => "check field differs",
            Refusal::BadCommand => "no such command, or of another length",
            Refusal::UnknownSpi => "no association has the SPI",
            Refusal::WrongState => "state does not allow the command",
            Refusal::ValueRefused => "value not allowed",
            Refusal::UnknownKey => "no key has the ID",
            Refusal::WrongKeyState => "state of the key, or its use, does not allow the command",
            Refusal::DeskRefused => "no such desk, or not a command of that desk",
        }
    }
}

/// A call that was done: the octets at the start of the output, and how many octets were stored in the image.
#[derive(Clone, Copy, Debug, PartialEq, Eq)]
pub struct Done {
    pub length: usize,
    pub stores: u8,
}

mod interface {
    use super::LentNotes;

    extern "C" {
        pub fn xistalvo_fresh_notes(notes: *mut LentNotes);
        pub fn xistalvo_load(image: *const u8, image_length: usize, numbers: *mut u32, numbers_length: usize) -> u64;
        pub fn xistalvo_secure(
            image: *mut u8,
            image_length: usize,
            numbers: *mut u32,
            numbers_length: usize,
            desk: u8,
            kind: u8,
            check_field: u8,
            spi: u16,
            frame: *const u8,
            frame_length: usize,
            output: *mut u8,
            output_length: usize,
        ) -> u64;
        pub fn xistalvo_check(
            notes: *mut LentNotes,
            events: *mut u8,
            events_length: usize,
            image: *mut u8,
            image_length: usize,
            numbers: *mut u32,
            numbers_length: usize,
            desk: u8,
            kind: u8,
            check_field: u8,
            frame: *const u8,
            frame_length: usize,
            output: *mut u8,
            output_length: usize,
        ) -> u64;
        pub fn xistalvo_command(
            notes: *mut LentNotes,
            events: *mut u8,
            events_length: usize,
            image: *mut u8,
            image_length: usize,
            numbers: *mut u32,
            numbers_length: usize,
            desk: u8,
            command: *const u8,
            command_length: usize,
            output: *mut u8,
            output_length: usize,
        ) -> u64;
        pub fn xistalvo_raise(image: *mut u8, image_length: usize, entry: u8, number: u32, stores: u32) -> u32;
        pub fn xistalvo_command_cut(
            image: *mut u8,
            image_length: usize,
            numbers: *const u32,
            numbers_length: usize,
            desk: u8,
            command: *const u8,
            command_length: usize,
            output_length: usize,
            stores: u32,
        ) -> u32;
    }
}

/// Bits 0 to 31 are the length, 32 to 39 the stores, 40 to 47 the answer.
fn unpack(result: u64) -> Result<Done, Refusal> {
    let refusal = match (result >> 40) as u8 {
        0 => return Ok(Done { length: result as u32 as usize, stores: (result >> 32) as u8 }),
        1 => Refusal::BadImage,
        2 => Refusal::NumbersDisagree,
        3 => Refusal::BadFrame,
        4 => Refusal::NoAssociation,
        5 => Refusal::SecuredTooShort,
        6 => Refusal::OutputTooShort,
        7 => Refusal::MacDiffers,
        8 => Refusal::NumberRefused,
        10 => Refusal::NumbersUsedUp,
        11 => Refusal::SecuredTooLong,
        12 => Refusal::CheckFieldDiffers,
        13 => Refusal::BadCommand,
        14 => Refusal::UnknownSpi,
        15 => Refusal::WrongState,
        16 => Refusal::ValueRefused,
        17 => Refusal::UnknownKey,
        18 => Refusal::WrongKeyState,
        19 => Refusal::DeskRefused,
        other => unreachable!("the module has no answer {other}"),
    };
    Err(refusal)
}

/// A restart: makes the managed numbers from an image.
pub fn load(image: &[u8]) -> Result<Numbers, Refusal> {
    let mut numbers = Numbers([0; 32]);
    // Safety: both ranges are lent with their lengths, and they do not overlap.
    let result = unsafe { interface::xistalvo_load(image.as_ptr(), image.len(), numbers.0.as_mut_ptr(), numbers.0.len()) };
    unpack(result).map(|_| numbers)
}

/// Secures a clear frame for a desk, under the association with this SPI; the secured frame fills the start of the output, and ends in a check field if the
/// clear one does.
pub fn secure(
    image: &mut [u8],
    numbers: &mut Numbers,
    desk: Desk,
    kind: Kind,
    check_field: bool,
    spi: u16,
    frame: &[u8],
    output: &mut [u8],
) -> Result<Done, Refusal> {
    // Safety: as for `load`; what is lent for writing is borrowed alone.
    unpack(unsafe {
        interface::xistalvo_secure(
            image.as_mut_ptr(),
            image.len(),
            numbers.0.as_mut_ptr(),
            numbers.0.len(),
            desk as u8,
            kind as u8,
            check_field as u8,
            spi,
            frame.as_ptr(),
            frame.len(),
            output.as_mut_ptr(),
            output.len(),
        )
    })
}

/// Checks a secured frame for a desk, and notes what came of it; the clear data fills the start of the output.
pub fn check(
    notes: &mut Notes,
    image: &mut [u8],
    numbers: &mut Numbers,
    desk: Desk,
    kind: Kind,
    check_field: bool,
    frame: &[u8],
    output: &mut [u8],
) -> Result<Done, Refusal> {
    // Safety: as for `secure`.
    unpack(unsafe {
        interface::xistalvo_check(
            &mut notes.lent,
            notes.events.as_mut_ptr(),
            notes.events.len(),
            image.as_mut_ptr(),
            image.len(),
            numbers.0.as_mut_ptr(),
            numbers.0.len(),
            desk as u8,
            kind as u8,
            check_field as u8,
            frame.as_ptr(),
            frame.len(),
            output.as_mut_ptr(),
            output.len(),
        )
    })
}

/// Carries out a management command for a desk: tag, length of the value in 2 octets, value. A reply fills the start of the output.
pub fn command(
    notes: &mut Notes,
    image: &mut [u8],
    numbers: &mut Numbers,
    desk: Desk,
    command: &[u8],
    output: &mut [u8],
) -> Result<Done, Refusal> {
    // Safety: as for `secure`.
    unpack(unsafe {
        interface::xistalvo_command(
            &mut notes.lent,
            notes.events.as_mut_ptr(),
            notes.events.len(),
            image.as_mut_ptr(),
            image.len(),
            numbers.0.as_mut_ptr(),
            numbers.0.len(),
            desk as u8,
            command.as_ptr(),
            command.len(),
            output.as_mut_ptr(),
            output.len(),
        )
    })
}

/// The cut: makes the first stores of those that raise an entry's mark to number/64, and says how many it made.
pub fn raise(image: &mut [u8], entry: u8, number: u32, stores: u32) -> u32 {
    // Safety: the range is lent with its length.
    unsafe { interface::xistalvo_raise(image.as_mut_ptr(), image.len(), entry, number, stores) }
}

/// The cut of a command with that much room for its reply: makes the first of its stores, and says how many it made.
pub fn command_cut(image: &mut [u8], numbers: &Numbers, desk: Desk, command: &[u8], room: usize, stores: u32) -> u32 {
    // Safety: each range is lent with its length.
    unsafe {
        interface::xistalvo_command_cut(
            image.as_mut_ptr(),
            image.len(),
            numbers.0.as_ptr(),
            numbers.0.len(),
            desk as u8,
            command.as_ptr(),
            command.len(),
            room,
            stores,
        )
    }
}
