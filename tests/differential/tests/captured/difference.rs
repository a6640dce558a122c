/// Where the captured machine, qemu's controller with its keyboard and the programs in front of it, does
/// otherwise than the service.
#[derive(Clone, Copy, Debug, PartialEq, Eq, PartialOrd, Ord)]
pub enum Difference {
    /// Bit 3 of the status is never off there.
    StatusBit3,
    /// Bit 2 of the status is off there until the first self test.
    StatusBit2,
    /// Bit 0 of the status tells there of the answer to AB, which the service refuses.
    StatusOfTheLineTest,
    /// Bits 0 and 5 of the status tell there of a byte of the mouse's side.
    StatusOfTheMouse,
    /// A command that is done there, and refused by 15.
    Command(u8),
    /// Bytes to port 60 that are handed on there, and refused by 16. First those for the keyboard: what
    /// starts it, its lamps, its rate, and who it is.
    StartsTheKeyboard,
    SetsLamps,
    SetsRate,
    AsksWhoItIs,
    /// The byte behind D3 or D4.
    ForTheMouse,
    /// What is read at port 60 there where the service gives the last byte again.
    AnswerOfTheLineTest,
    ByteBehindD3,
    ReplyOfTheMouse,
    /// A8 turned bit 5 of the command byte off there.
    CommandByteBehindA8,
    /// The answer to 20 raises interrupt 1 there where bit 0 of the command byte is on.
    InterruptAtAnAnswer,
    /// A reply of the keyboard to what was written to port 60, which the service is fed as a key.
    ReplyFed,
    /// The reply 41 is the make of F7.
    WordOfAReply,
    /// The BIOS has no function 03.
    NoFunction03,
    /// Bit 4 of flag byte 96, an enhanced keyboard, is always on there.
    EnhancedKeyboard,
    /// Bit 4 of flag byte 97, acknowledged, stays off there.
    Acknowledged,
    /// F11 is returned by function 00 there.
    OldProgramSeesF11,
    /// Left Ctrl going up is taken there for both.
    OneCtrlForBoth,
    /// Flag bytes tell nothing there of the system request key, of Insert, or of a pause.
    NoSystemRequest,
    NoInsert,
    NoPause,
    /// A number typed with Alt is no character there.
    NoAltNumber,
    /// A terminal makes more than one byte of a key that has no character, and one of Print.
    TerminalString,
    TerminalPrint,
}
