//! What an answer says in words.

/// How the word beside an answer is shown.
#[derive(Clone, Copy, Debug, PartialEq, Eq)]
enum Shown {
    /// Not at all: it is 0000.
    Never,
    /// As four digits, with its character.
    Word,
    /// The same, but 0000 is not shown.
    WordIfAny,
    /// As four digits alone.
    Status,
    /// As the byte in its low half; the high half is 00.
    Byte,
}

/// An answer that an event of some tag can have.
#[derive(Clone, Copy, Debug, PartialEq, Eq)]
pub struct Answer {
    pub meaning: &'static str,
    shown: Shown,
}

impl Answer {
    /// None if no event of this tag is answered so.
    pub fn of(tag: char, ans: u8) -> Option<Answer> {
        let (meaning, shown) = match (tag, ans) {
            ('K' | 'S', 0x00) => ("nothing", Shown::Never),
            ('K' | 'S', 0x01) => ("put", Shown::Word),
            ('K' | 'S', 0x02) => ("queue full, dropped", Shown::Word),
            ('K' | 'S', 0x03) => ("break, queue holds 0000 alone", Shown::Never),
            ('K' | 'S', 0x04) => ("restart asked", Shown::Never),
            ('K' | 'S', 0x05) => ("overrun, bytes were lost", Shown::Never),
            ('K', 0x06) => ("reply taken", Shown::Never),
            ('K', 0x07) => ("reply ignored", Shown::Never),
            ('S', 0x07) => ("scanner's reply ignored", Shown::Never),
            ('T', 0x07) => ("time-out ignored", Shown::Never),
            ('C', 0x08) => ("returned", Shown::Word),
            ('C', 0x09) => ("no word, queue empty", Shown::Never),
            ('C', 0x0A) => ("status", Shown::Status),
            ('C', 0x0B) => ("done", Shown::WordIfAny),
            ('T', 0x0B) => ("time-out counted", Shown::Never),
            ('E', 0x0B) => ("queue emptied", Shown::Never),
            ('R', 0x0B) => ("line restarted", Shown::Never),
            ('P', 0x0C) => ("send", Shown::Byte),
            ('P', 0x0D) => ("nothing to send", Shown::Never),
            ('K', 0x0E) => ("reply taken, given up", Shown::Never),
            ('T', 0x0E) => ("time-out counted, given up", Shown::Never),
            ('C', 0x82) => ("refused 2, unknown function", Shown::Never),
            ('C', 0x83) => ("refused 3, delay above 3", Shown::Never),
            ('C', 0x84) => ("refused 4, rate above 31", Shown::Never),
            ('C', 0x85) => ("refused 5, queue full", Shown::Never),
            _ => return None,
        };
        Some(Answer { meaning, shown })
    }

    /// Whether this word can stand beside the answer.
    pub fn has_word(self, word: u16) -> bool {
        match self.shown {
            Shown::Never => word == 0x0000,
            Shown::Byte => word <= 0x00FF,
            Shown::Word | Shown::WordIfAny | Shown::Status => true,
        }
    }

    /// The answer with its word.
    pub fn told(self, word: u16) -> String {
        let meaning = self.meaning;
        match self.shown {
            Shown::Never => meaning.to_string(),
            Shown::WordIfAny if word == 0x0000 => meaning.to_string(),
            Shown::Word | Shown::WordIfAny => format!("{meaning} {word:04X}{}", character(word)),
            Shown::Status => format!("{meaning} {word:04X}"),
            Shown::Byte => format!("{meaning} {word:02X}"),
        }
    }
}

/// The low byte of a word as a character, where it has a printable one.
fn character(word: u16) -> String {
    let ascii = char::from(word.to_be_bytes()[1]);
    match ascii {
        ' '..='~' => format!(" '{ascii}'"),
        _ => String::new(),
    }
}

#[cfg(test)]
mod tests {
    use super::*;

    fn told(tag: char, ans: u8, word: u16) -> String {
        Answer::of(tag, ans).unwrap().told(word)
    }

    #[test]
    fn words_have_their_character_if_it_can_be_printed() {
        assert_eq!(told('K', 0x01, 0x1E41), "put 1E41 'A'");
        assert_eq!(told('K', 0x01, 0x3920), "put 3920 ' '");
        assert_eq!(told('K', 0x01, 0x297E), "put 297E '~'");
        assert_eq!(told('K', 0x01, 0x0E7F), "put 0E7F");
        assert_eq!(told('K', 0x01, 0x1C0D), "put 1C0D");
        assert_eq!(told('K', 0x02, 0x00FF), "queue full, dropped 00FF");
        assert_eq!(told('C', 0x08, 0x0000), "returned 0000");
    }

    #[test]
    fn statuses_and_bytes_have_none() {
        assert_eq!(told('C', 0x0A, 0x0041), "status 0041");
        assert_eq!(told('P', 0x0C, 0x0004), "send 04");
        assert_eq!(told('C', 0x0B, 0x0000), "done");
        assert_eq!(told('C', 0x0B, 0x1E61), "done 1E61 'a'");
    }

    #[test]
    fn each_tag_has_its_own_answers() {
        let count = |tag| {
            let answered = |&ans: &u8| Answer::of(tag, ans).is_some();
            (0x00..=0xFF).filter(answered).count()
        };
        let counts = ['K', 'S', 'C', 'P', 'T', 'E', 'R', 'X'].map(count);
        assert_eq!(counts, [9, 7, 8, 2, 3, 1, 1, 0]);
    }

    #[test]
    fn the_line_takes_nothing_from_a_scanner() {
        assert_eq!(told('S', 0x07, 0x0000), "scanner's reply ignored");
        for ans in [0x06, 0x0E] {
            assert!(Answer::of('K', ans).is_some());
            assert_eq!(Answer::of('S', ans), None);
        }
    }

    #[test]
    fn a_word_stands_where_there_is_one() {
        let fits = |tag, ans, word| Answer::of(tag, ans).unwrap().has_word(word);
        assert!(!fits('K', 0x00, 0x1E61));
        assert!(fits('K', 0x00, 0x0000));
        assert!(!fits('P', 0x0C, 0x01ED));
        assert!(fits('P', 0x0C, 0x00ED));
        assert!(fits('C', 0x0A, 0xFFFF));
    }
}
