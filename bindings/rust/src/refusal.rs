//! Why a call refused, by the table of refusals.

use std::error::Error;
use std::fmt;

/// Why a call refused. `SIZE`, `DAMAGED`, `NO_ROOM` and `OUT` speak of lent memory: a [`Sketch`](crate::Sketch) never answers them.
///
/// Five answers tell what is wrong with an image's exception words, and four of them where: the position of a word is counted from 0, with the
/// zero words that an image without the compact flag may have. The earliest wrong word is told; for one word, the first of `AUX_EMPTY`,
/// `AUX_TWICE`, `AUX_LOW`. A word with a slot and no value is not empty: it is one of the other two in every image.
#[derive(Clone, Copy, Debug, PartialEq, Eq, Hash)]
pub enum Refusal {
    /// `KIND`: a kind that is not 4, 6 or 8, or a merge target that is not of kind 8.
    Kind,
    /// `LGK`: lg_k outside 4 to 21.
    LgK,
    /// `SIZE`: a lent buffer of another length than the sketch has.
    Size,
    /// `DAMAGED`: a lent sketch that is not in good order.
    Damaged,
    /// `FINER`: a sketch whose lg_k is larger than that of what is to be merged into it or fed to it.
    Finer,
    /// `NO_ROOM`: a lent exception area that is too small.
    NoRoom,
    /// `SHORT`: an image of fewer bytes than its header has or asks for.
    Short,
    /// `HEADER`: an image whose first bytes are not 10, 1, 7; of a list or set, 2 or 3, 1, 7.
    Header,
    /// `MODE`: an image whose mode byte is not 2, 6 or 10; of a list or set, does not end in the bits 00 or 01.
    Mode,
    /// `COUNTS`: an image whose cur_min or one of whose two counts cannot be.
    Counts,
    /// `LGARR`: an image that says its exceptions take more than 2^22 words.
    LgArr,
    /// `VALUE`: an image with a register over 63.
    Value,
    /// `SPARE`: an image of kind 6 whose last register byte is not 0.
    Spare,
    /// `TALLY`: an image whose num_at_cur_min is not the number of registers there.
    Tally,
    /// `OUT`: a lent buffer that is shorter than the image.
    Out,
    /// `AUX_EMPTY`: a compact image with an exception word that is zero, at this position.
    AuxEmpty(u32),
    /// `AUX_TWICE`: an image with an exception word whose slot an earlier word has; the later word's position.
    AuxTwice(u32),
    /// `AUX_LOW`: an image with an exception word whose value is below cur_min + 15, at this position.
    AuxLow(u32),
    /// `AUX_COUNT`: an image that lists more or fewer exceptions than its count.
    AuxCount,
    /// `AUX_MATCH`: an image that lists other slots than those whose nibble is 15; the smallest slot that is one and not the other.
    AuxMatch(u32),
    /// `FORM`: a list or set without the compact flag.
    Form,
    /// `LISTEMPTY`: a list or set with a word that is zero; the first one's position, from 0.
    ListEmpty(u32),
}

impl Refusal {
    /// Each of them, those that carry something with this.
    fn all(place: u32) -> [Refusal; 22] {
        [
            Refusal::Kind,
            Refusal::LgK,
            Refusal::Size,
            Refusal::Damaged,
            Refusal::Finer,
            Refusal::NoRoom,
            Refusal::Short,
            Refusal::Header,
            Refusal::Mode,
            Refusal::Counts,
            Refusal::LgArr,
            Refusal::Value,
            Refusal::Spare,
            Refusal::Tally,
            Refusal::Out,
            Refusal::AuxEmpty(place),
            Refusal::AuxTwice(place),
            Refusal::AuxLow(place),
            Refusal::AuxCount,
            Refusal::AuxMatch(place),
            Refusal::Form,
            Refusal::ListEmpty(place),
        ]
    }

    /// The number in the table of refusals: 1 to 12, 14 to 16, 21 to 27.
    pub fn number(self) -> u32 {
        match self {
            Refusal::Kind => 1,
            Refusal::LgK => 2,
            Refusal::Size => 3,
            Refusal::Damaged => 4,
            Refusal::Finer => 5,
            Refusal::NoRoom => 6,
            Refusal::Short => 7,
            Refusal::Header => 8,
            Refusal::Mode => 9,
            Refusal::Counts => 10,
            Refusal::LgArr => 11,
            Refusal::Value => 12,
            Refusal::Spare => 14,
            Refusal::Tally => 15,
            Refusal::Out => 16,
            Refusal::AuxEmpty(_) => 21,
            Refusal::AuxTwice(_) => 22,
            Refusal::AuxLow(_) => 23,
            Refusal::AuxCount => 24,
            Refusal::AuxMatch(_) => 25,
            Refusal::Form => 26,
            Refusal::ListEmpty(_) => 27,
        }
    }

    /// What the answer carries: a word's position, or a slot. 0 where it carries nothing.
    pub fn place(self) -> u32 {
        match self {
            Refusal::AuxEmpty(word)
            | Refusal::AuxTwice(word)
            | Refusal::AuxLow(word)
            | Refusal::ListEmpty(word) => word,
            Refusal::AuxMatch(slot) => slot,
            _ => 0,
        }
    }
}

impl fmt::Display for Refusal {
    fn fmt(&self, f: &mut fmt::Formatter<'_>) -> fmt::Result {
        f.write_str(match self {
            Refusal::Kind => "the kind is not 4, 6 or 8, or a merge target is not of kind 8",
            Refusal::LgK => "lg_k is not within 4 to 21",
            Refusal::Size => "a buffer does not have the length that the sketch asks for",
            Refusal::Damaged => "the sketch is not in good order",
            Refusal::Finer => "the sketch has a larger lg_k than what is merged into it or fed to it",
            Refusal::NoRoom => "the exception area is too small for the exceptions",
            Refusal::Short => "the image is cut short",
            Refusal::Header => {
                "the image does not begin with 10, 1, 7, or where a list or set is read with 2 or 3, 1, 7"
            }
            Refusal::Mode => "the image's mode byte does not go with its first byte",
            Refusal::Counts => "the image's cur_min or one of its counts is out of range",
            Refusal::LgArr => "the image's lg_arr is over 22",
            Refusal::Value => "the image has a register over 63",
            Refusal::Spare => "the image's spare byte is not 0",
            Refusal::Tally => "the image's num_at_cur_min is not the number counted",
            Refusal::Out => "the buffer is shorter than the image",
            Refusal::AuxEmpty(_) => "an exception word of the image is zero",
            Refusal::AuxTwice(_) => "an exception word of the image has the slot of an earlier one",
            Refusal::AuxLow(_) => "an exception word of the image has a value below cur_min + 15",
            Refusal::AuxCount => "the image's exception words are more or fewer than its count",
            Refusal::AuxMatch(_) => "the image's exception words are not those of its registers",
            Refusal::Form => "the list or set is not compact",
            Refusal::ListEmpty(_) => "a word of the list or set is zero",
        })?;
        match self {
            Refusal::AuxEmpty(word)
            | Refusal::AuxTwice(word)
            | Refusal::AuxLow(word)
            | Refusal::ListEmpty(word) => write!(f, ": word {word}, from 0"),
            Refusal::AuxMatch(slot) => write!(f, ": slot {slot}"),
            _ => Ok(()),
        }
    }
}

impl Error for Refusal {}

/// A call's number as a result.
pub(crate) fn answer(number: u32) -> Result<(), Refusal> {
    answer_at(number, 0)
}

/// The same with a place, for the numbers that have one.
pub(crate) fn answer_at(number: u32, place: u32) -> Result<(), Refusal> {
    if number == 0 {
        return Ok(());
    }
    let refusal = Refusal::all(place).into_iter().find(|refusal| refusal.number() == number);
    Err(refusal.expect("the calls are proved to answer no other number"))
}

#[cfg(test)]
mod tests {
    use super::*;

    #[test]
    fn each_number_and_place_is_its_own() {
        assert_eq!(answer_at(0, 7), Ok(()));
        for number in (1..=12).chain(14..=16).chain(21..=27) {
            let refusal = answer_at(number, 7).unwrap_err();
            assert_eq!(refusal.number(), number);
            assert_eq!(refusal.place(), if [21, 22, 23, 25, 27].contains(&number) { 7 } else { 0 });
        }
    }
}
