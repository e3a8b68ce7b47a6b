//! What a call answers, whichever it is: the number and the place that all give, and what goes with them.

use crate::model::{Event, FileHeader, Jiffies, Milliseconds, Outcome, Refusal, Searched, Span as Chunk};
use flic_boundary::{
    Answer, Delay, Header, Player, PlayerAnswer, Reel, ReelAnswer, RowCost, Span, Ticked, TileRow, Written,
};

#[derive(Clone, Copy, Debug, PartialEq, Eq)]
pub struct Told {
    pub number: u32,
    pub place: u64,
    pub rest: Rest,
}

/// What some calls tell besides; a refused one tells zeros, or the record handed in.
#[derive(Clone, Copy, Debug, PartialEq, Eq)]
pub enum Rest {
    Nothing,
    Length(u64),
    Record(Reel),
    Header {
        width: u64,
        height: u64,
        frames: u64,
        size: u64,
        speed: u32,
        format: u32,
    },
    Span {
        from: u64,
        end: u64,
    },
    /// A row's packets, and the search for them.
    Cost {
        bytes: u64,
        turns: u64,
    },
    /// A delay in the other unit.
    Delay(u64),
    Player(Player),
    /// What a tick did.
    Event(u32),
    /// The marked tiles of a word.
    Marks(TileRow),
}

impl Told {
    /// Done, with what goes with it.
    pub fn done(rest: Rest) -> Told {
        Told { number: 0, place: 0, rest }
    }

    /// A length, or the end of a record.
    pub fn length(&self) -> u64 {
        match self.rest {
            Rest::Length(length) => length,
            Rest::Record(reel) => reel.end,
            _ => 0,
        }
    }

    fn of<T>(answer: Result<T, Refusal>, refused: Rest, rest: impl FnOnce(T) -> Rest) -> Told {
        match answer {
            Ok(told) => Told::done(rest(told)),
            Err(Refusal { number, place }) => Told { number, place, rest: refused },
        }
    }
}

impl From<Answer> for Told {
    fn from(Answer { number, place }: Answer) -> Told {
        Told { number, place, rest: Rest::Nothing }
    }
}

impl From<Written> for Told {
    fn from(Written { number, place, length }: Written) -> Told {
        Told { number, place, rest: Rest::Length(length) }
    }
}

impl From<ReelAnswer> for Told {
    fn from(ReelAnswer { number, place, reel }: ReelAnswer) -> Told {
        Told { number, place, rest: Rest::Record(reel) }
    }
}

impl From<Header> for Told {
    fn from(Header { number, place, width, height, frames, size, speed, format }: Header) -> Told {
        Told { number, place, rest: Rest::Header { width, height, frames, size, speed, format } }
    }
}

impl From<Span> for Told {
    fn from(Span { number, place, from, end }: Span) -> Told {
        Told { number, place, rest: Rest::Span { from, end } }
    }
}

impl From<RowCost> for Told {
    fn from(RowCost { number, place, bytes, turns }: RowCost) -> Told {
        Told { number, place, rest: Rest::Cost { bytes, turns } }
    }
}

impl From<Delay> for Told {
    fn from(Delay { number, place, delay }: Delay) -> Told {
        Told { number, place, rest: Rest::Delay(delay.into()) }
    }
}

impl From<PlayerAnswer> for Told {
    fn from(PlayerAnswer { number, place, player }: PlayerAnswer) -> Told {
        Told { number, place, rest: Rest::Player(player) }
    }
}

impl From<Ticked> for Told {
    fn from(Ticked { number, place, event }: Ticked) -> Told {
        Told { number, place, rest: Rest::Event(event) }
    }
}

impl From<TileRow> for Told {
    fn from(row: TileRow) -> Told {
        Told::done(Rest::Marks(row))
    }
}

impl From<Result<(), Refusal>> for Told {
    fn from(answer: Result<(), Refusal>) -> Told {
        Told::of(answer, Rest::Nothing, |()| Rest::Nothing)
    }
}

impl From<Result<usize, Refusal>> for Told {
    fn from(answer: Result<usize, Refusal>) -> Told {
        Told::of(answer, Rest::Length(0), |length| Rest::Length(length as u64))
    }
}

impl From<Outcome> for Told {
    fn from(Outcome { answer, reel }: Outcome) -> Told {
        Told::of(answer, Rest::Record(reel), |()| Rest::Record(reel))
    }
}

impl From<Result<FileHeader, Refusal>> for Told {
    fn from(answer: Result<FileHeader, Refusal>) -> Told {
        let refused = Rest::Header { width: 0, height: 0, frames: 0, size: 0, speed: 0, format: 0 };
        Told::of(answer, refused, |FileHeader { format, size, width, height, frames, speed }| Rest::Header {
            width: width as u64,
            height: height as u64,
            frames: frames as u64,
            size: size as u64,
            speed: speed.0 as u32,
            format: format.number(),
        })
    }
}

impl From<Result<Chunk, Refusal>> for Told {
    fn from(answer: Result<Chunk, Refusal>) -> Told {
        let refused = Rest::Span { from: 0, end: 0 };
        Told::of(answer, refused, |Chunk { start, end }| Rest::Span { from: start as u64, end: end as u64 })
    }
}

impl From<Result<Searched, Refusal>> for Told {
    fn from(answer: Result<Searched, Refusal>) -> Told {
        let refused = Rest::Cost { bytes: 0, turns: 0 };
        Told::of(answer, refused, |Searched { bytes, turns }| Rest::Cost { bytes: bytes as u64, turns: turns as u64 })
    }
}

impl From<Result<Milliseconds, Refusal>> for Told {
    fn from(answer: Result<Milliseconds, Refusal>) -> Told {
        Told::of(answer, Rest::Delay(0), |Milliseconds(delay)| Rest::Delay(delay))
    }
}

impl From<Result<Jiffies, Refusal>> for Told {
    fn from(answer: Result<Jiffies, Refusal>) -> Told {
        Told::of(answer, Rest::Delay(0), |Jiffies(delay)| Rest::Delay(delay))
    }
}

impl From<Result<Player, Refusal>> for Told {
    fn from(answer: Result<Player, Refusal>) -> Told {
        Told::of(answer, Rest::Player(Player::default()), Rest::Player)
    }
}

impl From<Result<Event, Refusal>> for Told {
    fn from(answer: Result<Event, Refusal>) -> Told {
        Told::of(answer, Rest::Event(0), |event| Rest::Event(event as u32))
    }
}
