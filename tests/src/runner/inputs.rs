//! The inputs of a run: cases, each a call or some calls that belong together, and families that make them from seeds.

use super::calls::{
    AddCase, Call, CheckCase, CheckTrailerCase, CloseCase, HeaderCase, JiffiesCase, ListCase, MarkedCase,
    MillisecondsCase, OpenCase, OpenFliCase, ReadCase, ReplayCase, RewriteCase, SearchCase, StartCase, StepCase,
    TickCase, TileMapCase, WriteCase, WriteTrailerCase,
};
use crate::model::Format;
use crate::rng::{mix, Rng};
use crate::states::State;

/// A closed reel and the states that its frames must show, lap for lap.
#[derive(Clone, Debug, PartialEq, Eq)]
pub struct PlayCase {
    pub bytes: Vec<u8>,
    pub format: Format,
    pub width: usize,
    pub height: usize,
    pub states: Vec<State>,
}

/// A whole-reel check that is made before and after a trailer is written.
#[derive(Clone, Debug, PartialEq, Eq)]
pub struct AroundCase(pub CheckCase);

/// A player that is started and ticked with these readings, and a replay of them: each frame must show its state, and
/// the replay tell the frames.
#[derive(Clone, Debug, PartialEq, Eq)]
pub struct LiveCase {
    pub start: StartCase,
    pub readings: Vec<u32>,
    pub states: Vec<State>,
}

macro_rules! cases {
    ($($name:ident($case:ident),)*) => {
        #[derive(Clone, Debug, PartialEq, Eq)]
        pub enum Case {
            $($name($case),)*
        }

        $(impl From<$case> for Case {
            fn from(case: $case) -> Case {
                Case::$name(case)
            }
        })*
    };
}

cases! {
    Read(ReadCase),
    Write(WriteCase),
    Rewrite(RewriteCase),
    Check(CheckCase),
    Open(OpenCase),
    OpenFli(OpenFliCase),
    Add(AddCase),
    Close(CloseCase),
    Play(PlayCase),
    CheckTrailer(CheckTrailerCase),
    WriteTrailer(WriteTrailerCase),
    List(ListCase),
    Header(HeaderCase),
    Step(StepCase),
    Search(SearchCase),
    Around(AroundCase),
    Start(StartCase),
    Tick(TickCase),
    Replay(ReplayCase),
    Live(LiveCase),
    TileMap(TileMapCase),
    Marked(MarkedCase),
    Milliseconds(MillisecondsCase),
    Jiffies(JiffiesCase),
}

impl Case {
    /// The call that the case begins with; a reel that is played has none.
    pub fn call(&self) -> Option<&dyn Call> {
        Some(match self {
            Case::Read(call) => call,
            Case::Write(call) => call,
            Case::Rewrite(call) => call,
            Case::Check(call) | Case::Around(AroundCase(call)) => call,
            Case::Open(call) => call,
            Case::OpenFli(call) => call,
            Case::Add(call) => call,
            Case::Close(call) => call,
            Case::CheckTrailer(call) => call,
            Case::WriteTrailer(call) => call,
            Case::List(call) => call,
            Case::Header(call) => call,
            Case::Step(call) => call,
            Case::Search(call) => call,
            Case::Start(call) | Case::Live(LiveCase { start: call, .. }) => call,
            Case::Tick(call) => call,
            Case::Replay(call) => call,
            Case::TileMap(call) => call,
            Case::Marked(call) => call,
            Case::Milliseconds(call) => call,
            Case::Jiffies(call) => call,
            Case::Play(_) => return None,
        })
    }

    /// The format of its frames, file or record.
    pub fn format(&self) -> Format {
        match self {
            Case::Play(PlayCase { format, .. }) => *format,
            _ => self.call().map_or(Format::Flc, Call::format),
        }
    }
}

/// Hands an input on.
pub type Sink<'a> = &'a mut dyn FnMut(Case);

/// A way to make inputs: one seed gives one batch of one or many.
pub struct Family<C: 'static> {
    pub name: &'static str,
    pub batches: u64,
    pub emit: fn(&mut Rng, &mut dyn FnMut(C)),
}

/// A family, whatever inputs it makes.
pub trait Inputs {
    fn name(&self) -> &'static str;

    fn batches(&self) -> u64;

    fn batch(&self, seed: u64, sink: Sink);

    /// The seed of a batch in a run that starts from `base`.
    fn seed_of(&self, base: u64, batch: u64) -> u64 {
        let name = self.name().bytes().fold(0, |sum, letter| mix(sum, u64::from(letter)));
        mix(mix(base, name), batch)
    }
}

impl<C: Into<Case>> Inputs for Family<C> {
    fn name(&self) -> &'static str {
        self.name
    }

    fn batches(&self) -> u64 {
        self.batches
    }

    fn batch(&self, seed: u64, sink: Sink) {
        (self.emit)(&mut Rng::new(seed), &mut |case| sink(case.into()));
    }
}

/// Families, whatever inputs they make.
pub fn listed<C: Into<Case>>(families: &'static [Family<C>]) -> Vec<&'static dyn Inputs> {
    families.iter().map(|family| family as &dyn Inputs).collect()
}

/// A family must give inputs, and the same ones again from the same seed.
#[cfg(test)]
pub fn same_again<C: Into<Case>>(family: &Family<C>) {
    let collected = |seed| {
        let mut all = Vec::new();
        family.batch(seed, &mut |case| all.push(case));
        all
    };
    let seed = family.seed_of(1, 2);
    assert!(collected(seed) == collected(seed), "family {}", family.name);
    assert!(!collected(seed).is_empty(), "family {}", family.name);
}
