//! Makes each call twice, through the library and through the second implementation, and compares
//! the answer, the state, every byte of every buffer, the tallies of all ports and the card's
//! total. `second::seeds` says how to run more cases, or one case again.

use crate::given::{any_expected, any_tallies};
use second::mapper::{
    pattern, Card, Expected, Keeper, Settings, Sink, Source, Standing, Taken, Tally, PORTS,
};
use second::{seeds, Lent, Random};
use std::fmt;

/// How many calls were compared, and what they answered.
#[derive(Clone, Default)]
pub struct Done {
    /// Accepted source and sink calls with K up to 40.
    pub small: u64,
    /// Those with a larger K.
    pub large: u64,
    /// Those with the grid and the window of OPU0.
    pub opu0: u64,
    /// Accepted keeper calls, new keepers and new sources.
    pub others: u64,
    /// Calls turned back, by the refusal's number.
    pub refused: [u64; 15],
    /// Sink calls, by what they answered.
    pub standings: [u64; 6],
    /// Those of them that mended a word, by what they answered.
    pub mended: [u64; 6],
    /// Those with the type check on after which another type was accepted.
    pub types: u64,
    /// Those with the type check on that handed out bytes.
    pub let_through: u64,
    /// Those that would have handed out bytes with the type check off.
    pub kept_back: u64,
}

/// What an accepted call of a sink comes to.
#[derive(Clone, Debug, PartialEq, Eq)]
pub struct Outcome {
    pub taken: Taken,
    pub state: Sink,
    pub out: Vec<u8>,
    pub tally: Tally,
}

/// What the tally is before it.
pub const TALLY: Tally = Tally { frames: 30, bad: 20, bytes: 10 };

/// One case of a test, with the last call that it made.
pub struct Case {
    pub random: Random,
    /// Which of the test's cases it is, from 0.
    pub index: u64,
    pub done: Done,
    told: Option<Expected>,
    last: Option<Call>,
}

/// A call as it was made.
enum Call {
    NewSource(Settings, u32, u8),
    Source(Settings, Source, u32, Vec<u8>, Vec<u8>),
    NewKeeper(u32),
    Keeper(Settings, Keeper, u32, u32),
    Sink {
        settings: Settings,
        state: Sink,
        expected: Expected,
        frame: Vec<u8>,
        out: Vec<u8>,
        port: u32,
        tallies: [Tally; 8],
    },
}

/// Runs a test's cases and says on standard error how many calls were compared.
pub fn cases(test: &'static str, cases: u64, mut run: impl FnMut(&mut Case)) -> Done {
    let (random, done) = (Random::new(0), Done::default());
    let mut case = Case { random, index: 0, done, told: None, last: None };
    let ran = seeds::cases(test, cases, |index, random| {
        (case.index, case.random) = (index, random);
        run(&mut case);
    });
    let done = case.done.clone();
    let Done { small, large, opu0, others, refused, .. } = &done;
    let refused: u64 = refused.iter().sum();
    ran.say(format_args!(
        "frames on small grids {small}, on large ones {large}, on OPU0 {opu0}; other calls \
         {others}; refused {refused}"
    ));
    done
}

impl Drop for Case {
    /// Where a comparison failed, says in which call.
    fn drop(&mut self) {
        if let (true, Some(call)) = (std::thread::panicking(), &self.last) {
            eprintln!("The last call was\n{call}");
        }
    }
}

impl Case {
    pub fn source_new(
        &mut self,
        settings: Settings,
        first: u32,
        payload_type: u8,
    ) -> Result<Source, u32> {
        self.last = Some(Call::NewSource(settings, first, payload_type));
        let theirs = odu0::Source::new(settings_of(settings), first, payload_type);
        let ours = Source::new(settings, first, payload_type);
        let theirs = theirs.map(back).map_err(odu0::Refusal::number);
        assert_eq!(theirs, ours, "a new source: library, second");
        self.count_other(ours.as_ref().err());
        ours
    }

    pub fn source(
        &mut self,
        settings: Settings,
        state: &mut Source,
        next: u32,
        client: &[u8],
        frame: &mut [u8],
    ) -> Result<(), u32> {
        self.last =
            Some(Call::Source(settings, state.clone(), next, client.to_vec(), frame.to_vec()));
        let mut their_client = Lent::new(self.index, client);
        let mut their_frame = Lent::new(self.index, frame);
        let mut their_state = odu0::Source {
            count: state.count,
            multiframe: state.multiframe,
            payload_type: state.payload_type,
        };
        let theirs = their_state
            .map_frame(settings_of(settings), next, their_client.lent(), their_frame.lent())
            .map_err(odu0::Refusal::number);
        let ours = state.call(settings, next, client, frame);
        assert_eq!(theirs, ours, "the answer: library, second");
        assert_eq!(back(their_state), *state, "the state: library, second");
        their_client.must_be("client bytes", client);
        their_frame.must_be("frame", frame);
        self.count_frame(settings, ours.err());
        ours
    }

    pub fn keeper_new(&mut self, q: u32) -> Keeper {
        self.last = Some(Call::NewKeeper(q));
        let (theirs, ours) = (odu0::Keeper::new(odu0::Rate { p: 0, q }), Keeper::new(q));
        assert_eq!(theirs.remainder(), ours.remainder, "a new keeper: library, second");
        self.count_other(None);
        ours
    }

    pub fn keeper(
        &mut self,
        settings: Settings,
        state: &mut Keeper,
        p: u32,
        q: u32,
    ) -> Result<u32, u32> {
        self.last = Some(Call::Keeper(settings, state.clone(), p, q));
        let mut their_state = odu0::Keeper::resume(odu0::Rate { p, q }, state.remainder);
        let theirs = their_state.next_count(settings_of(settings)).map_err(odu0::Refusal::number);
        let ours = state.call(settings, p, q);
        assert_eq!(theirs, ours, "the answer: library, second");
        assert_eq!(their_state.remainder(), state.remainder, "the remainder: library, second");
        self.count_other(ours.as_ref().err());
        ours
    }

    /// What the next call of a sink is told of multiframe number and type. One that is told nothing
    /// so is told anything.
    pub fn told(&mut self, expected: Expected) -> &mut Case {
        self.told = Some(expected);
        self
    }

    /// A sink's call on any port of a card whose other ports have any numbers: this tally is that
    /// of the port. So the tests that go by one tally go from port to port.
    pub fn sink(
        &mut self,
        settings: Settings,
        state: &mut Sink,
        frame: &[u8],
        out: &mut [u8],
        tally: &mut Tally,
    ) -> Result<Taken, u32> {
        let port = self.random.from_to(1, PORTS);
        let mut tallies = any_tallies(&mut self.random);
        tallies[port as usize - 1] = *tally;
        let mut card = Card::with(tallies);
        let answer = self.sink_on(settings, state, frame, out, port, &mut card);
        *tally = card.tally(port);
        answer
    }

    /// What an accepted call of a sink in this state comes to, where the output buffer has one byte
    /// more than hi.
    pub fn outcome(
        &mut self,
        settings: Settings,
        state: &Sink,
        told: Expected,
        frame: &[u8],
    ) -> Outcome {
        let (mut state, mut tally) = (state.clone(), TALLY);
        let mut out = vec![0x5A; settings.hi as usize + 1];
        let answer = self.told(told).sink(settings, &mut state, frame, &mut out, &mut tally);
        Outcome { taken: answer.unwrap(), state, out, tally }
    }

    /// A sink's call that names its port, which may be none of the card's.
    pub fn sink_on(
        &mut self,
        settings: Settings,
        state: &mut Sink,
        frame: &[u8],
        out: &mut [u8],
        port: u32,
        card: &mut Card,
    ) -> Result<Taken, u32> {
        let expected = self.told.take().unwrap_or_else(|| any_expected(&mut self.random));
        let (given, tallies) = (state.clone(), card.tallies());
        self.last = Some(Call::Sink {
            settings,
            state: given.clone(),
            expected,
            frame: frame.to_vec(),
            out: out.to_vec(),
            port,
            tallies,
        });
        let mut their_frame = Lent::new(self.index, frame);
        let mut their_out = Lent::new(self.index, out);
        let mut their_state = sink_of(state);
        let mut their_card = LentCard::new(tallies);
        let (same, told) = (settings_of(settings), expected_of(expected));
        let (lent, to, theirs) = (their_frame.lent(), their_out.lent(), &mut their_card.tallies);
        let theirs = if settings.type_check {
            their_state.demap_frame_expecting(same, told, lent, to, port, theirs)
        } else {
            their_state.demap_frame(same, lent, to, port, theirs)
        };
        let theirs = theirs.map(taken_of).map_err(odu0::Refusal::number);
        let ours = state.call(settings, expected, frame, out, port, card);
        assert_eq!(theirs, ours, "the answer: library, second");
        assert_eq!(their_state, sink_of(state), "the state: library, second");
        their_card.must_be(card);
        their_frame.must_be("frame", frame);
        their_out.must_be("output", out);
        self.count_frame(settings, ours.err());
        if let Ok(Taken { standing, handed, mended }) = ours {
            self.done.standings[place(standing)] += 1;
            self.done.mended[place(standing)] += u64::from(mended);
            let known = given.count.filter(|count| settings.holds(*count)).unwrap_or(0);
            self.done.types += u64::from(given.types.accepted() != state.types.accepted());
            self.done.let_through += u64::from(settings.type_check && handed > 0);
            self.done.kept_back += u64::from(handed < known);
        }
        ours
    }

    pub fn count_frame(&mut self, settings: Settings, refusal: Option<u32>) {
        match refusal {
            Some(number) => self.done.refused[number as usize] += 1,
            None if (settings.k, settings.lo, settings.hi) == (3808, 14405, 14410) => {
                self.done.opu0 += 1
            }
            None if settings.k > 40 => self.done.large += 1,
            None => self.done.small += 1,
        }
    }

    fn count_other(&mut self, refusal: Option<&u32>) {
        match refusal {
            Some(number) => self.done.refused[*number as usize] += 1,
            None => self.done.others += 1,
        }
    }
}

/// The wrapper's settings, which say nothing of the type check.
pub fn settings_of(settings: Settings) -> odu0::Settings {
    let mut same = odu0::Settings::new(settings.k, settings.lo, settings.hi);
    if settings.mending {
        same = same.with_mending();
    }
    if settings.patterns.is_none() {
        return same;
    }
    let [plus1, minus1, plus2, minus2] = [1, -1, 2, -2].map(|change| pattern(settings, change));
    same.with_patterns(odu0::Patterns { plus1, minus1, plus2, minus2 })
}

pub fn expected_of(expected: Expected) -> odu0::Expected {
    odu0::Expected { multiframe: expected.multiframe, payload_type: expected.payload_type }
}

pub fn sink_of(sink: &Sink) -> odu0::Sink {
    let seen = match sink.types.run() {
        [] => odu0::Seen::Never,
        [once] => odu0::Seen::Once(*once),
        [twice, ..] => odu0::Seen::Twice(*twice),
    };
    odu0::Sink { count: sink.count, word: sink.word, accepted: sink.types.accepted(), seen }
}

/// What a sink that knows nothing of types is told where the type check is off.
pub const ANY: odu0::Expected = odu0::Expected { multiframe: 0, payload_type: 0 };

fn back(state: odu0::Source) -> Source {
    Source { count: state.count, multiframe: state.multiframe, payload_type: state.payload_type }
}

fn taken_of(taken: odu0::Taken) -> Taken {
    let odu0::Taken { standing, handed, mended } = taken;
    Taken { standing: standing_of(standing), handed, mended }
}

fn tally_of(tally: odu0::Tally) -> Tally {
    Tally { frames: tally.frames, bad: tally.badcheck, bytes: tally.bytes }
}

fn standing_of(standing: odu0::Standing) -> Standing {
    match standing {
        odu0::Standing::Read(count) => Standing::Read(count),
        odu0::Standing::Tracked(count) => Standing::Tracked(count),
        odu0::Standing::Paired(count) => Standing::Paired(count),
        odu0::Standing::BadCheck => Standing::BadCheck,
        odu0::Standing::Waiting => Standing::Waiting,
        odu0::Standing::Outside => Standing::Outside,
    }
}

/// The standing's place in `Done::standings`.
fn place(standing: Standing) -> usize {
    match standing {
        Standing::Read(_) => 0,
        Standing::Tracked(_) => 1,
        Standing::Paired(_) => 2,
        Standing::BadCheck => 3,
        Standing::Waiting => 4,
        Standing::Outside => 5,
    }
}

/// Tallies for the library, with numbers before and behind them that it has to leave alone: those
/// are where a port 0 and a port 9 would have theirs.
#[repr(C)]
pub struct LentCard {
    before: [u32; 9],
    pub tallies: odu0::Tallies,
    behind: [u32; 9],
}

const EDGE: [u32; 9] = [0xA5A5_A5A5; 9];

impl LentCard {
    pub fn new(tallies: [Tally; 8]) -> LentCard {
        let port = tallies.map(|Tally { frames, bad, bytes }| odu0::Tally {
            frames,
            badcheck: bad,
            bytes,
        });
        LentCard { before: EDGE, tallies: odu0::Tallies { port }, behind: EDGE }
    }

    /// The numbers of all ports are those of the card, and so is the total, which changes nothing.
    pub fn must_be(&self, card: &Card) {
        let odu0::Total { frames, badcheck, bytes } = self.tallies.total();
        let total = [frames, badcheck, bytes].map(u128::from);
        let tallies = self.tallies.port.map(tally_of);
        assert_eq!(tallies, card.tallies(), "the tallies: library, second");
        assert_eq!(total, card.total(), "the card's total: library, second");
        assert!([self.before, self.behind] == [EDGE; 2], "the library wrote outside the tallies");
    }
}

impl fmt::Display for Call {
    fn fmt(&self, f: &mut fmt::Formatter<'_>) -> fmt::Result {
        match self {
            Call::NewSource(settings, first, payload_type) => {
                write!(
                    f,
                    "  a new source; {settings:?}; first {first}, payload type {payload_type}"
                )
            }
            Call::Source(settings, state, next, client, frame) => {
                writeln!(f, "  a source call; {settings:?}; {state:?}; next {next}")?;
                writeln!(f, "  client, {} bytes: {}", client.len(), hex(client))?;
                write!(f, "  frame before, {} bytes: {}", frame.len(), hex(frame))
            }
            Call::NewKeeper(q) => write!(f, "  a new keeper; q {q}"),
            Call::Keeper(settings, state, p, q) => {
                write!(f, "  a keeper call; {settings:?}; {state:?}; p {p}, q {q}")
            }
            Call::Sink { settings, state, expected, frame, out, port, tallies } => {
                writeln!(f, "  a sink call; {settings:?}; {state:?}; {expected:?}; port {port}")?;
                writeln!(f, "  {tallies:?}")?;
                writeln!(f, "  frame, {} bytes: {}", frame.len(), hex(frame))?;
                write!(f, "  output before, {} bytes: {}", out.len(), hex(out))
            }
        }
    }
}

fn hex(bytes: &[u8]) -> String {
    bytes.iter().map(|byte| format!("{byte:02X}")).collect()
}
