//! A controller of several heads: set up, and then driven by events and turns. The library drives one state and this crate
//! another; the two are compared after every call, and the library's is shown.

use super::{agreed, number, numbers, read, refused, same, starting_counts, Answered, End};
use crate::chart::Chart;
use crate::controller::{self, Board, Head, Report, SetUp, Start, State};
use crate::json::Json;
use crate::library;
use crate::reasons::{cause_of_event, cause_of_set_up};

/// Judges set-up (25, 1 to 12), then each call (26, 15, 23), up to the first that is refused.
pub fn answer(request: &Json) -> Answered {
    let heads: Vec<GivenHead> = request.list("heads").iter().map(GivenHead::of).collect();
    let mut driven = Driven::set_up(&heads, request.number_as("k"))?;
    for call in request.list("calls") {
        match call.get("event") {
            Some(event) => driven.event(event)?,
            None => driven.turn()?,
        }
    }
    Ok(Json::object(driven.entries()))
}

/// A head as a request gives it. The block and the counts that it leaves out are those of its chart's timers; of a file
/// that holds no chart, which set-up refuses, they are empty.
struct GivenHead {
    file: Vec<u8>,
    block: u64,
    counts: Vec<u32>,
}

impl GivenHead {
    fn of(head: &Json) -> GivenHead {
        let file = head.bytes("file");
        let timers = Chart::read(&file).map_or(0, |chart| chart.timers());
        let block = match head.get("block") {
            Some(Json::Null) => u64::from(timers),
            _ => head.number("block"),
        };
        GivenHead { block, counts: starting_counts(head, timers), file }
    }

    fn start(&self) -> Start<'_> {
        Start { file: &self.file, block: self.block, counts: &self.counts }
    }
}

/// A head that was set up.
struct DrivenHead {
    chart: Chart,
    /// What the answers show of it.
    shown: Json,
    /// Where its block begins among the board's timers.
    begin: usize,
}

impl DrivenHead {
    /// The counts of its timers.
    fn counts(&self, state: &State) -> Json {
        numbers(&state.counts[self.begin..self.begin + usize::from(self.chart.timers())])
    }
}

/// A controller that the library and this crate drive side by side.
struct Driven {
    board: Board,
    heads: Vec<DrivenHead>,
    library: State,
    own: State,
    /// The calls so far.
    calls: Vec<Json>,
}

impl Driven {
    /// Sets both up.
    fn set_up(given: &[GivenHead], k: u32) -> Result<Driven, End> {
        let starts: Vec<Start> = given.iter().map(GivenHead::start).collect();
        let SetUp { board, counts, parts } = SetUp::of(&starts, k);
        let [mut library, mut own] = [State::ZERO; 2];
        let answer = library::set_up(&mut library, &board, &counts, &parts);
        let answer = agreed("set_up", answer, controller::set_up(&mut own, &board, &counts, &parts))?;
        same("the state after set_up", &library, &own)?;
        answer.map_err(|refusal| refused(refusal, cause_of_set_up(&starts, k), vec![]))?;
        let mut begin = 0;
        let mut heads = Vec::new();
        for head in given {
            let (chart, shown) = read::chart(&head.file)?;
            let shown = [("block", number(head.block)), ("chart", shown), ("counts", numbers(&head.counts))];
            heads.push(DrivenHead { chart, shown: Json::object(shown), begin });
            begin += head.block as usize;
        }
        Ok(Driven { board, heads, library, own, calls: Vec::new() })
    }

    /// Has both receive an event: a head, a byte and a time.
    fn event(&mut self, event: &Json) -> Result<(), End> {
        let [head, byte, time] = event.as_numbers()[..] else { panic!("no head, event and time: {event}") };
        let head = u32::try_from(head).expect("a head's number has 32 bits");
        let byte = u8::try_from(byte).expect("an event is a byte");
        let cause = cause_of_event(&self.library, self.heads.len(), head, time);
        let answer = library::event(&mut self.library, &self.board, head, byte, time);
        let answer = agreed("event", answer, controller::event(&mut self.own, &self.board, head, byte, time))?;
        same("the state after event", &self.library, &self.own)?;
        answer.map_err(|refusal| refused(refusal, cause, self.entries()))?;
        let call = [("event", number(byte)), ("head", number(head)), ("time", number(time))];
        self.calls.push(Json::object(call).with("call", Json::of_text("event")));
        Ok(())
    }

    /// Has both take a turn. Nothing is there to be refused: set-up has passed, and the state is the one that it left.
    fn turn(&mut self) -> Result<(), End> {
        let before = self.library;
        let answer = library::turn(&mut self.library, &self.board);
        let answer = agreed("turn", answer, controller::turn(&mut self.own, &self.board))?;
        same("the state after turn", &self.library, &self.own)?;
        let turn = answer.map_err(|refusal| refused(refusal, None, vec![]))?;
        let index = turn.head as usize;
        let call = Json::object([("call", Json::of_text("turn")), ("head", number(turn.head))]);
        let served = self.served(index, &before.heads[index], turn.report);
        self.calls.push(served.into_iter().fold(call, |call, (name, value)| call.with(name, value)));
        Ok(())
    }

    /// What the answers show of a report: `before` is the head before its turn.
    fn served(&self, head: usize, before: &Head, report: Report) -> Vec<(&'static str, Json)> {
        let DrivenHead { chart, .. } = &self.heads[head];
        let mut entries = match report {
            Report::Nothing => return vec![("report", Json::of_text("nothing"))],
            Report::NoneTaken => vec![("report", Json::of_text("none"))],
            Report::Taken(transition) => {
                let source = chart.transitions()[transition as usize].source;
                vec![("report", Json::of_text("taken")), ("source", number(source)), ("transition", number(transition))]
            }
        };
        entries.extend([
            ("counts", self.heads[head].counts(&self.library)),
            ("event", number(before.event)),
            ("location", number(self.library.heads[head].location)),
            ("time", number(before.waiting_time)),
        ]);
        entries
    }

    /// What the answers show: the heads as they were set up, the calls so far and the present state.
    fn entries(&self) -> Vec<(&'static str, Json)> {
        let heads = self.heads.iter().zip(&self.library.heads).map(|(driven, head)| {
            let waiting = match head.waiting {
                0 => Json::Null,
                _ => Json::object([("event", number(head.event)), ("time", number(head.waiting_time))]),
            };
            Json::object([
                ("counts", driven.counts(&self.library)),
                ("location", number(head.location)),
                ("time", number(head.time)),
                ("waiting", waiting),
            ])
        });
        let state = [("heads", Json::List(heads.collect())), ("turn", number(self.library.turn))];
        let heads = self.heads.iter().map(|head| head.shown.clone()).collect();
        vec![("calls", Json::List(self.calls.clone())), ("heads", Json::List(heads)), ("state", Json::object(state))]
    }
}
