//! Whether a file is accepted, with its chart and the figures of the analysis.

use super::{agreed, flag, number, read, refused, same, Answered};
use crate::analysis::{self, Analysis};
use crate::json::Json;
use crate::library;
use crate::limits::LOCATIONS;
use crate::reasons::cause_of_file;
use crate::sets::TimerSet;

/// Judges 1 to 10.
pub fn answer(request: &Json) -> Answered {
    let file = request.bytes("file");
    let (chart, shown) = read::chart(&file)?;
    let [mut live, mut own_live] = [[0; LOCATIONS]; 2];
    let analysed = library::analyse(&file, &mut live);
    let analysed = agreed("analyse", analysed, analysis::analyse(&file, &mut own_live))?;
    same("the live sets of analyse", &live, &own_live)?;
    let Analysis { used, floor, searched, rounds } = match analysed {
        Ok(analysis) => analysis,
        Err(refusal) => return Err(refused(refusal, cause_of_file(&file), vec![("chart", shown)])),
    };
    let live = live[..usize::from(chart.locations())].iter();
    Ok(Json::object([
        ("chart", shown),
        ("floor", number(floor)),
        ("live", Json::List(live.map(|&word| Json::of_numbers(TimerSet::from_word(word))).collect())),
        ("rounds", number(rounds)),
        ("searched", flag(searched)),
        ("used", number(used)),
    ]))
}
