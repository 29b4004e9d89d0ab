//! The chart that a file holds.

use super::charts::drawing_json;
use super::{agreed, refused, Answered, End};
use crate::chart::Chart;
use crate::drawing::Drawing;
use crate::json::Json;
use crate::library;
use crate::lists::OwnedLists;
use crate::reasons::cause_of_file;
use crate::refusal::Answer;

pub fn answer(request: &Json) -> Answered {
    let (_, shown) = chart(&request.bytes("file"))?;
    Ok(Json::object([("chart", shown)]))
}

/// The chart of a file, and as the answers show it: what is shown are the lists that the library fills. Judges 1 to 8.
pub fn chart(file: &[u8]) -> Result<(Chart, Json), End> {
    let own = Chart::read(file);
    let drawing = agreed("read", library_drawing(file), own.as_ref().map(Drawing::from).map_err(|&refusal| refusal))?;
    match (drawing, own) {
        (Ok(drawing), Ok(chart)) => Ok((chart, drawing_json(&drawing))),
        (Err(refusal), _) | (_, Err(refusal)) => Err(refused(refusal, cause_of_file(file), vec![])),
    }
}

/// The chart that the library reads.
fn library_drawing(file: &[u8]) -> Answer<Drawing> {
    let mut room = OwnedLists::room(0);
    let header = library::read(file, &mut room.lent())?;
    Ok(room.drawing(&header))
}
