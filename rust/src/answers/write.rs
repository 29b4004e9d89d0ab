//! The file of a chart.

use super::charts::{drawing_of_json, header_of};
use super::{agreed, refused, Answered, End};
use crate::json::Json;
use crate::library;
use crate::limits::LARGEST_FILE;
use crate::lists::{self, OwnedLists};
use crate::reasons::cause_of_drawing;

/// Judges 2 to 8 and 17. There is room for every file that the writer writes.
pub fn answer(request: &Json) -> Answered {
    let drawing = drawing_of_json(request.get("chart").expect("a chart"));
    let (header, chart) = (header_of(&drawing), OwnedLists::of(&drawing));
    let [mut file, mut own_file] = [vec![0; LARGEST_FILE], vec![0; LARGEST_FILE]];
    let written = library::write(&header, &chart.lists(), &mut file);
    let written = agreed("write", written, lists::write(&header, &chart.lists(), &mut own_file))?;
    if file != own_file {
        return Err(End::Fault("write: the library and the independent implementation write different bytes".into()));
    }
    match written {
        Ok(length) => Ok(Json::object([("file", Json::of_bytes(&file[..length]))])),
        Err(refusal) => Err(refused(refusal, cause_of_drawing(&drawing), vec![])),
    }
}
