//! The round file by hand.

use crate::definition::{cause_of_boxes, cause_of_length, cause_of_plugs, Cause};

/// Both lists, or the earliest fault of form.
pub type Parsed = Result<(Vec<i32>, Vec<i32>), Cause>;

fn numbers_in(bytes: &[u8]) -> impl Iterator<Item = i32> + '_ {
    bytes.chunks_exact(4).map(|four| i32::from_be_bytes([four[0], four[1], four[2], four[3]]))
}

/// Reads record by record. Form only.
pub fn parse(file: &[u8]) -> Parsed {
    let (mut boxes, mut plugs) = (Vec::new(), Vec::new());
    let mut offset = 0;
    loop {
        let place = offset as u64;
        let rest = &file[offset..];
        let size = match rest {
            [] | [_] => return Err((9, place)),
            [0x5B, 0x01, ..] if !plugs.is_empty() => return Err((10, place)),
            [0x5B, 0x01, ..] => 18,
            [0x5B, 0x02, ..] => 10,
            [0x5B, 0x00] => return Ok((boxes, plugs)),
            [0x5B, 0x00, ..] => return Err((11, place + 2)),
            [0x5C, _] => return Err((9, place)),
            [0x5C, _, length, ..] => 3 + *length as usize,
            _ => return Err((8, place)),
        };
        if rest.len() < size {
            return Err((9, place));
        }
        match rest[1] {
            0x01 if rest[0] == 0x5B => boxes.extend(numbers_in(&rest[2..18])),
            0x02 if rest[0] == 0x5B => plugs.extend(numbers_in(&rest[2..10])),
            _ => (),
        }
        offset += size;
    }
}

/// What the reader answers for buffers of two lengths: the lists, or a cause.
pub fn read(file: &[u8], boxes_length: usize, plugs_length: usize) -> Parsed {
    let (boxes, plugs) = parse(file)?;
    let short = cause_of_length(boxes_length, boxes.len()).or(cause_of_length(plugs_length, plugs.len()));
    short.map_or(Ok((boxes, plugs)), Err)
}

fn record(mark: u16, numbers: &[i32]) -> Vec<u8> {
    let body = numbers.iter().flat_map(|number| number.to_be_bytes());
    mark.to_be_bytes().into_iter().chain(body).collect()
}

/// Boxes, plugs and end, unchecked.
pub fn bytes_of(boxes: &[i32], plugs: &[i32]) -> Vec<u8> {
    let boxes = boxes.chunks_exact(4).flat_map(|edges| record(0x5B01, edges));
    let plugs = plugs.chunks_exact(2).flat_map(|plug| record(0x5B02, plug));
    boxes.chain(plugs).chain(record(0x5B00, &[])).collect()
}

/// What the writer answers for a buffer of a length: the bytes, or a cause.
pub fn write(boxes: &[i32], plugs: &[i32], length: usize) -> Result<Vec<u8>, Cause> {
    if let Some(cause) = cause_of_boxes(boxes).or(cause_of_plugs(plugs)) {
        return Err(cause);
    }
    let bytes = bytes_of(boxes, plugs);
    cause_of_length(length, bytes.len()).map_or(Ok(bytes), Err)
}

/// What the printing program prints. `word` is the word of accepted boxes and an accepted plug.
pub fn print(file: &[u8], word: impl Fn(&[i32], (i32, i32)) -> &'static str) -> String {
    let long = (file.len() > 65_536).then_some((12, 65_536));
    let parsed = long.map_or_else(|| parse(file), Err);
    let accepted = parsed.and_then(|(boxes, plugs)| cause_of_boxes(&boxes).map_or(Ok((boxes, plugs)), Err));
    let (boxes, plugs) = match accepted {
        Ok(lists) => lists,
        Err((number, place)) => return format!("refused {number} {place}\n"),
    };
    let mut text = format!("boxes {} plugs {}\n", boxes.len() / 4, plugs.len() / 2);
    for (index, plug) in plugs.chunks_exact(2).enumerate() {
        let says = match cause_of_plugs(plug) {
            Some(_) => "refused 6",
            None => word(&boxes, (plug[0], plug[1])),
        };
        text += &format!("{} {says}\n", index + 1);
    }
    text
}
