//! Differences between the rules and the Rust that docs/DIFFERENCES.md explains, where one call shows them.
use crate::domain::causes;
use crate::domain::packets::parted;
use crate::domain::{folded, opposite, padding, without_data};
use crate::model::forward::PAIRS;
use calls::Call;

/// Number and heading of each.
pub const ALL: &[(u8, &str)] = &[
    (3, "a length is cut to 16 bits"),
    (5, "identifiers without a name"),
    (6, "DATA without data"),
    (8, "the distance half way"),
    (9, "bytes after the length"),
    (15, "pieces of the largest size"),
    (19, "the common header with the first chunk"),
    (20, "a last chunk without its padding"),
    (22, "a chunk of another kind"),
    (24, "a TSN opposite to the cumulative one"),
    (25, "causes that are not rounded"),
    (26, "enclosed chunks that are not followed"),
    (27, "bytes where a cause should start"),
    (29, "a TSN that is in flight already"),
];

/// The number of the difference that explains why the Rust answers otherwise, if one does.
pub fn by(call: &Call, ours: &[u8], oracle: &[u8]) -> Option<u8> {
    let half_way = ours == b"no no no no" && oracle == b"no no yes yes";
    let (number, explained) = match call {
        Call::DataUnmarshal { .. } if without_data(call) => (6, ours == b"refused 15" && oracle.starts_with(b"data ")),
        Call::DataUserData { .. } if without_data(call) => (6, ours == b"refused 15" && oracle == b"part -"),
        Call::DataMarshal { .. } if without_data(call) => (6, ours.starts_with(b"refused 15 ") && oracle.starts_with(b"wrote 16 ")),
        Call::DataUnmarshal { .. } if folded(call) => (5, oracle == with_58(ours)),
        Call::DataMarshal { .. } if folded(call) => (5, ours.starts_with(b"wrote ") && oracle == written_with_58(ours)),
        Call::DataMarshal { data, .. } => (3, data.size > 65_519 && ours.starts_with(b"refused 9 ")),
        Call::SackMarshal { starts, duplicates, .. } => (3, starts.len() + duplicates.len() > 16_379 && ours.starts_with(b"refused 9 ")),
        Call::FwdMarshal { streams, .. } => (3, streams.len() > PAIRS && ours.starts_with(b"refused 9 ")),
        Call::Sna32 { a, b } => (8, a.wrapping_sub(*b) == 1 << 31 && half_way),
        Call::Sna16 { a, b } => (8, a.wrapping_sub(*b) == 1 << 15 && half_way),
        Call::Header { raw }
        | Call::DataUnmarshal { raw }
        | Call::DataUserData { raw }
        | Call::SackUnmarshal { raw }
        | Call::SackBlocks { raw }
        | Call::SackDuplicates { raw }
        | Call::FwdUnmarshal { raw }
        | Call::FwdStreams { raw } => (9, padding(raw).iter().any(|b| *b != 0) && oracle == b"error ErrChunkHeaderPaddingNonZero"),
        Call::Packet { .. } if parted(call) == Some(19) => (19, ours.starts_with(b"packet ") && FIRST_CHUNK.contains(&oracle)),
        Call::PacketWalk { .. } if parted(call) == Some(20) => (20, ours.ends_with(b" none") && oracle == b"error ErrParseSctpChunkNotEnoughData"),
        Call::PacketWalk { .. } if parted(call) == Some(22) => (22, ours.starts_with(b"walk ") && oracle == b"error ErrUnmarshalUnknownChunkType"),
        Call::PqPush { fields, cumulative, .. } => (24, opposite(fields.tsn, *cumulative) && ours == b"refused 17" && [&b"yes"[..], b"no"].contains(&oracle)),
        Call::IqPush { .. } => (29, ours == b"refused 18" && oracle == b"done"),
        Call::ErrorUnmarshal { raw, .. } | Call::AbortUnmarshal { raw, .. } => match causes::parted(call) {
            Some(number) => (number, causes::begins(call, oracle)),
            None => (9, padding(raw).iter().any(|b| *b != 0) && oracle.starts_with(b"error ErrChunkHeaderPaddingNonZero ")),
        },
        Call::MNext { most } => (15, *most > i64::MAX as u64 && oracle.starts_with(b"panic ")),
        _ => return None,
    };
    explained.then_some(number)
}

/// What the Rust says of a packet whose first chunk it does not take.
const FIRST_CHUNK: [&[u8]; 5] = [
    b"error ErrParseSctpChunkNotEnoughData",
    b"error ErrUnmarshalUnknownChunkType",
    b"error ErrChunkHeaderPaddingNonZero",
    b"error ErrChunkValueNotLongEnough",
    b"refused 2",
];

/// An answer `data FLAGS TSN STREAM SSN IDENTIFIER` with 58 for the last word.
fn with_58(data: &[u8]) -> Vec<u8> {
    let end = data.iter().rposition(|b| *b == b' ').map_or(0, |space| space + 1);
    [&data[..end], b"58"].concat()
}

/// An answer `wrote N WHOLE` with 58 in bytes 12 to 15.
fn written_with_58(wrote: &[u8]) -> Vec<u8> {
    let start = wrote.iter().rposition(|b| *b == b' ').map_or(0, |space| space + 1) + 24;
    let mut line = wrote.to_vec();
    if let Some(digits) = line.get_mut(start..start + 8) {
        digits.copy_from_slice(b"0000003a");
    }
    line
}

#[cfg(test)]
mod tests {
    use super::*;
    use crate::model::fault::Wrong;
    use crate::model::packets;
    use calls::{Data, Fields};

    #[test]
    fn only_what_is_said_is_explained() {
        let call = Call::Sna32 { a: 0, b: 1 << 31 };
        assert_eq!(by(&call, b"no no no no", b"no no yes yes"), Some(8));
        assert_eq!(by(&call, b"yes yes no no", b"no no yes yes"), None);
        assert_eq!(by(&Call::Sna32 { a: 0, b: 1 }, b"no no no no", b"no no yes yes"), None);
        let padded = Call::Header { raw: vec![0, 0, 0, 4, 1] };
        assert_eq!(by(&padded, b"header 0 0 4", b"error ErrChunkHeaderPaddingNonZero"), Some(9));
        assert_eq!(by(&padded, b"header 0 0 4", b"refused 2"), None);
        let forward = |pairs| Call::FwdMarshal { room: 0, fill: 0, point: 0, streams: vec![0; pairs], ssns: vec![0; pairs] };
        assert_eq!(by(&forward(16_382), b"refused 9 -", b"no such answer"), Some(3));
        assert_eq!(by(&forward(16_381), b"refused 9 -", b"no such answer"), None);
    }

    #[test]
    fn an_identifier_without_a_name_where_the_rust_has_58() {
        let read = |identifier: u8, ours: &[u8], oracle: &[u8]| {
            let raw = vec![0, 3, 0, 17, 0, 0, 0, 10, 0, 2, 0, 5, 0, 0, 0, identifier, 97];
            by(&Call::DataUnmarshal { raw }, ours, oracle)
        };
        assert_eq!(read(7, b"data BE 10 2 5 7", b"data BE 10 2 5 58"), Some(5));
        assert_eq!([read(7, b"data BE 10 2 5 7", b"data BE 10 2 6 58"), read(7, b"data BE 10 2 5 7", b"data BE 10 2 5 59")], [None; 2]);
        assert_eq!([read(51, b"data BE 10 2 5 51", b"data BE 10 2 5 58"), read(7, b"refused 3", b"data BE 10 2 5 58")], [None; 2]);
        let fields = |identifier| Fields { flags: 3, tsn: 10, stream: 2, ssn: 5, identifier };
        let write = |identifier, ours: &str, oracle: &str| {
            let call = Call::DataMarshal { room: 18, fill: 0xEE, fields: fields(identifier), data: Data { size: 1, seed: b'a' } };
            by(&call, format!("wrote 17 000300110000000a00020005{ours}").as_bytes(), format!("wrote 17 000300110000000a00020005{oracle}").as_bytes())
        };
        assert_eq!(write(7, "0000000761ee", "0000003a61ee"), Some(5));
        assert_eq!([write(7, "0000000761ee", "0000003a62ee"), write(7, "0000000761ee", "0000003b61ee"), write(51, "0000003361ee", "0000003a61ee")], [None; 3]);
    }

    #[test]
    fn data_without_data_where_ours_answers_15() {
        let data = |length: u8, after: &[u8]| [&[0, 3, 0, length, 0, 0, 0, 10, 0, 2, 0, 5, 0, 0, 0, 51][..], after].concat();
        let fields = |raw: Vec<u8>, ours: &[u8]| by(&Call::DataUnmarshal { raw }, ours, b"data BE 10 2 5 51");
        assert_eq!([fields(data(16, &[]), b"refused 15"), fields(data(16, &[0]), b"refused 15")], [Some(6); 2]);
        assert_eq!([fields(data(16, &[]), b"refused 4"), fields(data(17, &[1]), b"refused 15"), fields(data(16, &[1]), b"refused 15")], [None; 3]);
        let part = |raw: Vec<u8>, oracle: &[u8]| by(&Call::DataUserData { raw }, b"refused 15", oracle);
        assert_eq!([part(data(16, &[]), b"part -"), part(data(16, &[]), b"part 00"), part(data(17, &[0]), b"part 00")], [Some(6), None, None]);
        assert_eq!(part(data(16, &[1]), b"error ErrChunkHeaderPaddingNonZero"), Some(9));
        let marshal = |size| Call::DataMarshal { room: 17, fill: 0, fields: Fields::default(), data: Data { size, seed: 0 } };
        let write = |size, ours: &[u8]| by(&marshal(size), ours, b"wrote 16 00");
        assert_eq!([write(0, b"refused 15 00"), write(0, b"refused 9 00"), write(1, b"refused 15 00")], [Some(6), None, None]);
    }

    #[test]
    fn an_opposite_tsn_that_the_rust_stores_or_logs() {
        let push = |tsn, cumulative, ours: &[u8], oracle: &[u8]| by(&Call::PqPush { fields: Fields { tsn, ..Fields::default() }, size: 0, cumulative }, ours, oracle);
        assert_eq!([push(1 << 31, 0, b"refused 17", b"yes"), push(7, 7 + (1 << 31), b"refused 17", b"no")], [Some(24); 2]);
        assert_eq!([push(1, 0, b"refused 17", b"yes"), push(1 << 31, 0, b"no", b"yes"), push(1 << 31, 0, b"refused 17", b"panic")], [None; 3]);
    }

    #[test]
    fn a_tsn_in_flight_that_the_rust_takes_again() {
        let push = |ours: &[u8], oracle: &[u8]| by(&Call::IqPush { fields: Fields::default(), size: 1, message: 0 }, ours, oracle);
        assert_eq!([push(b"refused 18", b"done"), push(b"refused 8", b"done"), push(b"refused 18", b"panic")], [Some(29), None, None]);
    }

    #[test]
    fn packets_that_the_rust_does_not_take_whole() {
        let packet = |body: &[u8]| packets::packet(1, 2, 3, body, Wrong::default());
        let header = |body: &[u8], oracle: &[u8]| by(&Call::Packet { raw: packet(body) }, b"packet 1 2 3", oracle);
        assert_eq!([header(&[0], b"error ErrParseSctpChunkNotEnoughData"), header(&[10, 0, 0, 3], b"refused 2")], [Some(19); 2]);
        assert_eq!([header(&[0], b"refused 14"), header(&[], b"refused 2"), header(&[10, 0, 0, 4], b"refused 2")], [None; 3]);
        let walk = |body: &[u8], ours: &[u8], oracle: &[u8]| by(&Call::PacketWalk { raw: packet(body) }, ours, oracle);
        let (short, other) = (b"error ErrParseSctpChunkNotEnoughData", b"error ErrUnmarshalUnknownChunkType");
        assert_eq!(walk(&[10, 0, 0, 5, 97], b"walk | 12 5 | 17 none", short), Some(20));
        assert_eq!(walk(&[255, 0, 0, 4], b"walk | 12 4 | 16 none", other), Some(22));
        assert_eq!([walk(&[10, 0, 0, 5, 97], b"walk | 12 refused 1", short), walk(&[10, 0, 0, 4], b"walk | 12 4 | 16 none", short)], [None; 2]);
        assert_eq!([walk(&[255, 0, 0, 4], b"walk | 12 4 | 16 none", short), walk(&[10, 0, 0, 5, 97], b"walk | 12 5 | 17 none", other)], [None; 2]);
    }
}
