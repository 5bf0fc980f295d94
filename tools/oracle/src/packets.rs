//! Packets: the Rust's own checksum, common header, walk and writer.
use crate::chunk::Chunk;
use crate::chunk::chunk_cookie_ack::ChunkCookieAck;
use crate::chunk::chunk_cookie_echo::ChunkCookieEcho;
use crate::chunk::chunk_forward_tsn::ChunkForwardTsn;
use crate::chunk::chunk_header::{CHUNK_HEADER_SIZE, ChunkHeader};
use crate::chunk::chunk_payload_data::ChunkPayloadData;
use crate::chunk::chunk_selective_ack::ChunkSelectiveAck;
use crate::chunk::chunk_type::*;
use crate::codec::put;
use crate::error::Result;
use crate::packet::{CommonHeader, PACKET_HEADER_SIZE, Packet, PartialDecode};
use crate::shown;
use crate::util::{ISCSI_CRC, get_padding_size};
use bytes::Bytes;
use calls::{Call, words};

type AnyChunk = Box<dyn Chunk + Send + Sync>;

pub fn answer(call: &Call, line: &mut Vec<u8>) {
    match call {
        Call::Crc32c { raw } => {
            let mut digest = ISCSI_CRC.digest();
            digest.update(raw);
            words!(line, "number", digest.finalize())
        }
        Call::Packet { raw } => {
            shown::result(common(&Bytes::copy_from_slice(raw)), line, |h, line| words!(line, "packet", h.source_port, h.destination_port, h.verification_tag))
        }
        Call::PacketWalk { raw } => shown::result(Packet::unmarshal(&Bytes::copy_from_slice(raw)), line, walk),
        Call::PacketMarshal { room, fill, source, destination, tag, chunks } => match held(chunks) {
            Some(chunks) => {
                let common_header = CommonHeader { source_port: *source, destination_port: *destination, verification_tag: *tag };
                put(Packet { common_header, chunks }.marshal(), *room, *fill, line)
            }
            None => shown::no_call(line),
        },
        _ => shown::no_call(line),
    }
}

/// The Rust has no call for the common header alone. It comes with the first chunk's header, or, where that is not taken, with all chunks.
fn common(raw: &Bytes) -> Result<CommonHeader> {
    PartialDecode::unmarshal(raw).map(|decoded| decoded.common_header).or_else(|_| Packet::unmarshal(raw).map(|packet| packet.common_header))
}

/// The chunks of a packet that was read whole: the sizes are their own, the places the sums that the Rust's reader goes by.
fn walk(packet: Packet, line: &mut Vec<u8>) {
    let mut place = PACKET_HEADER_SIZE;
    words!(line, "walk");
    for chunk in &packet.chunks {
        let value = chunk.value_length();
        words!(line, " |", place, CHUNK_HEADER_SIZE + value);
        place += CHUNK_HEADER_SIZE + value + get_padding_size(value);
    }
    words!(line, " |", place, "none");
}

/// Chunks that are lent back to back, read by the Rust; None where one is not of a kind that is read here, or not good. A packet of the Rust holds chunks that were read.
fn held(mut lent: &[u8]) -> Option<Vec<AnyChunk>> {
    let mut chunks = Vec::new();
    while !lent.is_empty() {
        let header = ChunkHeader::unmarshal(&Bytes::copy_from_slice(lent)).ok()?;
        let (front, rest) = lent.split_at(CHUNK_HEADER_SIZE + header.value_length());
        chunks.push(read(header.typ, &Bytes::copy_from_slice(front))?);
        lent = rest;
    }
    Some(chunks)
}

fn read(kind: ChunkType, raw: &Bytes) -> Option<AnyChunk> {
    Some(match kind {
        CT_PAYLOAD_DATA => Box::new(ChunkPayloadData::unmarshal(raw).ok()?),
        CT_SACK => Box::new(ChunkSelectiveAck::unmarshal(raw).ok()?),
        CT_FORWARD_TSN => Box::new(ChunkForwardTsn::unmarshal(raw).ok()?),
        CT_COOKIE_ECHO => Box::new(ChunkCookieEcho::unmarshal(raw).ok()?),
        CT_COOKIE_ACK => Box::new(ChunkCookieAck::unmarshal(raw).ok()?),
        _ => return None,
    })
}
