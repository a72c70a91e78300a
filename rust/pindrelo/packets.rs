//! Packets of the host's own.
use super::{answer, length, Refusal, HEADER_SIZE};

extern "C" {
    fn pindrelo_read(datagram: *const u8, length: usize) -> u64;
    fn pindrelo_validate(datagram: *const u8, length: usize) -> u64;
    fn pindrelo_payload_length(datagram: *const u8, length: usize) -> u64;
    fn pindrelo_write(
        kind: u64, number: u64, flags: u64, payload: *const u8, length: usize, out: *mut u8, room: usize,
    ) -> u64;
}

#[derive(Clone, Copy, Debug, PartialEq, Eq)]
pub enum PacketKind {
    Data = 1,
    Ack = 2,
    Fin = 3,
}

#[derive(Clone, Copy, Debug, PartialEq, Eq)]
pub struct Packet {
    pub number: u32,
    pub kind: PacketKind,
    pub flags: u8,
}

/// A datagram's header. Bytes behind its payload are ignored.
pub fn read(datagram: &[u8]) -> Result<Packet, Refusal> {
    let value = answer(unsafe { pindrelo_read(datagram.as_ptr(), datagram.len()) })?.unwrap_or(0);
    let kind = match value >> 32 & 0xff {
        1 => PacketKind::Data,
        2 => PacketKind::Ack,
        _ => PacketKind::Fin,
    };
    Ok(Packet { number: value as u32, kind, flags: (value >> 40) as u8 })
}

/// Whether the checksum matches.
pub fn validate(datagram: &[u8]) -> Result<bool, Refusal> {
    Ok(answer(unsafe { pindrelo_validate(datagram.as_ptr(), datagram.len()) })?.is_some())
}

pub fn payload(datagram: &[u8]) -> Result<&[u8], Refusal> {
    let n = length(unsafe { pindrelo_payload_length(datagram.as_ptr(), datagram.len()) })?.unwrap_or(0);
    Ok(&datagram[HEADER_SIZE..HEADER_SIZE + n])
}

/// The length of the datagram, with its checksum, at the start of out.
pub fn write(packet: Packet, payload: &[u8], out: &mut [u8]) -> Result<usize, Refusal> {
    let (kind, number, flags) = (packet.kind as u64, packet.number.into(), packet.flags.into());
    let (p, o) = (payload.as_ptr(), out.as_mut_ptr());
    let a = unsafe { pindrelo_write(kind, number, flags, p, payload.len(), o, out.len()) };
    Ok(length(a)?.unwrap_or(0))
}
