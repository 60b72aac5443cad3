//! The same codec in plain Rust, measured as bench_wire measures: nanoseconds a message, the least of 20 batches.
use std::time::Instant;

const BATCHES: u32 = 20;
const ROUNDS: u32 = 100_000;

#[derive(Clone, Copy)]
struct NodeId(u32);

#[derive(Clone, Copy)]
struct MsgId {
    origin: NodeId,
    seq: u32,
}

struct Message {
    from: NodeId,
    body: Body,
}

enum Body {
    Join,
    ForwardJoin { node: NodeId, ttl: u8 },
    Joined,
    Neighbor { high: bool },
    NeighborReply { accepted: bool },
    Disconnect,
    Shuffle { origin: NodeId, ttl: u8, ids: Vec<NodeId> },
    ShuffleReply { ids: Vec<NodeId> },
    Gossip { id: MsgId, round: u16, payload: Vec<u8> },
    IHave { id: MsgId },
    Graft { id: MsgId },
    Prune,
}

#[allow(dead_code)]
#[derive(Debug)]
enum Fault {
    Short,
    BadVersion,
    BadKind,
    BadField,
    Trailing,
}

fn byte(bytes: &mut &[u8], least: u8, most: u8, fault: Fault) -> Result<u8, Fault> {
    let (&first, rest) = bytes.split_first().ok_or(Fault::Short)?;
    if first < least || first > most {
        return Err(fault);
    }
    *bytes = rest;
    Ok(first)
}

fn word(bytes: &mut &[u8]) -> Result<u32, Fault> {
    let (first, rest) = bytes.split_first_chunk::<4>().ok_or(Fault::Short)?;
    *bytes = rest;
    Ok(u32::from_be_bytes(*first))
}

fn half(bytes: &mut &[u8], most: u16) -> Result<u16, Fault> {
    let (first, rest) = bytes.split_first_chunk::<2>().ok_or(Fault::Short)?;
    let first = u16::from_be_bytes(*first);
    if first > most {
        return Err(Fault::BadField);
    }
    *bytes = rest;
    Ok(first)
}

fn end(bytes: &[u8]) -> Result<(), Fault> {
    if bytes.is_empty() { Ok(()) } else { Err(Fault::Trailing) }
}

fn exactly(bytes: &[u8], count: usize) -> Result<(), Fault> {
    if bytes.len() < count {
        return Err(Fault::Short);
    }
    end(&bytes[count..])
}

fn ids(bytes: &mut &[u8]) -> Result<Vec<NodeId>, Fault> {
    let count = byte(bytes, 0, 17, Fault::BadField)? as usize;
    exactly(bytes, 4 * count)?;
    Ok(bytes.chunks_exact(4).map(|id| NodeId(u32::from_be_bytes([id[0], id[1], id[2], id[3]]))).collect())
}

fn id(bytes: &mut &[u8]) -> Result<MsgId, Fault> {
    Ok(MsgId { origin: NodeId(word(bytes)?), seq: word(bytes)? })
}

#[inline(never)]
fn decode(mut bytes: &[u8]) -> Result<Message, Fault> {
    let bytes = &mut bytes;
    byte(bytes, 1, 1, Fault::BadVersion)?;
    let kind = byte(bytes, 1, 12, Fault::BadKind)?;
    let from = NodeId(word(bytes)?);
    let body = match kind {
        1 => Body::Join,
        2 => Body::ForwardJoin { node: NodeId(word(bytes)?), ttl: byte(bytes, 0, 15, Fault::BadField)? },
        3 => Body::Joined,
        4 => Body::Neighbor { high: byte(bytes, 0, 1, Fault::BadField)? == 1 },
        5 => Body::NeighborReply { accepted: byte(bytes, 0, 1, Fault::BadField)? == 1 },
        6 => Body::Disconnect,
        7 => {
            let origin = NodeId(word(bytes)?);
            let ttl = byte(bytes, 0, 15, Fault::BadField)?;
            return Ok(Message { from, body: Body::Shuffle { origin, ttl, ids: ids(bytes)? } });
        }
        8 => return Ok(Message { from, body: Body::ShuffleReply { ids: ids(bytes)? } }),
        9 => {
            let id = id(bytes)?;
            let round = half(bytes, u16::MAX)?;
            let len = half(bytes, 1024)? as usize;
            exactly(bytes, len)?;
            return Ok(Message { from, body: Body::Gossip { id, round, payload: bytes.to_vec() } });
        }
        10 => Body::IHave { id: id(bytes)? },
        11 => Body::Graft { id: id(bytes)? },
        _ => Body::Prune,
    };
    end(bytes)?;
    Ok(Message { from, body })
}

fn put_ids(out: &mut Vec<u8>, ids: &[NodeId]) {
    out.push(ids.len() as u8);
    for id in ids {
        out.extend_from_slice(&id.0.to_be_bytes());
    }
}

fn put_id(out: &mut Vec<u8>, id: &MsgId) {
    out.extend_from_slice(&id.origin.0.to_be_bytes());
    out.extend_from_slice(&id.seq.to_be_bytes());
}

fn kind_and_len(body: &Body) -> (u8, usize) {
    match body {
        Body::Join => (1, 6),
        Body::ForwardJoin { .. } => (2, 11),
        Body::Joined => (3, 6),
        Body::Neighbor { .. } => (4, 7),
        Body::NeighborReply { .. } => (5, 7),
        Body::Disconnect => (6, 6),
        Body::Shuffle { ids, .. } => (7, 12 + 4 * ids.len()),
        Body::ShuffleReply { ids } => (8, 7 + 4 * ids.len()),
        Body::Gossip { payload, .. } => (9, 18 + payload.len()),
        Body::IHave { .. } => (10, 14),
        Body::Graft { .. } => (11, 14),
        Body::Prune => (12, 6),
    }
}

#[inline(never)]
fn encode(message: &Message) -> Vec<u8> {
    let (kind, len) = kind_and_len(&message.body);
    let mut out = Vec::with_capacity(len);
    out.push(1);
    out.push(kind);
    out.extend_from_slice(&message.from.0.to_be_bytes());
    match &message.body {
        Body::Join | Body::Joined | Body::Disconnect | Body::Prune => {}
        Body::ForwardJoin { node, ttl } => {
            out.extend_from_slice(&node.0.to_be_bytes());
            out.push(*ttl);
        }
        Body::Neighbor { high: flag } | Body::NeighborReply { accepted: flag } => out.push(u8::from(*flag)),
        Body::Shuffle { origin, ttl, ids } => {
            out.extend_from_slice(&origin.0.to_be_bytes());
            out.push(*ttl);
            put_ids(&mut out, ids);
        }
        Body::ShuffleReply { ids } => put_ids(&mut out, ids),
        Body::Gossip { id, round, payload } => {
            put_id(&mut out, id);
            out.extend_from_slice(&round.to_be_bytes());
            out.extend_from_slice(&(payload.len() as u16).to_be_bytes());
            out.extend_from_slice(payload);
        }
        Body::IHave { id } | Body::Graft { id } => put_id(&mut out, id),
    }
    out
}

fn measure(name: &str, body: Body) {
    let message = Message { from: NodeId(1), body };
    let bytes = encode(&message);
    let (mut there, mut back, mut sum) = (u128::MAX, u128::MAX, 0u64);
    for _ in 0..BATCHES {
        let start = Instant::now();
        for _ in 0..ROUNDS {
            sum += encode(&message).len() as u64;
        }
        there = there.min(start.elapsed().as_nanos());
        let start = Instant::now();
        for _ in 0..ROUNDS {
            sum += u64::from(decode(&bytes).unwrap().from.0);
        }
        back = back.min(start.elapsed().as_nanos());
    }
    let (there, back) = (there / 10_000, back / 10_000);
    println!("{name} encode {there} decode {back} tenths of a nanosecond, sum {sum}");
}

fn main() {
    let node = NodeId(9);
    let id = MsgId { origin: node, seq: 7 };
    measure("join", Body::Join);
    measure("forward-join", Body::ForwardJoin { node, ttl: 6 });
    measure("joined", Body::Joined);
    measure("neighbor", Body::Neighbor { high: true });
    measure("neighbor-reply", Body::NeighborReply { accepted: true });
    measure("disconnect", Body::Disconnect);
    measure("shuffle-17", Body::Shuffle { origin: node, ttl: 6, ids: vec![node; 17] });
    measure("shuffle-reply-3", Body::ShuffleReply { ids: vec![node; 3] });
    measure("gossip-2", Body::Gossip { id, round: 3, payload: b"hi".to_vec() });
    measure("gossip-1024", Body::Gossip { id, round: 3, payload: vec![7; 1024] });
    measure("i-have", Body::IHave { id });
    measure("graft", Body::Graft { id });
    measure("prune", Body::Prune);
}
