//! Wrong programs, each the rules with one of them read or done wrong, as an apprentice might.

use std::collections::HashSet;

use super::model::{
    pairs, pool_length, refuse_if, Call, Done, Holder, Judged, Left, Name, Outcome, Piece, Place,
    Room, Rules, Slip, Tables, BUFFERS, DONE, LAST, LIST, NARROW, PIECES, RANGE, SAME, SIZE, SLIP,
    TORN, TRUE, ZERO,
};

macro_rules! named {
    ($($wrong:ident,)*) => {
        &[$((stringify!($wrong), &$wrong),)*]
    };
}

/// Every wrong program by its name.
pub const MUTATIONS: &[(&str, &dyn Rules)] = named![
    FreesPastShared,
    OwnByOwnCount,
    BufferHeldBySlips,
    AuditCountsSlips,
    RangeWraps,
    SlipKeptWithoutPiece,
    HighestPiece,
    HighestBuffer,
    PackRoomGivenBack,
    KeepBorderInPlace,
    DropBorderTakesPiece,
    PullupOfWholeFirst,
    PullupFrontHigher,
    PullupAsksTwo,
    FrontNotRoom,
    FrontAfterFree,
    FrontBeforeFree,
    HeadOnlyRoom,
    SharedFrontRoom,
    CutPieceRoom,
    OwnBehindRoom,
    FrontByOwnCount,
    FrontBuffersRoom,
    GivenBackRefused,
    BuffersBeforePieces,
    PackSparesPacked,
    CutSharesTail,
    CutTakesTouched,
    RestNotZeroed,
    DupHeadsSame,
    ShowAlwaysNarrow,
    NarrowBeforeRange,
    SameBeforeSlip,
    DropAllVacates,
    RingUnseen,
    EndWraps,
    DirtyFreePassed,
    NextToFreePassed,
    NothingCleaned,
    AppendOwnWithoutB,
    AppendEmptyReplaces,
    LongFrom512,
    BufferLeftEarly,
    PutOneMore,
    ShowNothingAtHead,
    OpenClears,
    PiecesBeforeSlips,
    OpenTakesLonger,
    ListTakesLone,
    ListWrittenShort,
    ListClearsRest,
    ListAnswersNumbers,
    ListWithinBuffer,
    ListLengthFirst,
    ListByNumber,
    ListJoins,
    ListEmptyWantsOne,
    StretchesHalfRoom,
    GatherSumWraps,
    GatherEndWraps,
    GatherListFirst,
    GatherByRecord,
    GatherTakesLone,
    GatherPassesEmpty,
    GatherShortStorage,
    GatherCopiesFirst,
    GatherClearsRest,
    SerialUnseen,
    SerialUnseenInB,
    SerialUnseenInLooks,
    SerialLowByte,
    SerialAtLeast,
    SerialBeforeRange,
    EntryBehindSlips,
    VacantBySerial,
    SerialWraps,
    SerialStopsEarly,
    SerialReset,
    SerialAtGiving,
    FreeKeepsSerial,
    AppendKeepsSerial,
    AppendEmptyKeepsSerial,
    AppendMovesA,
    EmptyingMovesSerial,
    PackMovesSerial,
    RefusedFreeCounted,
    RefusedAppendCounted,
    AnswerWithoutSerial,
    AnswerNextSerial,
    AnswerSerialLow,
    SpentGiven,
    SpentGivenLast,
    SpentEarly,
    SpentHeldRefused,
    OpenKeepsSerials,
    OpenFirstVersion,
    AuditVacantSerial,
    AuditHeldLast,
    SameBeforeSerial,
    FreeForgets,
    DropForgets,
    KeepForgets,
    PullupForgets,
    PackForgets,
    CleansPieceOnly,
    CleansOneShort,
    CleansLowestOnly,
    CleansHeld,
    CleansBehind,
    CleansEveryFree,
    CleansCutOff,
    PullupCleansFirst,
    PackCleansFirst,
    AppendCleans,
    RefusedCleans,
    OpenCleansHeld,
    AuditAsksClean,
];

/// Release frees the whole chain past a piece that another slip still reaches.
struct FreesPastShared;

impl Rules for FreesPastShared {
    fn release(&self, t: &mut Tables, d: usize) {
        let Piece { buffer, next, .. } = t.pieces[d];
        t.pieces[d] = ZERO;
        t.buffers[buffer] = t.buffers[buffer].saturating_sub(1);
        if let Some(next) = next {
            self.release(t, next);
        }
    }
}

/// A piece of count 1 behind a shared piece is shortened in place.
struct OwnByOwnCount;

impl Rules for OwnByOwnCount {
    fn is_own(&self, t: &Tables, chain: &[usize], i: usize) -> bool {
        t.pieces[chain[i]].count == 1
    }
}

/// A new chain adds 1 to a buffer, however many of its pieces lie on it.
struct BufferHeldBySlips;

impl Rules for BufferHeldBySlips {
    fn build(
        &self,
        t: &mut Tables,
        room: &Room,
        places: &[Place],
        then: Option<usize>,
    ) -> Option<usize> {
        let head = TRUE.build(t, room, places, then);
        for (i, place) in places.iter().enumerate() {
            if places[..i].iter().any(|met| met.buffer == place.buffer) {
                t.buffers[place.buffer] -= 1;
            }
        }
        head
    }
}

/// The audit counts a buffer's holders by slips.
struct AuditCountsSlips;

impl Rules for AuditCountsSlips {
    fn holders(&self, t: &Tables) -> Vec<u64> {
        let mut holders = vec![0; t.buffers.len()];
        for slip in &t.slips {
            let places = t.places(&t.chain(*slip));
            let buffers: HashSet<usize> = places.iter().map(|q| q.buffer).collect();
            buffers.iter().for_each(|b| holders[*b] += 1);
        }
        holders
    }
}

/// Offset and length are added in 32 bits.
struct RangeWraps;

impl Rules for RangeWraps {
    fn end(&self, offset: u32, length: u32) -> u64 {
        offset.wrapping_add(length) as u64
    }
}

/// A slip is taken for the new chain before no piece is found, and kept.
struct SlipKeptWithoutPiece;

impl Rules for SlipKeptWithoutPiece {
    fn step(&self, pool: &[u8], storage: &[u8], call: &Call) -> Outcome {
        let mut after = TRUE.step(pool, storage, call);
        let takes_slip = matches!(call, Call::Put { .. } | Call::Dup { .. } | Call::Cut { .. });
        if takes_slip && after.code == PIECES {
            let mut t = Tables::parse(pool, storage).expect("sound");
            let vacant = TRUE.room(&t).slips[0];
            t.slips[vacant] = Slip::Empty;
            after.pool = t.bytes();
        }
        after
    }
}

/// New pieces are the highest free.
struct HighestPiece;

impl Rules for HighestPiece {
    fn room(&self, t: &Tables) -> Room {
        let mut room = TRUE.room(t);
        room.pieces.reverse();
        room
    }
}

/// New buffers are the highest free.
struct HighestBuffer;

impl Rules for HighestBuffer {
    fn room(&self, t: &Tables) -> Room {
        let mut room = TRUE.room(t);
        room.buffers.reverse();
        room
    }
}

/// Pack takes room that it gives back itself.
struct PackRoomGivenBack;

impl Rules for PackRoomGivenBack {
    fn pack(&self, mut t: Tables, storage: &[u8], slip: Name) -> Judged {
        let chain = t.chain(t.held(slip).ok_or(SLIP)?);
        if chain.len() <= 1 {
            return TRUE.pack(t, storage, slip);
        }
        let bytes = t.read(storage, &chain);
        TRUE.refer(&mut t, Holder::Slip(slip.number as usize), None);
        let room = TRUE.room(&t);
        let wanted = TRUE.portions(&bytes).len() as u64;
        TRUE.ask(&room, 0, wanted, wanted)?;
        Ok(TRUE.put_under(t, &room, slip.number as usize, &bytes))
    }
}

/// Keep at a border cuts the next of a piece that isn't own.
struct KeepBorderInPlace;

impl Rules for KeepBorderInPlace {
    fn keep(&self, mut t: Tables, slip: Name, n: u64) -> Judged {
        let chain = t.chain(t.held(slip).ok_or(SLIP)?);
        let last = t.spans(&chain).iter().position(|(_, end)| *end == n);
        match last {
            Some(i) if i + 1 < chain.len() => {
                TRUE.refer(&mut t, Holder::Piece(chain[i]), None);
                Ok(Done::changed(0, t))
            }
            _ => TRUE.keep(t, slip, n),
        }
    }
}

/// Drop at a border takes a new piece for the shared piece behind it.
struct DropBorderTakesPiece;

impl Rules for DropBorderTakesPiece {
    fn left_by_drop(&self, t: &Tables, chain: &[usize], n: u64) -> Left {
        let border = t.spans(chain).iter().position(|(start, _)| *start == n);
        match border {
            Some(i) if !TRUE.is_own(t, chain, i) => Left {
                shortened: None,
                places: vec![t.place(chain[i])],
                then: t.pieces[chain[i]].next,
            },
            _ => TRUE.left_by_drop(t, chain, n),
        }
    }
}

/// Pullup goes on although the first piece has just n bytes.
struct PullupOfWholeFirst;

impl Rules for PullupOfWholeFirst {
    fn pullup(&self, t: Tables, storage: &[u8], slip: Name, n: u64) -> Judged {
        let chain = t.chain(t.held(slip).ok_or(SLIP)?);
        if n > 0 && n == t.first_length(&chain) {
            return TRUE.pull(t, storage, slip.number, n);
        }
        TRUE.pullup(t, storage, slip, n)
    }
}

/// The rest of pullup takes the lower number.
struct PullupFrontHigher;

impl Rules for PullupFrontHigher {
    fn pull(&self, t: Tables, storage: &[u8], slip: u16, n: u64) -> Judged {
        let chain = t.chain(t.slips[slip as usize]);
        let two = !TRUE.left_by_drop(&t, &chain, n).places.is_empty();
        let mut done = TRUE.pull(t, storage, slip, n)?;
        let t = done.tables.as_mut().expect("a new front");
        if let ([front, rest, ..], true) = (&t.chain(t.slips[slip as usize])[..], two) {
            t.pieces.swap(*front, *rest);
            t.pieces[*rest].next = Some(*front);
            t.slips[slip as usize] = Slip::Heads(*rest);
        }
        Ok(done)
    }
}

/// Pullup asks for two pieces always.
struct PullupAsksTwo;

impl Rules for PullupAsksTwo {
    fn pull(&self, t: Tables, storage: &[u8], slip: u16, n: u64) -> Judged {
        let left = TRUE.left_by_drop(&t, &t.chain(t.slips[slip as usize]), n);
        let room = TRUE.give_back_front(&mut t.clone(), slip, &left);
        TRUE.ask(&room, 0, 2, 1)?;
        TRUE.pull(t, storage, slip, n)
    }
}

/// Drop and pullup take pieces free at entry only.
struct FrontNotRoom;

impl Rules for FrontNotRoom {
    fn give_back_front(&self, t: &mut Tables, slip: u16, left: &Left) -> Room {
        let entry = TRUE.room(t);
        TRUE.give_back_front(t, slip, left);
        entry
    }
}

/// The pieces that drop and pullup give back are taken after all those free at entry.
struct FrontAfterFree;

impl Rules for FrontAfterFree {
    fn give_back_front(&self, t: &mut Tables, slip: u16, left: &Left) -> Room {
        let free = TRUE.room(t).pieces;
        let mut room = TRUE.give_back_front(t, slip, left);
        room.pieces.sort_by_key(|d| !free.contains(d));
        room
    }
}

/// The pieces that drop and pullup give back are taken before all those free at entry.
struct FrontBeforeFree;

impl Rules for FrontBeforeFree {
    fn give_back_front(&self, t: &mut Tables, slip: u16, left: &Left) -> Room {
        let free = TRUE.room(t).pieces;
        let mut room = TRUE.give_back_front(t, slip, left);
        room.pieces.sort_by_key(|d| free.contains(d));
        room
    }
}

/// Of the pieces that drop and pullup give back the head alone is room.
struct HeadOnlyRoom;

impl Rules for HeadOnlyRoom {
    fn give_back_front(&self, t: &mut Tables, slip: u16, left: &Left) -> Room {
        let mut free = TRUE.room(t).pieces;
        free.extend(t.slips[slip as usize].head());
        let mut room = TRUE.give_back_front(t, slip, left);
        room.pieces.retain(|d| free.contains(d));
        room
    }
}

/// What drop and pullup give back, with more pieces as room than the release frees.
fn with_more(t: &mut Tables, slip: u16, left: &Left, more: &[usize]) -> Room {
    let mut room = TRUE.give_back_front(t, slip, left);
    room.pieces.extend(more);
    room.pieces.sort_unstable();
    room.pieces.dedup();
    room
}

/// The slip's chain in two parts: the pieces wholly in front of what drop leaves, and the others.
fn around(t: &Tables, slip: u16, left: &Left) -> (Vec<usize>, Vec<usize>) {
    let mut front = t.chain(t.slips[slip as usize]);
    let stays = front.iter().position(|d| Some(*d) == left.then);
    // A piece that a new one takes the place of stands before what is then behind it.
    let kept = stays.unwrap_or(front.len()) - left.places.len();
    let others = front.split_off(kept);
    (front, others)
}

/// A shared piece in front of what stays counts as given back.
struct SharedFrontRoom;

impl Rules for SharedFrontRoom {
    fn give_back_front(&self, t: &mut Tables, slip: u16, left: &Left) -> Room {
        let (front, _) = around(t, slip, left);
        with_more(t, slip, left, &front)
    }
}

/// A piece that isn't own counts as given back where the cut falls inside it.
struct CutPieceRoom;

impl Rules for CutPieceRoom {
    fn give_back_front(&self, t: &mut Tables, slip: u16, left: &Left) -> Room {
        let (_, others) = around(t, slip, left);
        with_more(t, slip, left, &others[..left.places.len()])
    }
}

/// Every own piece counts as given back, also where it stays.
struct OwnBehindRoom;

impl Rules for OwnBehindRoom {
    fn give_back_front(&self, t: &mut Tables, slip: u16, left: &Left) -> Room {
        let chain = t.chain(t.slips[slip as usize]);
        let own = TRUE.own(t, &chain);
        with_more(t, slip, left, &chain[..own])
    }
}

/// A piece of count 1 in front of what stays counts as given back, also behind a shared one.
struct FrontByOwnCount;

impl Rules for FrontByOwnCount {
    fn give_back_front(&self, t: &mut Tables, slip: u16, left: &Left) -> Room {
        let (mut front, _) = around(t, slip, left);
        front.retain(|d| t.pieces[*d].count == 1);
        with_more(t, slip, left, &front)
    }
}

/// Buffers that pullup gives back are room for it.
struct FrontBuffersRoom;

impl Rules for FrontBuffersRoom {
    fn give_back_front(&self, t: &mut Tables, slip: u16, left: &Left) -> Room {
        TRUE.give_back_front(t, slip, left);
        TRUE.room(t)
    }
}

/// Drop and pullup give back the front before they refuse for want of room.
struct GivenBackRefused;

impl Rules for GivenBackRefused {
    fn step(&self, pool: &[u8], storage: &[u8], call: &Call) -> Outcome {
        let mut after = TRUE.step(pool, storage, call);
        if let (PIECES | BUFFERS, Call::Drop { slip, n } | Call::Pullup { slip, n }) =
            (after.code, call)
        {
            let mut t = Tables::parse(pool, storage).expect("sound");
            let chain = t.chain(t.slips[slip.number as usize]);
            let left = TRUE.left_by_drop(&t, &chain, *n as u64);
            TRUE.give_back_front(&mut t, slip.number, &left);
            after.pool = t.bytes();
        }
        after
    }
}

/// Pullup judges buffers before pieces.
struct BuffersBeforePieces;

impl Rules for BuffersBeforePieces {
    fn ask(&self, room: &Room, slips: u64, pieces: u64, buffers: u64) -> Result<(), u16> {
        TRUE.ask(room, slips, 0, buffers)?;
        TRUE.ask(room, slips, pieces, buffers)
    }
}

/// Pack leaves a chain that is packed already.
struct PackSparesPacked;

impl Rules for PackSparesPacked {
    fn pack(&self, t: Tables, storage: &[u8], slip: Name) -> Judged {
        let places = t.places(&t.chain(t.held(slip).ok_or(SLIP)?));
        match places.split_last() {
            Some((last, full)) if last.offset == 0 && full.iter().all(|q| q.length == SIZE) => {
                Ok(Done::nothing(0))
            }
            _ => TRUE.pack(t, storage, slip),
        }
    }
}

/// Cut up to the chain's end shares the tail.
struct CutSharesTail;

impl Rules for CutSharesTail {
    fn cut(&self, t: Tables, slip: Name, offset: u32, length: u32) -> Judged {
        let chain = t.chain(t.held(slip).ok_or(SLIP)?);
        let spans = t.spans(&chain);
        let tail = spans.iter().position(|(start, _)| *start >= offset as u64);
        match tail {
            Some(i) if TRUE.end(offset, length) == t.length(&chain) => {
                // The part before the tail, on a new piece, and then the tail itself.
                let before = spans[i].0 as u32 - offset;
                let mut done = TRUE.cut(t, slip, offset, before)?;
                let t = done.tables.as_mut().expect("a new slip");
                let new = done.number as u16 as usize;
                let holder = match t.chain(t.slips[new]).last() {
                    None => Holder::Slip(new),
                    Some(d) => Holder::Piece(*d),
                };
                TRUE.refer(t, holder, Some(chain[i]));
                Ok(done)
            }
            _ => TRUE.cut(t, slip, offset, length),
        }
    }
}

/// Cut takes a piece that the range only touches.
struct CutTakesTouched;

impl Rules for CutTakesTouched {
    fn overlaps(&self, span: (u64, u64), range: (u64, u64)) -> bool {
        range.0 < range.1 && span.0.max(range.0) <= span.1.min(range.1)
    }
}

/// The rest of the last buffer keeps its old bytes.
struct RestNotZeroed;

impl Rules for RestNotZeroed {
    fn filled(&self, data: &[u8]) -> Vec<u8> {
        data.to_vec()
    }
}

/// Dup heads the same piece.
struct DupHeadsSame;

impl Rules for DupHeadsSame {
    fn dup(&self, t: Tables, slip: Name) -> Judged {
        let head = t.held(slip).ok_or(SLIP)?.head();
        TRUE.new_chain(t, &[], head)
    }
}

/// Show judges the scratch where nothing is copied too.
struct ShowAlwaysNarrow;

impl Rules for ShowAlwaysNarrow {
    fn show(&self, t: Tables, storage: &[u8], slip: Name, n: u64, scratch: usize) -> Judged {
        let done = TRUE.show(t, storage, slip, n, scratch)?;
        refuse_if((scratch as u64) < n, NARROW)?;
        Ok(done)
    }
}

/// Read judges the output before the range.
struct NarrowBeforeRange;

impl Rules for NarrowBeforeRange {
    fn read(
        &self,
        t: Tables,
        storage: &[u8],
        slip: Name,
        offset: u32,
        length: u32,
        output: usize,
    ) -> Judged {
        match TRUE.read(t, storage, slip, offset, length, output) {
            Err(RANGE) if (output as u64) < length as u64 => Err(NARROW),
            judged => judged,
        }
    }
}

/// Append judges one number twice before the slips, and so before their serials.
struct SameBeforeSlip;

impl Rules for SameBeforeSlip {
    fn append(&self, t: Tables, a: Name, b: Name) -> Judged {
        refuse_if(a.number == b.number, SAME)?;
        TRUE.append(t, a, b)
    }
}

/// Drop of the whole length leaves the slip vacant.
struct DropAllVacates;

impl Rules for DropAllVacates {
    fn drop(&self, t: Tables, slip: Name, n: u64) -> Judged {
        let mut done = TRUE.drop(t, slip, n)?;
        if let Some(t) = &mut done.tables {
            if t.slips[slip.number as usize] == Slip::Empty {
                TRUE.vacate(t, slip.number as usize);
            }
        }
        Ok(done)
    }
}

/// The audit doesn't see a ring.
struct RingUnseen;

impl Rules for RingUnseen {
    fn never_comes_back(&self, _: &Tables, _: usize) -> bool {
        true
    }
}

/// The audit adds a piece's offset and length in 16 bits.
struct EndWraps;

impl Rules for EndWraps {
    fn end_in_buffer(&self, piece: &Piece) -> u64 {
        (piece.offset + piece.length) % 65_536
    }
}

/// The audit doesn't look at the rest of a piece with count 0.
struct DirtyFreePassed;

impl Rules for DirtyFreePassed {
    fn is_well_formed(&self, t: &Tables, piece: &Piece) -> bool {
        piece.count == 0 || TRUE.is_well_formed(t, piece)
    }
}

/// The audit lets next point at a piece with count 0.
struct NextToFreePassed;

impl Rules for NextToFreePassed {
    fn is_good_next(&self, t: &Tables, next: Option<usize>) -> bool {
        next.map_or(true, |d| d < t.pieces.len())
    }

    fn are_counted(&self, t: &Tables, references: &[u64]) -> bool {
        let mut both = t.pieces.iter().zip(references);
        both.all(|(piece, found)| piece.count == 0 || piece.count == *found)
    }
}

/// A buffer given back keeps its old bytes, whatever the call.
struct NothingCleaned;

impl Rules for NothingCleaned {
    fn clean(&self, _: &Tables, _: &mut Done) {}
}

/// Append judges own without the reference that b holds.
struct AppendOwnWithoutB;

impl Rules for AppendOwnWithoutB {
    fn append(&self, t: Tables, a: Name, b: Name) -> Judged {
        match t.held(b) {
            Some(Slip::Heads(d)) => OwnWithout(d).append(t, a, b),
            _ => TRUE.append(t, a, b),
        }
    }
}

/// Own is judged without one reference to this piece.
struct OwnWithout(usize);

impl Rules for OwnWithout {
    fn own(&self, t: &Tables, chain: &[usize]) -> usize {
        let mut t = t.clone();
        t.pieces[self.0].count -= 1;
        TRUE.own(&t, chain)
    }
}

/// Append of an empty b replaces pieces that aren't own.
struct AppendEmptyReplaces;

impl Rules for AppendEmptyReplaces {
    fn append(&self, mut t: Tables, a: Name, b: Name) -> Judged {
        match (t.held(a), t.held(b)) {
            (Some(state @ Slip::Heads(_)), Some(Slip::Empty)) => {
                let chain = t.chain(state);
                let (own, others) = chain.split_at(TRUE.own(&t, &chain));
                let places = t.places(others);
                TRUE.replace(&mut t, a.number, own, &places, None)?;
                TRUE.vacate(&mut t, b.number as usize);
                Ok(Done::changed(0, t))
            }
            _ => TRUE.append(t, a, b),
        }
    }
}

/// Code 5 is given from 512 on.
struct LongFrom512;

impl Rules for LongFrom512 {
    fn is_long(&self, n: u64) -> bool {
        n >= SIZE
    }
}

/// A buffer's count goes down with every reference released.
struct BufferLeftEarly;

impl Rules for BufferLeftEarly {
    fn release(&self, t: &mut Tables, d: usize) {
        let Piece { buffer, next, .. } = t.pieces[d];
        t.buffers[buffer] = t.buffers[buffer].saturating_sub(1);
        if t.pieces[d].count > 1 {
            t.pieces[d].count -= 1;
            return;
        }
        t.pieces[d] = ZERO;
        if let Some(next) = next {
            self.release(t, next);
        }
    }
}

/// Put of 512 bytes takes two pieces.
struct PutOneMore;

impl Rules for PutOneMore {
    fn portions<'a>(&self, data: &'a [u8]) -> Vec<&'a [u8]> {
        let mut portions = TRUE.portions(data);
        if !data.is_empty() && data.len() as u64 % SIZE == 0 {
            portions.push(&[]);
        }
        portions
    }
}

/// Show of 0 bytes answers the head's place.
struct ShowNothingAtHead;

impl Rules for ShowNothingAtHead {
    fn show(&self, t: Tables, storage: &[u8], slip: Name, n: u64, scratch: usize) -> Judged {
        let state = t.held(slip).ok_or(SLIP)?;
        let place = state.head().map_or(0, |d| t.start(d));
        let mut done = TRUE.show(t, storage, slip, n, scratch)?;
        if n == 0 {
            done.view.start = place;
        }
        Ok(done)
    }
}

/// Open zeroes storage.
struct OpenClears;

impl Rules for OpenClears {
    fn step(&self, pool: &[u8], storage: &[u8], call: &Call) -> Outcome {
        let mut after = TRUE.step(pool, storage, call);
        if matches!(call, Call::Open { .. }) && after.code == DONE {
            after.storage.fill(0);
        }
        after
    }
}

/// Pieces are judged before slips.
struct PiecesBeforeSlips;

impl Rules for PiecesBeforeSlips {
    fn ask(&self, room: &Room, slips: u64, pieces: u64, buffers: u64) -> Result<(), u16> {
        refuse_if(pieces > room.pieces.len() as u64, PIECES)?;
        TRUE.ask(room, slips, pieces, buffers)
    }
}

/// Open takes lengths greater than the ones it asks.
struct OpenTakesLonger;

impl Rules for OpenTakesLonger {
    fn open(&self, pool: &[u8], storage: &[u8], buffers: u16, pieces: u16, slips: u16) -> Judged {
        let asked = pool_length(buffers as u64, pieces as u64, slips as u64) as usize;
        let front = pool.get(..asked).unwrap_or(pool);
        TRUE.open(front, storage, buffers, pieces, slips)
    }
}

/// List takes a lone last number for the room of a record.
struct ListTakesLone;

impl Rules for ListTakesLone {
    fn list(&self, t: Tables, slip: Name, numbers: usize) -> Judged {
        let mut done = TRUE.list(t, slip, numbers + numbers % 2)?;
        done.listed.truncate(numbers);
        Ok(done)
    }
}

/// A list too short for all records gets those that it takes.
struct ListWrittenShort;

impl Rules for ListWrittenShort {
    fn step(&self, pool: &[u8], storage: &[u8], call: &Call) -> Outcome {
        let mut after = TRUE.step(pool, storage, call);
        if let (NARROW, Call::List { slip, .. } | Call::Stretches { slip, .. }) = (after.code, call)
        {
            let t = Tables::parse(pool, storage).expect("sound");
            let chain = t.chain(t.slips[slip.number as usize]);
            let numbers = TRUE.records(&t, &chain).concat();
            let room = after.list.len() / 2 * 2;
            after.list[..room].copy_from_slice(&numbers[..room]);
        }
        after
    }
}

/// List zeroes the numbers past the last record.
struct ListClearsRest;

impl Rules for ListClearsRest {
    fn step(&self, pool: &[u8], storage: &[u8], call: &Call) -> Outcome {
        let mut after = TRUE.step(pool, storage, call);
        let lists = matches!(call, Call::List { .. } | Call::Stretches { .. });
        if lists && after.code == DONE {
            after.list[2 * after.number as usize..].fill(0);
        }
        after
    }
}

/// List answers how many numbers it wrote.
struct ListAnswersNumbers;

impl Rules for ListAnswersNumbers {
    fn list(&self, t: Tables, slip: Name, numbers: usize) -> Judged {
        let done = TRUE.list(t, slip, numbers)?;
        Ok(Done {
            number: done.listed.len() as u64,
            ..done
        })
    }
}

/// A record's position is that in its buffer.
struct ListWithinBuffer;

impl Rules for ListWithinBuffer {
    fn records(&self, t: &Tables, chain: &[usize]) -> Vec<[u32; 2]> {
        let record = |q: Place| [q.offset as u32, q.length as u32];
        t.places(chain).into_iter().map(record).collect()
    }
}

/// A record has its length first.
struct ListLengthFirst;

impl Rules for ListLengthFirst {
    fn records(&self, t: &Tables, chain: &[usize]) -> Vec<[u32; 2]> {
        let records = TRUE.records(t, chain).into_iter();
        records
            .map(|[position, length]| [length, position])
            .collect()
    }
}

/// List goes by the pieces' numbers, not along the chain.
struct ListByNumber;

impl Rules for ListByNumber {
    fn records(&self, t: &Tables, chain: &[usize]) -> Vec<[u32; 2]> {
        let mut pieces = chain.to_vec();
        pieces.sort_unstable();
        TRUE.records(t, &pieces)
    }
}

/// Two pieces that follow each other in storage make one record.
struct ListJoins;

impl Rules for ListJoins {
    fn records(&self, t: &Tables, chain: &[usize]) -> Vec<[u32; 2]> {
        let mut joined: Vec<[u32; 2]> = Vec::new();
        for [position, length] in TRUE.records(t, chain) {
            match joined.last_mut() {
                Some(last) if last[0] + last[1] == position => last[1] += length,
                _ => joined.push([position, length]),
            }
        }
        joined
    }
}

/// List of an empty chain wants room for a record.
struct ListEmptyWantsOne;

impl Rules for ListEmptyWantsOne {
    fn list(&self, t: Tables, slip: Name, numbers: usize) -> Judged {
        let done = TRUE.list(t, slip, numbers)?;
        refuse_if(numbers < 2, NARROW)?;
        Ok(done)
    }
}

/// Stretches takes the count of its records for that of numbers.
struct StretchesHalfRoom;

impl Rules for StretchesHalfRoom {
    fn list_in_records(&self, t: Tables, slip: Name, records: usize) -> Judged {
        TRUE.list(t, slip, records)
    }
}

/// Gather adds the lengths in 32 bits.
struct GatherSumWraps;

impl Rules for GatherSumWraps {
    fn sum(&self, records: &[(u64, u64)]) -> u64 {
        TRUE.sum(records) % (1 << 32)
    }
}

/// Gather adds a record's position and length in 32 bits.
struct GatherEndWraps;

impl Rules for GatherEndWraps {
    fn is_amiss(&self, storage: &[u8], (position, length): (u64, u64)) -> bool {
        length == 0 || (position + length) % (1 << 32) > storage.len() as u64
    }
}

/// Gather judges the records before the output.
struct GatherListFirst;

impl Rules for GatherListFirst {
    fn gather(&self, storage: &[u8], list: &[u32], output: u64) -> Judged {
        let amiss = |record: &(u64, u64)| TRUE.is_amiss(storage, *record);
        refuse_if(pairs(list).iter().any(amiss), LIST)?;
        TRUE.gather(storage, list, output)
    }
}

/// Gather judges record by record, its place and then its room in the output.
struct GatherByRecord;

impl Rules for GatherByRecord {
    fn gather(&self, storage: &[u8], list: &[u32], output: u64) -> Judged {
        let mut left = output;
        for record in pairs(list) {
            refuse_if(TRUE.is_amiss(storage, record), LIST)?;
            refuse_if(record.1 > left, NARROW)?;
            left -= record.1;
        }
        TRUE.gather(storage, list, output)
    }
}

/// Gather takes a lone last number for a record of no length.
struct GatherTakesLone;

impl Rules for GatherTakesLone {
    fn gather(&self, storage: &[u8], list: &[u32], output: u64) -> Judged {
        let mut whole = list.to_vec();
        whole.resize(list.len() + list.len() % 2, 0);
        TRUE.gather(storage, &whole, output)
    }
}

/// Gather passes over a record of no length.
struct GatherPassesEmpty;

impl Rules for GatherPassesEmpty {
    fn is_amiss(&self, storage: &[u8], (position, length): (u64, u64)) -> bool {
        position + length > storage.len() as u64
    }
}

/// Gather refuses a record that ends where storage ends.
struct GatherShortStorage;

impl Rules for GatherShortStorage {
    fn is_amiss(&self, storage: &[u8], (position, length): (u64, u64)) -> bool {
        length == 0 || position + length >= storage.len() as u64
    }
}

/// Gather copies the records before the one that it refuses.
struct GatherCopiesFirst;

impl Rules for GatherCopiesFirst {
    fn step(&self, pool: &[u8], storage: &[u8], call: &Call) -> Outcome {
        let mut after = TRUE.step(pool, storage, call);
        if let (LIST, Call::Gather { list, .. }) = (after.code, call) {
            let good = |record: &(u64, u64)| !TRUE.is_amiss(storage, *record);
            let mut at = 0;
            for (position, length) in pairs(list).into_iter().take_while(good) {
                let bytes = &storage[position as usize..][..length as usize];
                after.lent[at..at + bytes.len()].copy_from_slice(bytes);
                at += bytes.len();
            }
        }
        after
    }
}

/// Gather zeroes the output past the bytes.
struct GatherClearsRest;

impl Rules for GatherClearsRest {
    fn step(&self, pool: &[u8], storage: &[u8], call: &Call) -> Outcome {
        let mut after = TRUE.step(pool, storage, call);
        if matches!(call, Call::Gather { .. }) && after.code == DONE {
            after.lent[after.number as usize..].fill(0);
        }
        after
    }
}

/// The serial is not compared.
struct SerialUnseen;

impl Rules for SerialUnseen {
    fn named(&self, t: &Tables, name: Name) -> Result<Slip, u16> {
        t.state(name.number).ok_or(SLIP)
    }
}

/// The name of the slip of this number as it is now, whatever serial was given.
fn right(t: &Tables, name: Name) -> Name {
    t.state(name.number).map_or(name, |_| t.name(name.number))
}

/// Append doesn't compare the serial of b.
struct SerialUnseenInB;

impl Rules for SerialUnseenInB {
    fn append(&self, t: Tables, a: Name, b: Name) -> Judged {
        let b = right(&t, b);
        TRUE.append(t, a, b)
    }
}

/// Read, show and the lists don't compare the serial.
struct SerialUnseenInLooks;

impl Rules for SerialUnseenInLooks {
    fn read(
        &self,
        t: Tables,
        storage: &[u8],
        slip: Name,
        offset: u32,
        length: u32,
        output: usize,
    ) -> Judged {
        let slip = right(&t, slip);
        TRUE.read(t, storage, slip, offset, length, output)
    }

    fn show(&self, t: Tables, storage: &[u8], slip: Name, n: u64, scratch: usize) -> Judged {
        let slip = right(&t, slip);
        TRUE.show(t, storage, slip, n, scratch)
    }

    fn list(&self, t: Tables, slip: Name, numbers: usize) -> Judged {
        let slip = right(&t, slip);
        TRUE.list(t, slip, numbers)
    }
}

/// Of the serial the low byte alone is compared.
struct SerialLowByte;

impl Rules for SerialLowByte {
    fn named(&self, t: &Tables, name: Name) -> Result<Slip, u16> {
        let state = t.state(name.number).ok_or(SLIP)?;
        let stored = t.serials[name.number as usize];
        refuse_if(stored % 256 != name.serial as u64 % 256, SLIP)?;
        Ok(state)
    }
}

/// An earlier serial is refused, a later one is not.
struct SerialAtLeast;

impl Rules for SerialAtLeast {
    fn named(&self, t: &Tables, name: Name) -> Result<Slip, u16> {
        let state = t.state(name.number).ok_or(SLIP)?;
        let stored = t.serials[name.number as usize];
        refuse_if((name.serial as u64) < stored, SLIP)?;
        Ok(state)
    }
}

/// What a program comes to that reads outside its tables: no rule gives this code.
const OUTSIDE: u16 = u16::MAX;

/// The serial is compared before the number is found to be below S.
struct SerialBeforeRange;

impl Rules for SerialBeforeRange {
    fn named(&self, t: &Tables, name: Name) -> Result<Slip, u16> {
        let stored = t.serials.get(name.number as usize).ok_or(OUTSIDE)?;
        refuse_if(*stored != name.serial as u64, SLIP)?;
        TRUE.named(t, name)
    }
}

/// The number is not compared with S: words of the pieces behind the slips are taken for an entry.
struct EntryBehindSlips;

impl Rules for EntryBehindSlips {
    fn named(&self, t: &Tables, name: Name) -> Result<Slip, u16> {
        let (entry, pool) = (11 + 4 * name.number as usize, t.bytes());
        let outside = name.number as usize >= t.slips.len();
        match pool.get(entry..entry + 4) {
            Some([low, high, serial @ ..]) if outside && (*low, *high) != (0, 0) => {
                refuse_if(*serial == name.serial.to_le_bytes(), OUTSIDE)?;
                Err(SLIP)
            }
            _ => TRUE.named(t, name),
        }
    }
}

/// A slip is held where its serial is the one given, vacant or not: a vacant one reads as empty.
struct VacantBySerial;

impl Rules for VacantBySerial {
    fn named(&self, t: &Tables, name: Name) -> Result<Slip, u16> {
        let stored = t.serials.get(name.number as usize).ok_or(SLIP)?;
        refuse_if(*stored != name.serial as u64, SLIP)?;
        Ok(t.state(name.number).unwrap_or(Slip::Empty))
    }
}

/// After the last serial comes the first.
struct SerialWraps;

impl Rules for SerialWraps {
    fn older(&self, serial: u64) -> u64 {
        (serial + 1) % (LAST + 1)
    }
}

/// The serial goes no further than the last but one.
struct SerialStopsEarly;

impl Rules for SerialStopsEarly {
    fn older(&self, serial: u64) -> u64 {
        (serial + 1).min(LAST - 1).max(serial)
    }
}

/// A vacant slip has serial 0.
struct SerialReset;

impl Rules for SerialReset {
    fn older(&self, _: u64) -> u64 {
        0
    }
}

/// The serial goes up when the slip is given, not when it is vacated.
struct SerialAtGiving;

impl SerialAtGiving {
    /// The slip just given is older by one.
    fn aged(mut done: Done) -> Judged {
        let t = done.tables.as_mut().expect("a new slip");
        let slip = done.number as u16;
        t.serials[slip as usize] = TRUE.older(t.serials[slip as usize]);
        done.number = t.name(slip).answer();
        Ok(done)
    }
}

impl Rules for SerialAtGiving {
    fn vacate(&self, t: &mut Tables, slip: usize) {
        t.slips[slip] = Slip::Vacant;
    }

    fn put(&self, t: Tables, data: &[u8]) -> Judged {
        SerialAtGiving::aged(TRUE.put(t, data)?)
    }

    fn new_chain(&self, t: Tables, places: &[Place], then: Option<usize>) -> Judged {
        SerialAtGiving::aged(TRUE.new_chain(t, places, then)?)
    }
}

/// A done call, with this slip's serial as it was before.
fn with_serial_of(before: &Tables, slip: u16, judged: Judged) -> Judged {
    let mut done = judged?;
    if let Some(t) = &mut done.tables {
        t.serials[slip as usize] = before.serials[slip as usize];
    }
    Ok(done)
}

/// Free leaves the serial.
struct FreeKeepsSerial;

impl Rules for FreeKeepsSerial {
    fn free(&self, t: Tables, slip: Name) -> Judged {
        let done = TRUE.free(t.clone(), slip);
        with_serial_of(&t, slip.number, done)
    }
}

/// Append leaves the serial of b.
struct AppendKeepsSerial;

impl Rules for AppendKeepsSerial {
    fn append(&self, t: Tables, a: Name, b: Name) -> Judged {
        let done = TRUE.append(t.clone(), a, b);
        with_serial_of(&t, b.number, done)
    }
}

/// Append leaves the serial of b where either side is empty.
struct AppendEmptyKeepsSerial;

impl Rules for AppendEmptyKeepsSerial {
    fn append(&self, t: Tables, a: Name, b: Name) -> Judged {
        let done = TRUE.append(t.clone(), a, b);
        match [t.held(a), t.held(b)].contains(&Some(Slip::Empty)) {
            true => with_serial_of(&t, b.number, done),
            false => done,
        }
    }
}

/// A done call, with this slip's serial older by one.
fn aged(slip: u16, judged: Judged) -> Judged {
    let mut done = judged?;
    if let Some(t) = &mut done.tables {
        t.serials[slip as usize] = TRUE.older(t.serials[slip as usize]);
    }
    Ok(done)
}

/// Append moves the serial of a too.
struct AppendMovesA;

impl Rules for AppendMovesA {
    fn append(&self, t: Tables, a: Name, b: Name) -> Judged {
        aged(a.number, TRUE.append(t, a, b))
    }
}

/// Keep of 0 and drop of the whole length move the serial.
struct EmptyingMovesSerial;

impl EmptyingMovesSerial {
    /// Older where the slip was emptied.
    fn emptied(slip: Name, judged: Judged) -> Judged {
        let empty = |t: &Tables| t.slips[slip.number as usize] == Slip::Empty;
        match &judged {
            Ok(done) if done.tables.as_ref().is_some_and(empty) => aged(slip.number, judged),
            _ => judged,
        }
    }
}

impl Rules for EmptyingMovesSerial {
    fn drop(&self, t: Tables, slip: Name, n: u64) -> Judged {
        EmptyingMovesSerial::emptied(slip, TRUE.drop(t, slip, n))
    }

    fn keep(&self, t: Tables, slip: Name, n: u64) -> Judged {
        EmptyingMovesSerial::emptied(slip, TRUE.keep(t, slip, n))
    }
}

/// Pack, which puts the bytes afresh, moves the serial as if the slip were vacated on the way.
struct PackMovesSerial;

impl Rules for PackMovesSerial {
    fn pack(&self, t: Tables, storage: &[u8], slip: Name) -> Judged {
        aged(slip.number, TRUE.pack(t, storage, slip))
    }
}

/// The pool after a refusal in which one slip's serial went up all the same, if there is such a slip.
fn counted_refusal(after: &mut Outcome, storage: &[u8], slip: Name) {
    let mut t = Tables::parse(&after.pool, storage).expect("sound");
    if let Some(serial) = t.serials.get_mut(slip.number as usize) {
        *serial = TRUE.older(*serial);
        after.pool = t.bytes();
    }
}

/// A free that is refused for its serial counts.
struct RefusedFreeCounted;

impl Rules for RefusedFreeCounted {
    fn step(&self, pool: &[u8], storage: &[u8], call: &Call) -> Outcome {
        let mut after = TRUE.step(pool, storage, call);
        if let (SLIP, Call::Free { slip }) = (after.code, call) {
            counted_refusal(&mut after, storage, *slip);
        }
        after
    }
}

/// An append that is refused for want of pieces, or for one slip named twice, counts for b.
struct RefusedAppendCounted;

impl Rules for RefusedAppendCounted {
    fn step(&self, pool: &[u8], storage: &[u8], call: &Call) -> Outcome {
        let mut after = TRUE.step(pool, storage, call);
        if let (PIECES | SAME, Call::Append { b, .. }) = (after.code, call) {
            counted_refusal(&mut after, storage, *b);
        }
        after
    }
}

/// The slip is answered without its serial.
struct AnswerWithoutSerial;

impl Rules for AnswerWithoutSerial {
    fn answer(&self, _: &Tables, slip: usize) -> u64 {
        slip as u64
    }
}

/// The slip is answered with the serial that it will have once it is vacated.
struct AnswerNextSerial;

impl Rules for AnswerNextSerial {
    fn answer(&self, t: &Tables, slip: usize) -> u64 {
        slip as u64 + 65_536 * TRUE.older(t.serials[slip])
    }
}

/// The serial is answered in the low half.
struct AnswerSerialLow;

impl Rules for AnswerSerialLow {
    fn answer(&self, t: &Tables, slip: usize) -> u64 {
        65_536 * slip as u64 + t.serials[slip]
    }
}

/// A spent slip is given like any other.
struct SpentGiven;

impl Rules for SpentGiven {
    fn is_spent(&self, _: &Tables, _: usize) -> bool {
        false
    }
}

/// A spent slip is given where no other is vacant.
struct SpentGivenLast;

impl Rules for SpentGivenLast {
    fn room(&self, t: &Tables) -> Room {
        let mut room = TRUE.room(t);
        room.slips
            .extend((0..t.slips.len()).filter(|i| t.is_spent(*i)));
        room
    }
}

/// A vacant slip is spent one serial too early.
struct SpentEarly;

impl Rules for SpentEarly {
    fn is_spent(&self, t: &Tables, slip: usize) -> bool {
        t.serials[slip] >= LAST - 1
    }
}

/// A held slip at the last serial is refused as if it were spent.
struct SpentHeldRefused;

impl Rules for SpentHeldRefused {
    fn named(&self, t: &Tables, name: Name) -> Result<Slip, u16> {
        refuse_if(name.serial as u64 == LAST, SLIP)?;
        TRUE.named(t, name)
    }
}

/// Open leaves the serials as they were.
struct OpenKeepsSerials;

impl Rules for OpenKeepsSerials {
    fn open(&self, pool: &[u8], storage: &[u8], buffers: u16, pieces: u16, slips: u16) -> Judged {
        let mut done = TRUE.open(pool, storage, buffers, pieces, slips)?;
        let old = Tables::parse(pool, storage);
        if let (Some(t), Some(old)) = (&mut done.tables, old) {
            for (serial, was) in t.serials.iter_mut().zip(old.serials) {
                *serial = was;
            }
        }
        Ok(done)
    }
}

/// Open writes version 1.
struct OpenFirstVersion;

impl Rules for OpenFirstVersion {
    fn step(&self, pool: &[u8], storage: &[u8], call: &Call) -> Outcome {
        let mut after = TRUE.step(pool, storage, call);
        if matches!(call, Call::Open { .. }) && after.code == DONE {
            after.pool[3] = 1;
        }
        after
    }
}

/// The audit asks that a vacant slip has serial 0.
struct AuditVacantSerial;

impl Rules for AuditVacantSerial {
    fn is_sound(&self, t: &Tables) -> bool {
        let fresh = |i: usize| t.slips[i] != Slip::Vacant || t.serials[i] == 0;
        TRUE.is_sound(t) && (0..t.slips.len()).all(fresh)
    }
}

/// The audit refuses a held slip at the last serial.
struct AuditHeldLast;

impl Rules for AuditHeldLast {
    fn is_sound(&self, t: &Tables) -> bool {
        let before_last = |i: usize| t.slips[i] == Slip::Vacant || t.serials[i] < LAST;
        TRUE.is_sound(t) && (0..t.slips.len()).all(before_last)
    }
}

/// Append judges one number twice before the serials, though behind the slips.
struct SameBeforeSerial;

impl Rules for SameBeforeSerial {
    fn append(&self, t: Tables, a: Name, b: Name) -> Judged {
        let both = t.state(a.number).is_some() && t.state(b.number).is_some();
        refuse_if(both && a.number == b.number, SAME)?;
        TRUE.append(t, a, b)
    }
}

/// Programs that forget to clean in one call.
macro_rules! forgetting {
    ($($wrong:ident: $call:ident,)*) => {
        $(
            /// What this call gives back keeps its old bytes.
            struct $wrong;

            impl Rules for $wrong {
                fn step(&self, pool: &[u8], storage: &[u8], call: &Call) -> Outcome {
                    match call {
                        Call::$call { .. } => NothingCleaned.step(pool, storage, call),
                        _ => TRUE.step(pool, storage, call),
                    }
                }
            }
        )*
    };
}

forgetting! {
    FreeForgets: Free,
    DropForgets: Drop,
    KeepForgets: Keep,
    PullupForgets: Pullup,
    PackForgets: Pack,
}

/// So many zeros, to be set in storage.
fn zeros(start: u64, length: u64) -> (u64, Vec<u8>) {
    (start, vec![0; length as usize])
}

/// Of a buffer given back only the bytes of the pieces that lay on it are zeroed.
struct CleansPieceOnly;

impl Rules for CleansPieceOnly {
    fn clean(&self, before: &Tables, done: &mut Done) {
        let Some(now) = &done.tables else { return };
        let given = TRUE.given_back(before, now);
        for d in (0..before.pieces.len()).filter(|d| before.is_used(*d)) {
            if given.contains(&before.pieces[d].buffer) {
                done.fills
                    .push(zeros(before.start(d), before.pieces[d].length));
            }
        }
    }
}

/// The last byte of a buffer given back stays.
struct CleansOneShort;

impl Rules for CleansOneShort {
    fn clean(&self, before: &Tables, done: &mut Done) {
        let Some(now) = &done.tables else { return };
        for b in TRUE.given_back(before, now) {
            done.fills.push(zeros(now.buffer_start(b), SIZE - 1));
        }
    }
}

/// Of several buffers given back the lowest alone is cleaned.
struct CleansLowestOnly;

impl Rules for CleansLowestOnly {
    fn given_back(&self, before: &Tables, now: &Tables) -> Vec<usize> {
        let mut given = TRUE.given_back(before, now);
        given.truncate(1);
        given
    }
}

/// A buffer is cleaned with the first piece that leaves it, though another still lies on it.
struct CleansHeld;

impl Rules for CleansHeld {
    fn given_back(&self, before: &Tables, now: &Tables) -> Vec<usize> {
        let fewer = |b: &usize| now.buffers[*b] < before.buffers[*b];
        (0..now.buffers.len()).filter(fewer).collect()
    }
}

/// The buffer behind the one given back is cleaned, of the last one the first.
struct CleansBehind;

impl Rules for CleansBehind {
    fn given_back(&self, before: &Tables, now: &Tables) -> Vec<usize> {
        let given = TRUE.given_back(before, now).into_iter();
        given.map(|b| (b + 1) % now.buffers.len()).collect()
    }
}

/// With a buffer given back every other free one is cleaned too.
struct CleansEveryFree;

impl Rules for CleansEveryFree {
    fn given_back(&self, before: &Tables, now: &Tables) -> Vec<usize> {
        match TRUE.given_back(before, now).is_empty() {
            true => Vec::new(),
            false => TRUE.room(now).buffers,
        }
    }
}

/// The bytes that a piece loses are zeroed, though its buffer stays in use.
struct CleansCutOff;

impl Rules for CleansCutOff {
    fn clean(&self, before: &Tables, done: &mut Done) {
        TRUE.clean(before, done);
        let Some(now) = &done.tables else { return };
        for (was, is) in before.pieces.iter().zip(&now.pieces) {
            let start = now.buffer_start(is.buffer);
            if is.count > 0 && was.count > 0 && is.buffer == was.buffer {
                let lost = is.offset.saturating_sub(was.offset);
                done.fills.push(zeros(start + was.offset, lost));
                let (end, ended) = (is.offset + is.length, was.offset + was.length);
                done.fills
                    .push(zeros(start + end, ended.saturating_sub(end)));
            }
        }
    }
}

/// Storage once the buffers that a call gives back are cleaned.
fn cleaned(before: &Tables, storage: &[u8], done: &Done) -> Vec<u8> {
    let mut storage = storage.to_vec();
    let now = done.tables.as_ref().unwrap_or(before);
    for b in TRUE.given_back(before, now) {
        storage[now.buffer_start(b) as usize..][..SIZE as usize].fill(0);
    }
    storage
}

/// Pullup cleans what it gives back before it copies.
struct PullupCleansFirst;

impl Rules for PullupCleansFirst {
    fn pull(&self, t: Tables, storage: &[u8], slip: u16, n: u64) -> Judged {
        let done = TRUE.pull(t.clone(), storage, slip, n)?;
        let storage = cleaned(&t, storage, &done);
        TRUE.pull(t, &storage, slip, n)
    }
}

/// Pack cleans what it gives back before it copies.
struct PackCleansFirst;

impl Rules for PackCleansFirst {
    fn pack(&self, t: Tables, storage: &[u8], slip: Name) -> Judged {
        let done = TRUE.pack(t.clone(), storage, slip)?;
        let storage = cleaned(&t, storage, &done);
        TRUE.pack(t, &storage, slip)
    }
}

/// Zeroes these buffers of an outcome.
fn zero_buffers(after: &mut Outcome, buffers: impl IntoIterator<Item = usize>) {
    for b in buffers {
        after.storage[SIZE as usize * b..][..SIZE as usize].fill(0);
    }
}

/// Append cleans the buffers of the pieces that it replaces.
struct AppendCleans;

impl Rules for AppendCleans {
    fn step(&self, pool: &[u8], storage: &[u8], call: &Call) -> Outcome {
        let mut after = TRUE.step(pool, storage, call);
        if let (Call::Append { a, .. }, DONE) = (call, after.code) {
            let t = Tables::parse(pool, storage).expect("sound");
            let chain = t.chain(t.slips[a.number as usize]);
            let replaced = t.places(&chain[TRUE.own(&t, &chain)..]);
            zero_buffers(&mut after, replaced.iter().map(|place| place.buffer));
        }
        after
    }
}

/// Refused for want of room, pullup and pack have cleaned the buffers that the chain alone holds.
struct RefusedCleans;

impl Rules for RefusedCleans {
    fn step(&self, pool: &[u8], storage: &[u8], call: &Call) -> Outcome {
        let mut after = TRUE.step(pool, storage, call);
        if let (PIECES | BUFFERS, Call::Pullup { slip, .. } | Call::Pack { slip }) =
            (after.code, call)
        {
            let t = Tables::parse(pool, storage).expect("sound");
            let mut now = t.clone();
            TRUE.refer(&mut now, Holder::Slip(slip.number as usize), None);
            zero_buffers(&mut after, TRUE.given_back(&t, &now));
        }
        after
    }
}

/// Open cleans the buffers that the old pool held.
struct OpenCleansHeld;

impl Rules for OpenCleansHeld {
    fn step(&self, pool: &[u8], storage: &[u8], call: &Call) -> Outcome {
        let mut after = TRUE.step(pool, storage, call);
        let old = Tables::parse(pool, storage);
        if let (Call::Open { .. }, DONE, Some(old)) = (call, after.code, old) {
            let held = (0..old.buffers.len()).filter(|b| old.buffers[*b] > 0);
            zero_buffers(&mut after, held);
        }
        after
    }
}

/// The audit asks that every free buffer is clean.
struct AuditAsksClean;

impl Rules for AuditAsksClean {
    fn judge(&self, pool: &[u8], storage: &[u8], call: &Call) -> Judged {
        let done = TRUE.judge(pool, storage, call)?;
        if matches!(call, Call::Open { .. } | Call::Gather { .. }) {
            return Ok(done);
        }
        let t = Tables::parse(pool, storage).expect("sound");
        let mut free = TRUE.room(&t).buffers.into_iter();
        let start = |b: usize| SIZE as usize * b;
        let dirty = free.any(|b| storage[start(b)..start(b + 1)].iter().any(|x| *x != 0));
        refuse_if(dirty, TORN)?;
        Ok(done)
    }
}
