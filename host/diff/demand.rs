//! Demand 3 on the calls of a run, seen from outside: by the answers, the guests' windows and the store. Every request that is accepted is
//! followed to its end. It must be served in one of any eight turns, must finish in time, and its registers, window and named blocks must
//! be those of the same request served alone, as long as nobody disturbed them. That a request finished is told from the answers alone: the
//! numbers reach its n, or a turn that served it answered fewer than it should have moved, which is a bad block (change request 2026-04).

use model::alone::{served_alone, Named};
use model::parts::linear;
use model::Registers;
use std::collections::BTreeMap;

/// "moves the next 16 blocks, or what remains if fewer".
const TURN_BLOCKS: u64 = 16;

struct Request {
    /// What served alone gives: registers, window and store afterwards, and the blocks that the request names.
    registers: Registers,
    window: Vec<u8>,
    store: Vec<u8>,
    named: Named,
    function: u8,
    /// Of 42h and 43h: where packet and buffer lie in the window.
    packet: u64,
    buffer: u64,
    moved: u64,
    /// Turns not refused since it was accepted, and since it was last served.
    turns: u64,
    unserved: u64,
    /// The conditions of the demand on this guest's window and on the store still hold.
    undisturbed: bool,
}

/// The address of a guest's placement, if it has one.
type Placement = Option<u64>;

#[derive(Default)]
pub struct Watch {
    table: Vec<u8>,
    /// The last placement of each guest that was not refused since the opening; `None` where that is not known.
    placements: [Option<Placement>; 8],
    waiting: [Option<Request>; 8],
    to_collect: [Option<Registers>; 8],
    /// Requests that finished, those of them whose memory could be compared, posts answered at once that were compared, and of these the
    /// 41h and 48h of guests with placement.
    pub finished: u64,
    pub compared: u64,
    pub at_once: u64,
    pub at_once_placed: u64,
    /// How requests finished: by function and AH. Of those at a bad block: how many moved nothing, how many had moved a whole part before,
    /// how many at their last block, and how many had the count word on top of their data.
    pub endings: BTreeMap<(u8, u8), u64>,
    pub stopped: [u64; 4],
}

impl Watch {
    /// A list begins.
    pub fn opened(&mut self, table: Vec<u8>) {
        self.forget();
        self.table = table;
        self.placements = [Some(None); 8];
    }

    /// Somebody else wrote the desk: nothing is known of its rows and placements any more.
    pub fn forget(&mut self) {
        self.placements = Default::default();
        self.waiting = Default::default();
        self.to_collect = Default::default();
    }

    pub fn window_disturbed(&mut self, guest: usize) {
        if let Some(request) = &mut self.waiting[guest] {
            request.undisturbed = false;
        }
    }

    pub fn all_disturbed(&mut self) {
        (0..8).for_each(|guest| self.window_disturbed(guest));
    }

    /// A placement that was not refused. It is no post, turn or withdrawal, and a waiting request's guest is refused it: nothing that
    /// is compared later is disturbed.
    pub fn placed(&mut self, guest: usize, address: u64) -> Result<(), String> {
        self.placements[guest] = Some(Some(address));
        if self.waiting[guest].is_some() {
            return Err(format!("guest {guest}: its request waits, but a placement was not refused"));
        }
        Ok(())
    }

    /// A post that waits wrote nothing, so window and store are as it found them. No function that waits looks at the placement.
    pub fn accepted(&mut self, guest: usize, posted: Registers, window: &[u8], store: &[u8]) -> Result<(), String> {
        let (packet, buffer) = packet_and_buffer(&posted, window);
        let (mut window, mut store) = (window.to_vec(), store.to_vec());
        let placement = self.placements[guest].flatten();
        let Some((registers, Some(named))) = served_alone(&self.table, placement, posted, &mut window, &mut store) else {
            return Err(format!("guest {guest}: the row waits, but served alone answers at once"));
        };
        let fresh = Request {
            registers,
            window,
            store,
            named,
            function: posted.ah(),
            packet,
            buffer,
            moved: 0,
            turns: 0,
            unserved: 0,
            undisturbed: true,
        };
        self.waiting[guest] = Some(fresh);
        Ok(())
    }

    /// A post answered at once is served alone too, fed the placement at the post.
    pub fn answered(
        &mut self,
        guest: usize,
        posted: Registers,
        mut window: Vec<u8>,
        store: &mut [u8],
        got: Registers,
        left: &[u8],
    ) -> Result<(), String> {
        let Some(placement) = self.placements[guest] else { return Ok(()) };
        self.at_once += 1;
        self.at_once_placed += u64::from(placement.is_some() && matches!(posted.ah(), 0x41 | 0x48));
        match served_alone(&self.table, placement, posted, &mut window, store) {
            Some((registers, None)) if registers == got && window == left => Ok(()),
            other => Err(format!("answered at once, but not as served alone: {:?}", other.map(|o| o.0))),
        }
    }

    /// A turn that was not refused: whom it served and how many blocks it moved, or none.
    pub fn turned(&mut self, served: Option<(u64, u64)>, arena: &[u8], store: &[u8]) -> Result<(), String> {
        self.other_writers(served);
        for guest in 0..8 {
            let Some(request) = &mut self.waiting[guest] else { continue };
            request.turns += 1;
            request.unserved += 1;
            let mut stopped = false;
            if let Some((_, moved)) = served.filter(|(whom, _)| *whom == guest as u64) {
                request.unserved = 0;
                stopped = moved < TURN_BLOCKS.min(request.named.count - request.moved);
                request.moved += moved;
            }
            let finished = stopped || request.moved == request.named.count;
            let bound = 8 * request.named.count.div_ceil(TURN_BLOCKS);
            if request.unserved >= 8 {
                return Err(format!("guest {guest} was not served in eight turns"));
            }
            if !finished && request.turns >= bound || request.turns > bound {
                return Err(format!("guest {guest} still waits after {} turns", request.turns));
            }
            if request.moved > request.named.count {
                return Err(format!("guest {guest}: {} blocks were moved of {}", request.moved, request.named.count));
            }
            if finished {
                self.finish(guest, arena, store)?;
            }
        }
        Ok(())
    }

    /// "Another guest writes one when a turn serving that guest moves data to it while the request waits."
    fn other_writers(&mut self, served: Option<(u64, u64)>) {
        let Some((whom, moved)) = served else { return };
        let Some(writer) = self.waiting[whom as usize].as_ref() else {
            // a request of which nothing is known
            return self.all_disturbed();
        };
        let (written, from) = (writer.named.written, writer.named.first + writer.moved);
        for guest in (0..8).filter(|guest| *guest as u64 != whom && written) {
            if let Some(request) = &mut self.waiting[guest] {
                let named = request.named.first..request.named.first + request.named.count;
                request.undisturbed &= from + moved <= named.start || named.end <= from;
            }
        }
    }

    fn finish(&mut self, guest: usize, arena: &[u8], store: &[u8]) -> Result<(), String> {
        let Some(request) = self.waiting[guest].take() else { return Ok(()) };
        self.finished += 1;
        self.to_collect[guest] = Some(request.registers);
        self.count_ending(&request);
        if request.moved != request.named.good {
            return Err(format!("guest {guest}: the turns answered {} blocks of {} good ones", request.moved, request.named.good));
        }
        if !request.undisturbed {
            return Ok(());
        }
        self.compared += 1;
        let length = arena.len() / 8;
        let named = 512 * request.named.first as usize..512 * (request.named.first + request.named.count) as usize;
        if arena[guest * length..(guest + 1) * length] != request.window[..] {
            return Err(format!("guest {guest}: its window is not that of the request served alone"));
        }
        if store[named.clone()] != request.store[named] {
            return Err(format!("guest {guest}: the named blocks are not those of the request served alone"));
        }
        Ok(())
    }

    fn count_ending(&mut self, request: &Request) {
        *self.endings.entry((request.function, request.registers.ah())).or_default() += 1;
        if request.moved == request.named.count {
            return;
        }
        let by_packet = request.function >= 0x42;
        let (at, moved) = (request.packet, request.buffer..request.buffer + 512 * request.moved);
        let cases = [
            request.moved == 0,
            request.moved >= TURN_BLOCKS,
            request.moved + 1 == request.named.count,
            by_packet && !request.named.written && moved.contains(&(at + 2)) && moved.contains(&(at + 3)),
        ];
        for (times, met) in self.stopped.iter_mut().zip(cases) {
            *times += u64::from(met);
        }
    }

    pub fn withdrawn(&mut self, guest: usize) {
        self.waiting[guest] = None;
    }

    pub fn collected(&mut self, guest: usize, got: Registers) -> Result<(), String> {
        match self.to_collect[guest].take() {
            Some(registers) if registers != got => Err(format!("guest {guest} collected {got:x?}, served alone gives {registers:x?}")),
            _ => Ok(()),
        }
    }
}

/// Where the packet of a 42h or 43h lies, and the buffer that it names; 0 for other functions.
fn packet_and_buffer(posted: &Registers, window: &[u8]) -> (u64, u64) {
    if posted.ah() < 0x42 {
        return (0, 0);
    }
    let packet = linear(posted.ds, posted.si);
    let word = |at: usize| u16::from_le_bytes(window[packet as usize + at..][..2].try_into().unwrap());
    (packet, linear(word(6), word(4)))
}
