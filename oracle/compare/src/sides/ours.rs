//! Our side: the exported functions, by way of the crate that a Rust controller links.
use super::guarded::Guarded;
use super::judge::Beside;
use crate::ran::{End, Ran, Read};
use crate::transfer::{Kind, Transfer, DEFAULT_BUDGET, FILL};
use coe_desk::{reads, Answer, Desk, ListKind, Order, Payload, Refusal, Seat, SubIndex, FRAME_LENGTH};
use ethercrab::play::Number;

pub const LIST_KINDS: [ListKind; 5] = [
    ListKind::All,
    ListKind::RxPdoMappable,
    ListKind::TxPdoMappable,
    ListKind::StoredForDeviceReplacement,
    ListKind::StartupParameters,
];

/// Plays the transfer at a desk: enter, then send and receive as they are due, and leave when the replies are used up or a call is
/// refused. An error is a fault of our own: bytes touched that were not lent, or two functions that disagree.
pub fn run(transfer: &Transfer) -> Result<Ran, String> {
    let mut desk = desk_at(transfer.counter)?;
    let seat = Seat::ALL[usize::from(transfer.index) % Seat::ALL.len()];
    let mut ran = match enter(&mut desk, seat, transfer)? {
        Err(refusal) => Ran { stored: vec![FILL; transfer.room], ..Ran::ending(End::Refused(refusal.number())) },
        Ok(()) => exchange(&mut desk, seat, transfer, None)?,
    };
    ran.counter = next_counter(&mut desk, seat)?;
    Ok(ran)
}

/// Plays two transfers that have both entered: the second waits, and tries its calls, until the first has ended.
pub fn run_pair(first: &Transfer, second: &Transfer) -> Result<(Ran, Ran), String> {
    let mut desk = desk_at(first.counter)?;
    let [head, waiting] = [Seat::ALL[3], Seat::ALL[6]];
    for (seat, transfer) in [(head, first), (waiting, second)] {
        enter(&mut desk, seat, transfer)?.map_err(|refusal| format!("an entry was refused: {refusal}"))?;
    }
    let mut first = exchange(&mut desk, head, first, Some(waiting))?;
    let mut second = exchange(&mut desk, waiting, second, None)?;
    first.counter = second.sent[0][5] >> 4;
    second.counter = next_counter(&mut desk, waiting)?;
    Ok((first, second))
}

fn next_counter(desk: &mut Desk, seat: Seat) -> Result<u8, String> {
    desk.enter(seat, Order::Quantities).map_err(|_| "the seat is not free after the transfer")?;
    Ok(send(desk, seat)?[5] >> 4)
}

/// By the call that names no budget, where the transfer's is the default.
fn enter(desk: &mut Desk, seat: Seat, transfer: &Transfer) -> Result<Result<(), Refusal>, String> {
    let order = order(transfer)?;
    Ok(match transfer.budget {
        DEFAULT_BUDGET => desk.enter(seat, order),
        budget => desk.enter_within(seat, order, budget),
    })
}

fn order(transfer: &Transfer) -> Result<Order<'_>, String> {
    let (index, sub_index) = (transfer.index, transfer.sub.map_or(SubIndex::Complete, SubIndex::Index));
    Ok(match transfer.kind {
        Kind::Read | Kind::ReadNumber(_) => Order::Upload { index, sub_index },
        Kind::Write => Order::Download { index, sub_index, data: &transfer.data },
        Kind::List => Order::ObjectList(list_kind(index).ok_or("a list kind is 1 to 5")?),
        Kind::Quantities => Order::Quantities,
    })
}

pub fn list_kind(number: u16) -> Option<ListKind> {
    LIST_KINDS.iter().copied().find(|&kind| kind as u16 == number)
}

/// A fresh desk, at which so many requests were sent that the next has this counter.
fn desk_at(counter: u8) -> Result<Desk, String> {
    let mut desk = Desk::new();
    for _ in 1..counter {
        let earlier = desk.enter(Seat::ALL[0], Order::Quantities);
        send(&mut desk, Seat::ALL[0])?;
        earlier.and_then(|()| desk.leave(Seat::ALL[0])).map_err(|refusal| refusal.to_string())?;
    }
    Ok(desk)
}

fn send(desk: &mut Desk, seat: Seat) -> Result<Vec<u8>, String> {
    let mut frame = Guarded::new(FRAME_LENGTH);
    desk.send(seat, frame.lent()).map_err(|refusal| format!("a due request was refused: {refusal}"))?;
    Ok(frame.inside("frame buffer")?.to_vec())
}

/// The head's transfer, to its end.
fn exchange(desk: &mut Desk, seat: Seat, transfer: &Transfer, waiting: Option<Seat>) -> Result<Ran, String> {
    let mut data = Guarded::new(transfer.room);
    let mut ran = Ran::ending(End::Left);
    ran.end = answers(desk, seat, transfer, waiting, &mut data, &mut ran)?;
    ran.stored = data.inside("data buffer")?.to_vec();
    if let End::Done { length } = ran.end {
        ran.read = read(transfer.kind, Payload::new(&ran.stored, length));
    }
    Ok(ran)
}

fn answers(
    desk: &mut Desk,
    seat: Seat,
    transfer: &Transfer,
    waiting: Option<Seat>,
    data: &mut Guarded,
    ran: &mut Ran,
) -> Result<End, String> {
    let mut beside = Beside::new(transfer);
    let mut request_due = true;
    for reply in &transfer.replies {
        if request_due {
            ran.sent.push(send(desk, seat)?);
        }
        waiting.map_or(Ok(()), |waiting| try_out_of_turn(desk, waiting))?;
        let answer = desk.receive(seat, reply, data.lent());
        beside.agrees(reply, answer, data.inside("data buffer")?)?;
        ran.judged += usize::from(answer.map_or_else(Refusal::is_over, |_| true));
        match answer {
            Ok(Answer::RequestDue) => request_due = true,
            Ok(Answer::ReplyDue) => request_due = false,
            Ok(Answer::Done { length }) => return Ok(End::Done { length }),
            Err(refusal) if refusal.is_over() => return Ok(over(refusal)),
            Err(refusal) => return leave(desk, seat, End::Refused(refusal.number())),
        }
    }
    if request_due {
        ran.sent.push(send(desk, seat)?);
    }
    leave(desk, seat, End::Left)
}

/// Who waits is answered 13, and nothing of what it lent is touched.
fn try_out_of_turn(desk: &mut Desk, seat: Seat) -> Result<(), String> {
    let mut lent = Guarded::new(FRAME_LENGTH);
    let calls = [desk.send(seat, lent.lent()).err(), desk.receive(seat, &[], lent.lent()).err()];
    if calls != [Some(Refusal::NotAtHead); 2] || lent.inside("buffers of who waits")?.iter().any(|&byte| byte != FILL) {
        return Err(format!("who waits was answered {calls:?}, or its buffer was written to"));
    }
    Ok(())
}

fn leave(desk: &mut Desk, seat: Seat, end: End) -> Result<End, String> {
    desk.leave(seat).map(|()| end).map_err(|refusal| format!("leave was refused: {refusal}"))
}

fn over(refusal: Refusal) -> End {
    match refusal {
        Refusal::Emergency { code, register, data } => End::Emergency { code, register, data },
        Refusal::Aborted { code, index, sub_index } => End::Over { number: 0x22, code: code.into(), index, sub: sub_index },
        other => End::over(other.number()),
    }
}

fn read(kind: Kind, payload: Payload<'_>) -> Read {
    match kind {
        Kind::Read | Kind::Write => return Read::Nothing,
        Kind::ReadNumber(number) => read_number(number, payload.bytes()).map(|number| vec![number]),
        Kind::List => read_list(payload.bytes()),
        Kind::Quantities => read_quantities(payload.bytes()),
    }
    .map_or(Read::Refused, Read::Numbers)
}

pub fn read_number(number: Number, payload: &[u8]) -> Option<i64> {
    match number {
        Number::U8 => reads::u8(payload).map(i64::from),
        Number::U16 => reads::u16(payload).map(i64::from),
        Number::U32 => reads::u32(payload).map(i64::from),
        Number::I8 => reads::i8(payload).map(i64::from),
        Number::I16 => reads::i16(payload).map(i64::from),
        Number::I32 => reads::i32(payload).map(i64::from),
    }
    .ok()
}

pub fn read_list(payload: &[u8]) -> Option<Vec<i64>> {
    reads::object_list(payload).ok().map(|list| list.map(i64::from).collect())
}

pub fn read_quantities(payload: &[u8]) -> Option<Vec<i64>> {
    let counts = reads::quantities(payload).ok()?;
    let numbers = [
        counts.all,
        counts.rx_pdo_mappable,
        counts.tx_pdo_mappable,
        counts.stored_for_device_replacement,
        counts.startup_parameters,
    ];
    Some(numbers.iter().copied().map(i64::from).collect())
}
