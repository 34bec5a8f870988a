//! Workloads on lists of commands, by hand; on growth, and on edits at the front of long texts.
use crate::pieces::{pieces_of, sink, words_of};
use crate::text::Text;
use crate::Task;

#[derive(Clone, Copy)]
enum Command<'a> {
    Push(char),
    PushStr(&'a str),
    Insert(usize, char),
    InsertStr(usize, &'a str),
    Truncate(usize),
    Pop,
    Remove(usize),
    Clear,
    ReplaceBytes(&'a [u8]),
    Reserve(usize),
    ReserveExact(usize),
    ShrinkToFit,
}

#[derive(Clone, Copy)]
enum Reply {
    Done,
    Char(char),
    NoChar,
    BadPlace,
    NotUtf8,
    WrongLength,
}

fn command_of(record: &[u8]) -> Option<Command<'_>> {
    let place = usize::from(*record.get(1)?);
    let size = usize::from(*record.get(2)?);
    let bytes = record.get(3..3 + size)?;
    let text = std::str::from_utf8(bytes).ok()?;
    let first = text.chars().next().unwrap_or('x');
    Some(match record[0] {
        0 => Command::Push(first),
        1 => Command::PushStr(text),
        2 => Command::Insert(place, first),
        3 => Command::InsertStr(place, text),
        4 => Command::Truncate(place),
        5 => Command::Pop,
        6 => Command::Remove(place),
        7 => Command::Clear,
        8 => Command::ReplaceBytes(bytes),
        9 => Command::Reserve(place),
        10 => Command::ReserveExact(place),
        11 => Command::ShrinkToFit,
        _ => return None,
    })
}

/// Carries out a command; what would panic is answered instead.
#[inline]
fn reply_to<T: Text>(text: &mut T, command: Command) -> Reply {
    match command {
        Command::Push(ch) => text.push(ch),
        Command::PushStr(string) => text.push_str(string),
        Command::Insert(at, ch) if text.is_char_boundary(at) => text.insert(at, ch),
        Command::InsertStr(at, string) if text.is_char_boundary(at) => text.insert_str(at, string),
        Command::Truncate(len) if text.is_char_boundary(len) => text.truncate(len),
        Command::Insert(..) | Command::InsertStr(..) | Command::Truncate(_) => {
            return Reply::BadPlace
        }
        Command::Pop => return text.pop().map_or(Reply::NoChar, Reply::Char),
        Command::Remove(at) if text.is_char_boundary(at) && at < text.len() => {
            return Reply::Char(text.remove(at));
        }
        Command::Remove(_) => return Reply::BadPlace,
        Command::Clear => text.clear(),
        Command::ReplaceBytes(bytes) if bytes.len() != text.len() => return Reply::WrongLength,
        Command::ReplaceBytes(bytes) if std::str::from_utf8(bytes).is_err() => {
            return Reply::NotUtf8
        }
        Command::ReplaceBytes(bytes) => unsafe { text.as_bytes_mut() }.copy_from_slice(bytes),
        Command::Reserve(more) => text.reserve(more),
        Command::ReserveExact(more) => text.reserve_exact(more),
        Command::ShrinkToFit => text.shrink_to_fit(),
    }
    Reply::Done
}

#[inline(never)]
fn run<T: Text>(text: &mut T, commands: &[Command], replies: &mut [Reply]) {
    for (reply, command) in replies.iter_mut().zip(commands) {
        *reply = reply_to(text, *command);
    }
}

fn number_of(reply: Reply) -> u64 {
    match reply {
        Reply::Done => 1,
        Reply::Char(ch) => 100 + u64::from(ch),
        Reply::NoChar => 2,
        Reply::BadPlace => 3,
        Reply::NotUtf8 => 4,
        Reply::WrongLength => 5,
    }
}

#[inline(never)]
pub fn run_on<T: Text>(task: &Task) -> u64 {
    let commands: Vec<Command> = pieces_of(task).into_iter().filter_map(command_of).collect();
    let mut replies = vec![Reply::Done; commands.len()];
    let mut sum = 0u64;
    for round in 0..task.rounds {
        let mut text = T::empty();
        run(&mut text, &commands, &mut replies);
        sum = sum.wrapping_add(sink(&text, round));
    }
    let number = |sum: u64, reply: &Reply| sum.wrapping_mul(7).wrapping_add(number_of(*reply));
    sum.wrapping_add(replies.iter().fold(0, number))
}

#[inline(never)]
pub fn grow<T: Text>(task: &Task) -> u64 {
    let mut text = T::empty();
    for _ in 0..task.rounds {
        text.push('a');
    }
    (text.len() as u64).wrapping_add(sink(&text, 0))
}

#[inline(never)]
pub fn fronts<T: Text>(task: &Task) -> u64 {
    let mut sum = 0u64;
    for word in words_of(task) {
        let mut text = T::empty();
        text.push_str(word);
        for round in 0..task.rounds {
            text.insert(0, 'x');
            sum = sum.wrapping_add(sink(&text, round));
            if !text.is_empty() {
                sum = sum.wrapping_add(u64::from(text.remove(0)));
            }
        }
        sum = sum.wrapping_add(sink(&text, 0));
    }
    sum
}
