//! The two header lines: the day's symbols and participants.

/// The greatest numbers of symbols and of participants.
const SYMBOLS_MOST: usize = 4_096;
const PARTICIPANTS_MOST: usize = 26;

/// The names of a day, each list in its order.
pub struct Names {
    /// Eight bytes each, padded with spaces.
    pub symbols: Vec<[u8; 8]>,
    pub participants: Vec<u8>,
}

/// Reads both lines, or says by number and name why they are refused.
pub fn read(symbols: &[u8], participants: &[u8]) -> Result<Names, &'static str> {
    let symbols = names(symbols, symbol).ok_or("9 BadHeader")?;
    let participants = names(participants, participant).ok_or("9 BadHeader")?;
    if symbols.is_empty() || participants.is_empty() {
        return Err("1 Empty");
    }
    if symbols.len() > SYMBOLS_MOST || participants.len() > PARTICIPANTS_MOST {
        return Err("2 TooMany");
    }
    if repeats(&symbols) || repeats(&participants) {
        return Err("3 Repeated");
    }
    Ok(Names {
        symbols,
        participants,
    })
}

fn names<T>(line: &[u8], name: impl Fn(&[u8]) -> Option<T>) -> Option<Vec<T>> {
    if line.is_empty() {
        return Some(Vec::new());
    }
    line.split(|byte| *byte == b' ').map(name).collect()
}

fn symbol(name: &[u8]) -> Option<[u8; 8]> {
    let mut padded = [b' '; 8];
    padded.get_mut(..name.len())?.copy_from_slice(name);
    is_symbol(&padded).then_some(padded)
}

fn participant(name: &[u8]) -> Option<u8> {
    match name {
        [letter] if letter.is_ascii_uppercase() => Some(*letter),
        _ => None,
    }
}

/// Whether the bytes are one to eight of `A` to `Z`, `0` to `9` and `.`, and then spaces.
pub fn is_symbol(bytes: &[u8; 8]) -> bool {
    let is_space = |byte: &u8| *byte == b' ';
    let end = bytes.iter().position(is_space).unwrap_or(8);
    let named = bytes[..end]
        .iter()
        .all(|byte| byte.is_ascii_uppercase() || byte.is_ascii_digit() || *byte == b'.');
    end > 0 && named && bytes[end..].iter().all(is_space)
}

fn repeats<T: Ord + Clone>(names: &[T]) -> bool {
    let mut sorted = names.to_vec();
    sorted.sort_unstable();
    sorted.windows(2).any(|pair| pair[0] == pair[1])
}
