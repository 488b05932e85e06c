//! Requests and answers as bytes, as `c/server.c` has them.

use compare::{Answer, Buffer, Case, Guarded};

/// What lies between the buffers of a block besides their guards.
const GAP: u8 = 0x5A;

/// Every buffer of a block begins at a multiple of this, guards and all.
const ALIGNED: usize = 8;

/// The numbers of a request before its places and lengths, and all its bytes before its block: the numbers, and the
/// place and length of the record and the 44 buffers.
const NUMBERS: usize = 29;
const REQUEST: usize = 8 * (NUMBERS + 2 * 45);

/// The bytes of an answer before its block: 16 numbers of 4 bytes, and one of 8.
const ANSWER: usize = 4 * 16 + 8;

/// The session record between guards.
fn record(case: &Case) -> Guarded<i32> {
    let session = case.session;
    [session.kept, session.evaluations, session.blanks].map(|counter| counter as i32).to_vec().into()
}

/// The figures of a batch as the numbers of a request, each with its sign.
fn figures(part: &Answer) -> [usize; 9] {
    let Answer { number, place, blank, least, greatest, sum, first, second, third, .. } = *part;
    let [number, place, blank, first, second, third] = [number, place, blank, first, second, third].map(i64::from);
    [number, place, blank, least.into(), greatest.into(), sum, first, second, third].map(|number| number as usize)
}

/// The request for a case.
pub fn request(case: &Case) -> Vec<u8> {
    let mut block = Vec::new();
    let record = record(case);
    let mut lent = vec![record.send(&mut block), record.length()];
    for (_, buffer) in case.buffers() {
        block.resize(block.len().next_multiple_of(ALIGNED), GAP);
        lent.extend([buffer.send(&mut block), buffer.length()]);
    }
    let Case { call, n, m, e, pairs, asked, route, moves, windows, row, .. } = *case;
    let mut numbers = vec![call as usize, n, m, e, pairs, asked, route as usize, moves, windows, row];
    numbers.extend(case.parts.iter().flat_map(figures));
    numbers.push(block.len());
    let mut request = Vec::with_capacity(REQUEST + block.len());
    request.extend(numbers.iter().chain(&lent).flat_map(|&number| (number as u64).to_le_bytes()));
    request.extend(block);
    request
}

/// The bytes of the answer to a request.
pub fn answer_length(request: &[u8]) -> usize {
    request.len() - REQUEST + ANSWER
}

/// The answer; what the call left goes into the case.
///
/// # Panics
/// If the call wrote beside everything that it was lent.
pub fn take_answer(bytes: &[u8], case: &mut Case) -> Answer {
    let (answer, block) = bytes.split_at(ANSWER);
    let mut session = record(case);
    let mut rest = session.receive(block);
    assert!(session.intact(), "the call writes beside the record: {:?}", case.fields());
    let counters = [0, 1, 2].map(|counter| session[counter] as u32);
    [case.session.kept, case.session.evaluations, case.session.blanks] = counters;
    for (name, buffer) in case.buffers_mut() {
        let reached = block.len() - rest.len();
        let (gap, after) = rest.split_at(reached.next_multiple_of(ALIGNED) - reached);
        assert!(gap.iter().all(|&byte| byte == GAP), "the call writes before the guards of {name}");
        rest = buffer.receive(after);
    }
    let number = |at: usize| u32::from_le_bytes(answer[4 * at..][..4].try_into().expect("four bytes"));
    let [evaluations, n, m, e, length, rows, values, blank] = [2, 3, 4, 5, 6, 7, 8, 9].map(number);
    let [least, greatest] = [10, 11].map(|at| number(at) as i32);
    let [number, place, first, second, third, count] = [0, 1, 12, 13, 14, 15].map(number);
    let sum = i64::from_le_bytes(answer[4 * 16..].try_into().expect("eight bytes"));
    let refusal = Answer { number, place, ..Answer::default() };
    let counts = Answer { evaluations, n, m, e, length, rows, values, count, ..refusal };
    Answer { blank, least, greatest, first, second, third, sum, ..counts }
}

#[cfg(test)]
mod tests {
    use std::panic::catch_unwind;

    use compare::runs::{built, keep, model_a};
    use compare::{Second, Side};

    use super::*;

    /// A case, with little of its log, and the answer of a server that makes no call.
    fn untouched() -> (Case, Vec<u8>) {
        let (log_vars, log_values) = (vec![1, 2, 3].into(), vec![4, 5].into());
        let case = Case { log_vars, log_values, ..keep(&built(&Second, &model_a()), &[(1, 28801)]) };
        let mut answer = vec![0; ANSWER];
        answer.extend(&request(&case)[REQUEST..]);
        assert_eq!(answer.len(), answer_length(&request(&case)));
        (case, answer)
    }

    #[test]
    fn what_went_comes_back() {
        let (case, mut bytes) = untouched();
        for (at, byte) in bytes[..ANSWER].iter_mut().step_by(4).enumerate() {
            *byte = at as u8 + 1;
        }
        let mut left = case.clone();
        let answer = take_answer(&bytes, &mut left);
        let (n, m, e) = (4, 5, 6);
        let counts =
            Answer { number: 1, place: 2, evaluations: 3, n, m, e, length: 7, rows: 8, values: 9, count: 16, ..answer };
        let sum = 17 + (18 << 32);
        assert_eq!(
            answer,
            Answer { blank: 10, least: 11, greatest: 12, first: 13, second: 14, third: 15, sum, ..counts }
        );
        assert_eq!(left, case);
    }

    #[test]
    fn no_byte_changes_unseen() {
        let (case, bytes) = untouched();
        for at in ANSWER..bytes.len() {
            let mut bytes = bytes.clone();
            bytes[at] ^= 1;
            let mut left = case.clone();
            let seen = catch_unwind(move || {
                take_answer(&bytes, &mut left);
                left
            });
            assert!(seen.map_or(true, |left| left != case), "byte {at}");
        }
    }

    #[test]
    fn buffers_lie_where_the_request_says() {
        let case = Side::of(&Second, &model_a()).left;
        let request = request(&case);
        let number = |at: usize| u64::from_le_bytes(request[8 * at..][..8].try_into().expect("eight bytes")) as usize;
        assert_eq!(number(NUMBERS - 1), request.len() - REQUEST);
        for (which, (name, buffer)) in case.buffers().into_iter().enumerate() {
            let (place, length) = (number(NUMBERS + 2 * (which + 1)), number(NUMBERS + 1 + 2 * (which + 1)));
            assert_eq!((length, place % buffer.width()), (buffer.length(), 0), "{name}");
        }
        let stored = REQUEST + number(NUMBERS + 2 * 13);
        assert_eq!(request[stored..][..4], 25200i32.to_le_bytes());
    }
}
