//! The asking side and the second node on one line: while the learned table is the node's, each answer is read as what the board holds or as
//! the named error.
use crate::board::Board;
use crate::gateway::{NODE, ROOM};
use suite::random::Random;
use suite::second::Ran;
use suite::second_asking::{ask, hear, learn, Heard, Learned, Masking, Request};

/// Asks, and reads the reply with the table that is known; gives what was heard and the reply's command.
fn talk(
    board: &mut Board,
    learned: &Learned,
    (request, data): (Request, &[u8]),
    busy: u64,
    ran: Ran,
) -> (Heard, u8) {
    let packet = ask(NODE, request, data, ROOM).expect("written");
    let reply = board.answer(busy, &packet, ran);
    let heard = hear(learned, NODE, request, &reply);
    (heard.expect("fits"), reply[1])
}

fn learn_all(board: &mut Board) -> Learned {
    let mut learned = Learned::default();
    let mut requests = vec![
        Request::ListVariables,
        Request::ListGroups,
        Request::ListCurves,
        Request::ListFunctions,
    ];
    requests.extend((0..board.group_count()).map(Request::ShowGroup));
    for request in requests {
        let (heard, _) = talk(board, &learned, (request, &[]), u64::MAX, Ran::Well);
        learn(&mut learned, request, &[], &heard);
    }
    learned
}

/// A request about things that mostly exist, with data of a length that is mostly right.
fn drawn(random: &mut Random, board: &Board) -> (Request, Vec<u8>) {
    if random.once_in(10) {
        return (Request::MakeGroup, drawn_ids(random, board));
    }
    let (request, length) = if random.once_in(2) {
        drawn_of_values(random, board)
    } else {
        drawn_of_others(random, board)
    };
    let length = length + usize::from(random.once_in(20));
    (request, random.bytes(length))
}

/// Below the count, and now and then the count itself.
fn mostly_below(random: &mut Random, count: usize) -> usize {
    let past = usize::from(random.once_in(9));
    random.below(count + past)
}

/// In any order, now and then repeated or past the last variable.
fn drawn_ids(random: &mut Random, board: &Board) -> Vec<u8> {
    let id = |random: &mut Random| mostly_below(random, board.variables.len()) as u8;
    (0..random.below(5)).map(|_| id(random)).collect()
}

fn drawn_of_values(random: &mut Random, board: &Board) -> (Request, usize) {
    let variable = mostly_below(random, board.variables.len());
    let read = random.below(board.variables.len());
    let group = mostly_below(random, board.group_count());
    let masking = random.choose(&[Masking::Xor, Masking::Clear, Masking::Or]);
    let one = board.variables.get(variable).map(|v| usize::from(v.size));
    let one = one.unwrap_or(1);
    let all = if group < board.group_count() {
        board.size(&board.members(group))
    } else {
        1
    };
    let written = variable;
    match random.below(8) {
        0 => (Request::ReadVariable(variable), 0),
        1 => (Request::ReadGroup(group), 0),
        2 => (Request::ShowGroup(group), 0),
        3 => (Request::WriteVariable(variable), one),
        4 => (Request::WriteGroup(group), all),
        5 => (Request::MaskVariable(variable, masking), one),
        6 => (Request::MaskGroup(group, masking), all),
        _ => (Request::WriteRead { written, read }, one),
    }
}

fn drawn_of_others(random: &mut Random, board: &Board) -> (Request, usize) {
    let curve = random.below(board.curves.len() / 3 + 1);
    let block = random.below(4);
    let function = random.below(board.functions.len() / 2 + 1);
    let input = board.functions.get(2 * function).copied().unwrap_or(0);
    match random.below(11) {
        0 => (Request::Version, 0),
        1 => (Request::ListVariables, 0),
        2 => (Request::ListGroups, 0),
        3 => (Request::ListCurves, 0),
        4 => (Request::ListFunctions, 0),
        5 => (Request::ReadSum(curve), 0),
        6 => (Request::RenewSum(curve), 0),
        7 => (Request::ReadBlock { curve, block }, 0),
        8 => (Request::WriteBlock { curve, block }, random.within(1, 9)),
        9 if random.once_in(5) => (Request::RemoveGroups, 0),
        _ => (Request::RunFunction(function), usize::from(input)),
    }
}

#[test]
fn a_node_is_learned_from_its_lists_whatever_is_busy() {
    let mut random = Random::new(404);
    for _ in 0..300 {
        let mut board = Board::drawn(&mut random);
        board.groups.count = random.below(6) as u64;
        let all = u64::MAX >> (64 - board.variables.len());
        for set in board.groups.sets.iter_mut() {
            *set = (random.number() & all).max(1);
        }
        assert_eq!(learn_all(&mut board), board.table());
    }
}

#[test]
fn each_answer_is_read_as_what_the_board_holds_or_as_the_named_error() {
    let mut random = Random::new(405);
    let mut heard_of = [0; 9];
    for _ in 0..150 {
        let mut board = Board::drawn(&mut random);
        let mut learned = learn_all(&mut board);
        for _ in 0..400 {
            let (request, data) = drawn(&mut random, &board);
            let marks = random.number() & random.number();
            let busy = if random.once_in(4) { marks } else { 0 };
            let ran = random.choose(&[Ran::Well, Ran::Failed(0xBB)]);
            let asked = (request, &data[..]);
            let (heard, command) = talk(&mut board, &learned, asked, busy, ran);
            if (0xE1..=0xE8).contains(&command) {
                assert_eq!(heard, Heard::Error(command));
                heard_of[usize::from(command - 0xE0)] += 1;
            } else {
                assert_eq!(heard, board.held(request, ran));
                heard_of[0] += 1;
            }
            learn(&mut learned, request, &data, &heard);
            if request == Request::ListVariables {
                // It forgets the made groups, so they are to be shown anew.
                learned = learn_all(&mut board);
            }
            assert_eq!(learned, board.table(), "{:?}", request);
        }
    }
    let [fine, e1, e2, others @ ..] = heard_of;
    assert_eq!((e1, e2), (0, 0), "what is written is a command of 01's");
    assert!(fine > 10_000 && others.iter().all(|&times| times > 100));
}

/// The bytes that the board holds where a request wrote.
fn written(board: &Board, request: Request) -> Option<Vec<u8>> {
    let values = match request {
        Request::WriteVariable(number) => board.values(&[number]),
        Request::WriteRead { written, .. } => board.values(&[written]),
        Request::WriteGroup(group) => board.values(&board.members(group)),
        Request::WriteBlock { curve, block } => return Some(board.block(curve, block)),
        _ => return None,
    };
    Some(values.into_iter().flat_map(|(_, bytes)| bytes).collect())
}

#[test]
fn the_board_then_holds_what_was_written() {
    let mut random = Random::new(406);
    let (mut wrote, mut made) = (0, 0);
    for _ in 0..100 {
        let mut board = Board::drawn(&mut random);
        for _ in 0..200 {
            let (request, data) = drawn(&mut random, &board);
            let learned = board.table();
            let (heard, _) = talk(&mut board, &learned, (request, &data), 0, Ran::Well);
            if matches!(heard, Heard::Error(_)) {
                continue;
            }
            if let Some(bytes) = written(&board, request) {
                assert_eq!(bytes, data);
                wrote += 1;
            }
            if request == Request::MakeGroup {
                let mut ids: Vec<_> = data.iter().copied().map(usize::from).collect();
                ids.sort_unstable();
                assert_eq!(board.members(board.group_count() - 1), ids);
                made += 1;
            }
        }
    }
    assert!(wrote > 1_000 && made > 100, "{} {}", wrote, made);
}
