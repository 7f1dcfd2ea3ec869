//! An independent reading of docs/LAYOUT.md: which of document 01's lines about sound tables are broken, and the values
//! in tables that break none.

use second_model::{Clock, Mode, Object, State, Wait};

const CELLS: usize = 4321;
const OBJECT_PLACES: usize = 512;
const OBJECT_CELLS: usize = 4;
const FIRST_WAIT: usize = 2049;
const WAIT_PLACES: usize = 32;
const WAIT_CELLS: usize = 71;
pub const LIST_AT: usize = 7;
const LONGEST_LIST: usize = 64;

/// How each line of "Sound tables", with the changes 1/13 and 4/13, can be broken, clause by clause.
pub const LINES: [&str; 18] = [
    "another length",
    "a cell out of its range",
    "an empty place not zeros",
    "an unused list cell not zero",
    "count above the maximum",
    "a maximum of 0",
    "owner 0 with a count, or no count with an owner",
    "abandoned with an owner",
    "an event's flag neither 0 nor 1",
    "a wait of owner 0",
    "a ticket twice",
    "a ticket not below the next",
    "a list of over 64, or of none for all",
    "a listed handle without object",
    "an alert that is no event",
    "a handle twice in a wait for all",
    "a listed alert in a wait for all",
    "next ticket 0",
];

/// The lines that the tables break, each once.
pub fn broken(tables: &[u64]) -> Vec<&'static str> {
    if tables.len() != CELLS {
        return vec!["another length"];
    }
    let mut lines = Vec::new();
    note(&mut lines, "next ticket 0", tables[0] == 0);
    for place in 0..OBJECT_PLACES {
        judge_object(object_cells(tables, place), &mut lines);
    }
    let mut tickets = Vec::new();
    for place in 0..WAIT_PLACES {
        let cells = wait_cells(tables, place);
        if cells[0] == 0 {
            note(&mut lines, "an empty place not zeros", any_set(cells));
            continue;
        }
        note(&mut lines, "a ticket twice", tickets.contains(&cells[0]));
        note(&mut lines, "a ticket not below the next", cells[0] >= tables[0]);
        tickets.push(cells[0]);
        judge_wait(tables, cells, &mut lines);
    }
    lines.sort();
    lines.dedup();
    lines
}

fn note(lines: &mut Vec<&'static str>, line: &'static str, broken: bool) {
    if broken {
        lines.push(line);
    }
}

fn any_set(cells: &[u64]) -> bool {
    cells.iter().any(|&cell| cell != 0)
}

fn wide(cell: u64) -> bool {
    cell > u32::MAX.into()
}

fn judge_object(cells: &[u64], lines: &mut Vec<&'static str>) {
    let (count, owner, attribute) = (cells[1], cells[2], cells[3]);
    match cells[0] {
        0 => note(lines, "an empty place not zeros", any_set(cells)),
        1 => {
            note(lines, "a cell out of its range", owner != 0 || wide(attribute));
            note(lines, "count above the maximum", count > attribute);
            note(lines, "a maximum of 0", attribute == 0);
        }
        2 => {
            note(lines, "a cell out of its range", wide(count) || wide(owner) || attribute > 1);
            note(lines, "owner 0 with a count, or no count with an owner", (owner == 0) != (count == 0));
            note(lines, "abandoned with an owner", attribute == 1 && owner != 0);
        }
        3 => {
            note(lines, "a cell out of its range", owner != 0);
            note(lines, "an event's flag neither 0 nor 1", count > 1 || attribute > 1);
        }
        _ => lines.push("a cell out of its range"),
    }
}

/// The lines about a queued wait, but for its ticket.
fn judge_wait(tables: &[u64], cells: &[u64], lines: &mut Vec<&'static str>) {
    let (mode, owner, clock, n, alert) = (cells[1], cells[2], cells[3], cells[5], cells[6]);
    let (list, unused) = cells[LIST_AT..].split_at(n.min(LONGEST_LIST as u64) as usize);
    note(lines, "a cell out of its range", mode > 1 || wide(owner) || clock > 1);
    note(lines, "a wait of owner 0", owner == 0);
    note(lines, "a list of over 64, or of none for all", n > LONGEST_LIST as u64 || (n == 0 && mode == 1));
    note(lines, "an unused list cell not zero", any_set(unused));
    note(lines, "a listed handle without object", list.iter().any(|&handle| kind_of(tables, handle) == 0));
    note(lines, "an alert that is no event", alert != 0 && kind_of(tables, alert) != 3);
    if mode == 1 {
        let twice = (0..list.len()).any(|i| list[..i].contains(&list[i]));
        note(lines, "a handle twice in a wait for all", twice);
        note(lines, "a listed alert in a wait for all", alert != 0 && list.contains(&alert));
    }
}

/// The kind in the handle's place; 0 if there is no object.
fn kind_of(tables: &[u64], handle: u64) -> u64 {
    match handle as usize {
        place @ 1..=OBJECT_PLACES => object_cells(tables, place - 1)[0],
        _ => 0,
    }
}

/// The values in the tables; none if they are damaged.
pub fn read(tables: &[u64]) -> Option<State> {
    broken(tables).is_empty().then(|| values(tables))
}

/// The values in tables that break no line.
pub fn values(tables: &[u64]) -> State {
    let mut state = State::new();
    state.next = tables[0];
    for place in 0..OBJECT_PLACES {
        state.objects[place] = read_object(object_cells(tables, place));
    }
    for place in 0..WAIT_PLACES {
        state.waits[place] = read_wait(wait_cells(tables, place));
    }
    state
}

/// Where an object place begins: kind, count, owner, attribute.
pub fn object_at(place: usize) -> usize {
    1 + OBJECT_CELLS * place
}

/// Where a wait place begins: ticket, mode, owner, clock, timeout, n, alert, list.
pub fn wait_at(place: usize) -> usize {
    FIRST_WAIT + WAIT_CELLS * place
}

/// The place that a cell behind the next ticket belongs to.
pub enum Place {
    Object(usize),
    Wait(usize),
}

pub fn place_of(cell: usize) -> Option<Place> {
    match cell {
        0 => None,
        1..FIRST_WAIT => Some(Place::Object((cell - 1) / OBJECT_CELLS)),
        _ => Some(Place::Wait((cell - FIRST_WAIT) / WAIT_CELLS)),
    }
}

fn object_cells(tables: &[u64], place: usize) -> &[u64] {
    &tables[object_at(place)..][..OBJECT_CELLS]
}

fn wait_cells(tables: &[u64], place: usize) -> &[u64] {
    &tables[wait_at(place)..][..WAIT_CELLS]
}

fn number(cell: u64) -> u32 {
    u32::try_from(cell).expect("a cell in its range")
}

fn read_object(cells: &[u64]) -> Option<Object> {
    let (count, owner, attribute) = (cells[1], cells[2], cells[3]);
    match cells[0] {
        1 => Some(Object::Semaphore { count: number(count), max: number(attribute) }),
        2 => Some(Object::Mutex { owner: number(owner), count: number(count), abandoned: attribute == 1 }),
        3 => Some(Object::Event { signaled: count == 1, manual: attribute == 1 }),
        _ => None,
    }
}

fn read_wait(cells: &[u64]) -> Option<Wait> {
    let list = &cells[LIST_AT..LIST_AT + cells[5] as usize];
    (cells[0] != 0).then(|| Wait {
        ticket: cells[0],
        mode: if cells[1] == 1 { Mode::All } else { Mode::Any },
        owner: number(cells[2]),
        clock: if cells[3] == 1 { Clock::RealTime } else { Clock::Monotonic },
        timeout: cells[4],
        alert: number(cells[6]),
        list: list.iter().map(|&cell| number(cell)).collect(),
    })
}

/// The first cell that doesn't hold the state's value.
pub fn differs(tables: &[u64], state: &State) -> Option<String> {
    differs_with(tables, state, state.waits.iter().map(Option::as_ref))
}

/// The same of the state once its waits fill the lowest places by ticket, as a text shows it (3/13).
pub fn differs_placed(tables: &[u64], state: &State) -> Option<String> {
    let waits = state.by_ticket().map(Some).chain(std::iter::repeat(None));
    differs_with(tables, state, waits.take(WAIT_PLACES))
}

fn differs_with<'a>(tables: &[u64], state: &State, waits: impl Iterator<Item = Option<&'a Wait>>) -> Option<String> {
    if tables[0] != state.next {
        return Some(format!("next ticket: tables {}, model {}", tables[0], state.next));
    }
    for (place, object) in state.objects.iter().enumerate() {
        let (held, due) = (object_cells(tables, place), object_values(object));
        if held != due {
            return Some(format!("object place {place}: tables {held:?}, model {due:?}"));
        }
    }
    for (place, wait) in waits.enumerate() {
        let held = wait_cells(tables, place);
        if !wait_matches(held, wait) {
            return Some(format!("wait place {place}: tables {held:?}, model {wait:?}"));
        }
    }
    None
}

fn object_values(object: &Option<Object>) -> [u64; OBJECT_CELLS] {
    match *object {
        None => [0; OBJECT_CELLS],
        Some(Object::Semaphore { count, max }) => [1, count.into(), 0, max.into()],
        Some(Object::Mutex { owner, count, abandoned }) => [2, count.into(), owner.into(), abandoned.into()],
        Some(Object::Event { signaled, manual }) => [3, signaled.into(), 0, manual.into()],
    }
}

fn wait_matches(cells: &[u64], wait: Option<&Wait>) -> bool {
    let Some(wait) = wait else {
        return cells.iter().all(|&cell| cell == 0);
    };
    let n = wait.list.len();
    let head = [
        wait.ticket,
        u64::from(wait.mode == Mode::All),
        wait.owner.into(),
        u64::from(wait.clock == Clock::RealTime),
        wait.timeout,
        n as u64,
        wait.alert.into(),
    ];
    cells[..LIST_AT] == head
        && (0..n).all(|i| cells[LIST_AT + i] == u64::from(wait.list[i]))
        && cells[LIST_AT + n..].iter().all(|&cell| cell == 0)
}
