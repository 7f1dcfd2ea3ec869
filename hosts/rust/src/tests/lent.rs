//! Memory that is lent, equality, what Debug prints, and the refusals as errors.

use super::empty;
use crate::{CELLS, Handle, Owner, Refusal, SNAPSHOT_BYTES, Tables};
use core::error::Error;
use std::boxed::Box;
use std::string::ToString;
use std::{format, vec};

#[test]
fn tables_over_lent_cells_are_those_cells() {
    let mut cells = [9; CELLS];
    Tables::over(&mut cells).init();
    assert_eq!(cells, *Tables::new().cells());
    assert_eq!(Tables::over_slice(&mut cells).unwrap().create_sem(1, 2), Ok(Handle(1)));
    let (mut owned, _) = empty();
    assert_eq!(owned.create_sem(1, 2), Ok(Handle(1)));
    assert_eq!(*Tables::view(&cells), owned);
    assert_eq!(Tables::view(&cells).cells().as_ptr(), cells.as_ptr(), "in place");
    for cells in [0, 1, CELLS - 1, CELLS + 1] {
        assert_eq!(Tables::over_slice(&mut vec![0; cells]).err(), Some(Refusal::Corrupt));
    }
}

#[test]
fn tables_are_equal_if_every_cell_is() {
    let tables = Tables::new();
    assert_eq!(tables, tables.clone());
    for cell in [0, 1, CELLS / 2, CELLS - 1] {
        let mut cells = *tables.cells();
        cells[cell] ^= 1;
        assert_ne!(*Tables::view(&cells), tables, "cell {cell}");
    }
}

#[test]
fn a_snapshot_fills_the_front_of_a_lent_buffer() {
    let tables = Tables::new();
    let mut buffer = vec![7; SNAPSHOT_BYTES + 1];
    assert_eq!(tables.snapshot(&mut buffer), Ok("next=1\nobjects=0\nwaits=0\nsum=2103\n"));
    assert!(buffer[34..].iter().all(|&byte| byte == 7));
    let mut short = vec![7; SNAPSHOT_BYTES - 1];
    assert_eq!(tables.snapshot(&mut short), Err(Refusal::ListShort));
    assert!(short.iter().all(|&byte| byte == 7));
}

#[test]
fn debug_is_the_snapshot() {
    let (mut tables, _) = empty();
    assert_eq!(tables.create_mutex(Owner(5), 2), Ok(Handle(1)));
    let words = "next=1 objects=1 handle=1 kind=mutex owner=5 count=2 abandoned=0 waits=0 sum=6296";
    assert_eq!(format!("{tables:?}"), format!("Tables {{ {words} }}"));
    assert_eq!(format!("{tables:#?}"), format!("Tables {{\n    {}\n}}", words.replace(' ', "\n    ")));
    assert_eq!(format!("{:?}", Tables::view(&[7; CELLS])), "Tables { Corrupt }");
}

#[test]
fn refusals_are_errors_with_their_numbers() {
    for number in 0..20 {
        let refusal = Refusal::from_number(number);
        assert_eq!(refusal.is_some(), [1, 2, 3, 7, 8, 9, 10, 12, 13].contains(&number));
        assert!(refusal.is_none_or(|refusal| refusal.number() == number));
    }
    let mut sentences: vec::Vec<_> = Refusal::ALL.iter().map(|refusal| refusal.to_string()).collect();
    sentences.sort();
    sentences.dedup();
    assert_eq!(sentences.len(), Refusal::ALL.len());
    let error: Box<dyn Error> = Box::new(Refusal::NotOwner);
    assert_eq!(error.to_string(), "that owner does not hold the mutex");
}

#[test]
#[cfg(feature = "alloc")]
fn boxed_tables_are_made_and_taken() {
    let mut tables = Tables::boxed();
    assert_eq!(*tables, Tables::new());
    assert_eq!(tables.create_event(true, true), Ok(Handle(1)));
    let again = Tables::over_box(Box::new(*tables.cells()));
    assert_eq!(again, tables);
    assert_eq!(
        again.snapshot_string().as_deref(),
        Ok("next=1\nobjects=1\nhandle=1\nkind=event\nsignaled=1\nmanual=1\nwaits=0\nsum=5600\n")
    );
    assert_eq!(Tables::over_box(Box::new([7; CELLS])).snapshot_string(), Err(Refusal::Corrupt));
}
