//! A desk taken apart and put together, and bytes that are none.

mod common;

use common::{finish, trolley};
use nethazel::{Catalogue, Desk, FromBytesError, Refusal, LAYOUT};
use std::error::Error;

// Where they begin in the bytes.
const LAYOUT_AT: usize = 8;
const FINGERPRINT: usize = 12;
const SEATS: usize = 20;
const SEAT: usize = 102; // bytes each
const RULE: usize = 5; // in a seat, the one last run into
const BOARD: usize = SEATS + 8 * SEAT + 1;

// Fingerprints, computed by another program: of the trolley, and of no sizes and no rules.
const TROLLEY: u64 = 0xe27a_0407_3400_4101;
const EMPTY: u64 = 0x8820_1fb9_60ff_6465;

/// Seat 0 closed, 2 ready with a choice, 1 and 7 in the middle of their search.
fn busy() -> Result<Desk, Refusal> {
    let mut desk = Desk::open(&trolley())?;
    desk.enter(2)?;
    finish(&mut desk)?;
    desk.choose(2, 2, 0)?;
    finish(&mut desk)?;
    desk.enter(1)?;
    desk.enter(7)?;
    desk.turns(23)?;
    Ok(desk)
}

#[test]
fn a_desk_moved_at_every_turn_is_the_desk_that_stayed() -> Result<(), Box<dyn Error>> {
    let catalogue = trolley();
    let mut stayed = busy()?;
    let mut moved = stayed.clone();
    assert_eq!(
        (stayed.ran_into(1)?, stayed.ran_into(7)?),
        (Some(0), Some(1))
    );
    while stayed.is_working() {
        moved = Desk::from_bytes(&catalogue, &moved.to_bytes())?;
        assert_eq!(moved, stayed);
        assert_eq!(moved.ran_into(1)?, stayed.ran_into(1)?);
        assert_eq!(moved.turns(1)?, stayed.turns(1)?);
    }
    moved = Desk::from_bytes(&trolley(), &moved.to_bytes())?;
    assert_eq!(moved.example(7, 1, 2)?.to_string(), "1 2 0");
    assert_eq!(moved, stayed);
    Ok(())
}

/// The form is written down, so it is held to the bytes and not only to its own reader.
#[test]
fn the_bytes_have_the_form_that_is_documented() -> Result<(), Refusal> {
    let mut desk = busy()?;
    desk.turns(28)?; // now no two of the place's numbers are alike at both seats
    let bytes = desk.to_bytes();
    assert_eq!(bytes.len(), BOARD + 32_768);
    assert_eq!(bytes[..LAYOUT_AT], *b"nethazel");
    assert_eq!(bytes[LAYOUT_AT..FINGERPRINT], LAYOUT.to_le_bytes());
    assert_eq!(bytes[FINGERPRINT..SEATS], TROLLEY.to_le_bytes());
    let seat_2 = &bytes[SEATS + 2 * SEAT..][..SEAT];
    assert_eq!(seat_2[..6], [1, 0, 0, 0, 0, 255]);
    assert_eq!(seat_2[6..10], [255, 255, 0, 255]);
    assert_eq!(seat_2[22..28], [2, 0, 5, 0, 1, 0]);
    assert_eq!(seat_2[54..70], [255; 16]);
    assert_eq!(seat_2[70..76], [0, 0, 0, 0, 3, 0]);
    assert_eq!(bytes[SEATS + SEAT..][..6], [2, 1, 2, 1, 2, 0]);
    assert_eq!(bytes[SEATS + 7 * SEAT..][..6], [2, 1, 2, 2, 0, 0]);
    assert_eq!(usize::from(bytes[BOARD - 1]), desk.next_seat());
    assert_eq!(&bytes[BOARD..], desk.board().bytes());
    Ok(())
}

#[test]
fn two_bytes_of_a_mask_are_told_apart() -> Result<(), Refusal> {
    let mut desk = Desk::open(&Catalogue::new(&[16]).rule(&[0], &[[0], [9]]))?;
    desk.enter(0)?;
    finish(&mut desk)?;
    assert_eq!(desk.to_bytes()[SEATS + 22..][..2], [1, 2]);
    Ok(())
}

#[test]
fn another_length_and_another_layout_are_told() -> Result<(), Refusal> {
    let desk = busy()?;
    let refused = |bytes: &[u8]| Desk::from_bytes(&trolley(), bytes).unwrap_err();
    let bytes = desk.to_bytes();
    for length in [8, 11, 12, 20, BOARD, Desk::BYTES - 1] {
        assert_eq!(refused(&bytes[..length]), FromBytesError::Length(length));
    }
    let longer = [&bytes[..], &[255]].concat();
    assert_eq!(refused(&longer), FromBytesError::Length(Desk::BYTES + 1));
    let layout = (LAYOUT + 1).to_le_bytes();
    let later = [
        &bytes[..LAYOUT_AT],
        &layout,
        &bytes[FINGERPRINT..],
        &[0; 99],
    ]
    .concat();
    assert_eq!(refused(&later), FromBytesError::Layout(LAYOUT + 1));
    assert_eq!(
        refused(&later).to_string(),
        format!(
            "a desk of layout {}, where this version of nethazel has layout {LAYOUT}",
            LAYOUT + 1
        )
    );
    // Of layout 1, where a seat had a byte less.
    let earlier = [
        &bytes[..LAYOUT_AT],
        &1u32.to_le_bytes(),
        &bytes[FINGERPRINT..Desk::BYTES - 8],
    ]
    .concat();
    assert_eq!(refused(&earlier), FromBytesError::Layout(1));
    Ok(())
}

#[test]
fn bytes_without_the_mark_are_no_desk() -> Result<(), Refusal> {
    let bytes = busy()?.to_bytes();
    let refused = |bytes: &[u8]| Desk::from_bytes(&trolley(), bytes).unwrap_err();
    for other in [&[][..], &bytes[..7], &bytes[1..], &[0; Desk::BYTES]] {
        assert_eq!(refused(other), FromBytesError::NotADesk);
    }
    assert_eq!(
        FromBytesError::NotADesk.to_string(),
        "not a desk: the bytes don't begin with `nethazel`"
    );
    Ok(())
}

/// Also with rules or sizes that the record fits as well, which the archive would take.
#[test]
fn another_catalogue_is_told() -> Result<(), Refusal> {
    let bytes = busy()?.to_bytes();
    let refused = |catalogue: &Catalogue| Desk::from_bytes(catalogue, &bytes).err();
    assert_eq!(refused(&trolley()), None);
    for other in [
        Catalogue::new(&[3, 3, 2]),
        trolley().rule(&[0], &[[0], [1], [2]]),
        Catalogue::from_numbers(&[3, 3, 3], trolley().rule_list()),
        Catalogue::new(&[]),
    ] {
        assert_eq!(refused(&other), Some(FromBytesError::OtherCatalogue));
    }
    assert_eq!(
        FromBytesError::OtherCatalogue.to_string(),
        "a desk with another catalogue than the one that was given"
    );
    Ok(())
}

#[test]
fn what_the_archive_refuses_is_no_desk() -> Result<(), Refusal> {
    let bytes = busy()?.to_bytes();
    let places = [
        (SEATS, 3),
        (SEATS + 2 * SEAT + 6, 3),
        (SEATS + SEAT + RULE, 2), // at work, and the trolley has two rules
        (SEATS + SEAT + RULE, 254),
        (SEATS + 2 * SEAT + RULE, 0), // ready
        (SEATS + RULE, 0),            // closed
        (BOARD - 1, 8),
        (BOARD - 1, 255),
    ];
    for (place, number) in places {
        let mut edited = bytes.clone();
        edited[place] = number;
        let error = Desk::from_bytes(&trolley(), &edited).unwrap_err();
        assert_eq!(error, FromBytesError::Refused(Refusal::DeskUnfit));
        let source = error.source().and_then(|source| source.downcast_ref());
        assert_eq!(source, Some(&Refusal::DeskUnfit));
    }
    assert!(FromBytesError::NotADesk.source().is_none());
    Ok(())
}

/// A rule is kept by a seat at work, and by no other.
#[test]
fn a_rule_of_the_catalogue_is_taken_and_shown() -> Result<(), Box<dyn Error>> {
    let mut bytes = busy()?.to_bytes();
    for (byte, rule) in [(0, Some(0)), (1, Some(1)), (255, None)] {
        bytes[SEATS + SEAT + RULE] = byte;
        let desk = Desk::from_bytes(&trolley(), &bytes)?;
        assert_eq!((desk.ran_into(1)?, desk.seat(1)?.ran_into()), (rule, rule));
        assert_eq!(desk.to_bytes(), bytes);
    }
    Ok(())
}

/// Who means to gives a desk another catalogue's fingerprint: then the archive checks.
#[test]
fn a_fingerprint_is_no_signature() -> Result<(), Box<dyn Error>> {
    let with_fingerprint = |fingerprint: &[u8]| -> Result<Vec<u8>, Refusal> {
        let mut bytes = busy()?.to_bytes();
        bytes[FINGERPRINT..SEATS].copy_from_slice(fingerprint);
        Ok(bytes)
    };
    let smaller = Catalogue::new(&[3, 2]);
    let bytes = with_fingerprint(&Desk::open(&smaller)?.to_bytes()[FINGERPRINT..SEATS])?;
    let unfit = FromBytesError::Refused(Refusal::DeskUnfit);
    assert_eq!(Desk::from_bytes(&smaller, &bytes), Err(unfit));
    let ruleless = Catalogue::new(&[3, 3, 2]); // and a seat at work has run into a rule
    let bytes = with_fingerprint(&Desk::open(&ruleless)?.to_bytes()[FINGERPRINT..SEATS])?;
    assert_eq!(Desk::from_bytes(&ruleless, &bytes), Err(unfit));
    let narrower = trolley().rule(&[0], &[[0]]);
    let bytes = with_fingerprint(&Desk::open(&narrower)?.to_bytes()[FINGERPRINT..SEATS])?;
    assert_eq!(Desk::from_bytes(&narrower, &bytes)?.catalogue(), &narrower);
    // The fingerprint of no sizes and no rules: sixteen bytes of 0.
    let bytes = with_fingerprint(&EMPTY.to_le_bytes())?;
    let fault = FromBytesError::Refused(Refusal::FeatureCount);
    assert_eq!(Desk::from_bytes(&Catalogue::new(&[]), &bytes), Err(fault));
    Ok(())
}

/// The place of a seat that is not at work has no meaning.
#[test]
fn a_record_is_kept_as_the_archive_hands_it_back() -> Result<(), Box<dyn Error>> {
    let desk = busy()?;
    let mut bytes = desk.to_bytes();
    bytes[SEATS + 2 * SEAT + 1..][..4].copy_from_slice(&[1, 2, 3, 4]);
    assert_ne!(bytes, desk.to_bytes());
    let tidy = Desk::from_bytes(&trolley(), &bytes)?;
    assert_eq!(tidy, desk);
    assert_eq!(tidy.to_bytes(), desk.to_bytes());
    Ok(())
}

/// What the board holds is not checked: it is shown as it is, and no call goes astray over it.
#[test]
fn a_made_up_board_is_taken_and_shown() -> Result<(), Box<dyn Error>> {
    let mut bytes = busy()?.to_bytes();
    bytes[BOARD..].fill(200);
    let mut desk = Desk::from_bytes(&trolley(), &bytes)?;
    let example = desk.example(2, 1, 2)?;
    assert_eq!(example.bytes(), &[200; 16]);
    assert!(example.options().eq([200; 3]));
    assert_eq!((example.option(2), example.option(3)), (Some(200), None));
    finish(&mut desk)?;
    desk.relax(2, 2)?;
    finish(&mut desk)?;
    assert_eq!(desk.options(2, 2)?.to_string(), "0,1");
    assert_eq!(desk.example(2, 1, 2)?.to_string(), "1 2 0");
    Ok(())
}

#[test]
fn an_example_on_a_board_of_255s_has_an_entry_for_each_feature() -> Result<(), Box<dyn Error>> {
    let mut bytes = busy()?.to_bytes();
    bytes[BOARD..].fill(255);
    let desk = Desk::from_bytes(&trolley(), &bytes)?;
    let example = desk.example(2, 1, 2)?;
    assert_eq!(example.options().len(), 3);
    assert_eq!((example.option(0), example.option(3)), (Some(255), None));
    assert_eq!(example.to_string(), "255 255 255");
    Ok(())
}

/// Bytes of a closed seat, one at work and a ready one, each changed in several ways: where the archive takes the record,
/// every call can be made.
#[test]
fn a_record_with_any_byte_changed_is_refused_or_safe() -> Result<(), Refusal> {
    let bytes = busy()?.to_bytes();
    let (mut taken, mut refused) = (0, 0);
    for place in SEATS..SEATS + 3 * SEAT {
        for byte in [0, 2, 16, 255] {
            let mut edited = bytes.clone();
            edited[place] = byte;
            match Desk::from_bytes(&trolley(), &edited) {
                Ok(mut desk) => {
                    taken += 1;
                    use_all_calls(&mut desk)?;
                }
                Err(error) => {
                    refused += 1;
                    assert_eq!(error, Refusal::DeskUnfit.into());
                }
            }
        }
    }
    assert!(
        taken > 300 && refused > 300,
        "{taken} taken, {refused} refused"
    );
    Ok(())
}

/// What a made-up desk answers is not said; that it fits its catalogue stays true.
fn use_all_calls(desk: &mut Desk) -> Result<(), Refusal> {
    for seat in 0..3 {
        let waits = desk.at_work().any(|waiting| waiting == seat);
        assert_eq!(desk.seat(seat)?.is_at_work(), waits);
        for (feature, option) in [(1, 2), (2, 0)] {
            let refusals = [
                desk.options(seat, feature).err(),
                desk.alternatives(seat, feature).err(),
                desk.example(seat, feature, option).err(),
                desk.ran_into(seat).err(),
            ];
            assert!(!refusals.contains(&Some(Refusal::DeskUnfit)));
        }
    }
    desk.turns(200)?;
    Ok(())
}
