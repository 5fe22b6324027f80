//! The archive's door: its records, laid out as C lays them out, and its calls behind safe functions. All that is unsafe
//! in this crate stands here. `crates/host/nethazel.h` says the same for C.

use crate::Catalogue;

include!("layout.rs"); // the macro and the constant of the layout's number

#[derive(Clone, Copy, Debug, PartialEq, Eq)]
#[repr(C)]
pub struct SeatRecord {
    pub state: u8,   // 0 closed, 1 ready, 2 at work
    pub feature: u8, // the place at work, all 0 in the other states
    pub option: u8,
    pub depth: u8,
    pub next: u8,
    pub broken: u8, // the last rule broken in this job; 255 for none, and in the other states
    pub choices: [u8; 16],
    pub masks: [u16; 16],
    pub trial: [u8; 16],
    pub alternatives: [u16; 16],
}

#[derive(Clone, Copy, Debug, PartialEq, Eq)]
#[repr(C)]
pub struct DeskRecord {
    pub seats: [SeatRecord; 8],
    pub next: u8,
}

#[repr(C)]
pub struct Changed {
    pub number: u8,
    pub desk: DeskRecord,
}

#[repr(C)]
pub struct Left {
    pub number: u8,
    pub mask: u16,
    pub count: u32,
}

#[repr(C)]
pub struct ExampleAt {
    pub number: u8,
    pub from: usize,
    pub length: usize,
}

#[repr(C)]
pub struct Ran {
    pub number: u8,
    pub rule: u8, // 255 for none
}

#[repr(C)]
pub struct Turned {
    pub number: u8,
    pub made: u16,
    pub working: u8, // C's bool, read as the byte it is
    pub desk: DeskRecord,
}

// Each call has the layout's number in its symbol's name: an archive of another layout lacks them all and is not linked.
extern "C" {
    #[link_name = concat!("nethazel_open_layout_", layout!())]
    fn nethazel_open(
        board: *mut u8,
        board_length: usize,
        sizes: *const u8,
        sizes_length: usize,
        rules: *const u16,
        rules_length: usize,
    ) -> Changed;
    #[link_name = concat!("nethazel_enter_layout_", layout!())]
    fn nethazel_enter(
        desk: DeskRecord,
        board: *mut u8,
        board_length: usize,
        sizes: *const u8,
        sizes_length: usize,
        rules: *const u16,
        rules_length: usize,
        seat: usize,
    ) -> Changed;
    #[link_name = concat!("nethazel_leave_layout_", layout!())]
    fn nethazel_leave(
        desk: DeskRecord,
        board: *mut u8,
        board_length: usize,
        sizes: *const u8,
        sizes_length: usize,
        rules: *const u16,
        rules_length: usize,
        seat: usize,
    ) -> Changed;
    #[link_name = concat!("nethazel_choose_layout_", layout!())]
    fn nethazel_choose(
        desk: DeskRecord,
        board: *mut u8,
        board_length: usize,
        sizes: *const u8,
        sizes_length: usize,
        rules: *const u16,
        rules_length: usize,
        seat: usize,
        feature: usize,
        option: usize,
    ) -> Changed;
    #[link_name = concat!("nethazel_relax_layout_", layout!())]
    fn nethazel_relax(
        desk: DeskRecord,
        board: *mut u8,
        board_length: usize,
        sizes: *const u8,
        sizes_length: usize,
        rules: *const u16,
        rules_length: usize,
        seat: usize,
        feature: usize,
    ) -> Changed;
    #[link_name = concat!("nethazel_options_layout_", layout!())]
    fn nethazel_options(
        desk: DeskRecord,
        board: *const u8,
        board_length: usize,
        sizes: *const u8,
        sizes_length: usize,
        rules: *const u16,
        rules_length: usize,
        seat: usize,
        feature: usize,
    ) -> Left;
    #[link_name = concat!("nethazel_alternatives_layout_", layout!())]
    fn nethazel_alternatives(
        desk: DeskRecord,
        board: *const u8,
        board_length: usize,
        sizes: *const u8,
        sizes_length: usize,
        rules: *const u16,
        rules_length: usize,
        seat: usize,
        feature: usize,
    ) -> Left;
    #[link_name = concat!("nethazel_example_layout_", layout!())]
    fn nethazel_example(
        desk: DeskRecord,
        board: *const u8,
        board_length: usize,
        sizes: *const u8,
        sizes_length: usize,
        rules: *const u16,
        rules_length: usize,
        seat: usize,
        feature: usize,
        option: usize,
    ) -> ExampleAt;
    #[link_name = concat!("nethazel_ran_into_layout_", layout!())]
    fn nethazel_ran_into(
        desk: DeskRecord,
        board: *const u8,
        board_length: usize,
        sizes: *const u8,
        sizes_length: usize,
        rules: *const u16,
        rules_length: usize,
        seat: usize,
    ) -> Ran;
    #[link_name = concat!("nethazel_turns_layout_", layout!())]
    fn nethazel_turns(
        desk: DeskRecord,
        board: *mut u8,
        board_length: usize,
        sizes: *const u8,
        sizes_length: usize,
        rules: *const u16,
        rules_length: usize,
        turns: u16,
    ) -> Turned;
}

/// Calls a function of the archive, each slice handed over as pointer, then length.
macro_rules! call {
    ($function:ident([$($desk:ident)?] $board:ident.$pointer:ident(), $catalogue:ident, [$($number:ident),*])) => {{
        let (sizes, rules) = ($catalogue.sizes(), $catalogue.rule_list());
        // SAFETY: the declaration above is the archive's own. Each pointer and length are those of a slice that is
        // borrowed for the whole call, so they are never null, aligned, and as long as they say; a board that is written
        // is borrowed alone, so it overlaps nothing. The archive keeps no pointer, and its contract holds for every
        // desk, board, catalogue and number, so nothing else is owed.
        unsafe {
            $function(
                $($desk,)?
                $board.$pointer(),
                $board.len(),
                sizes.as_ptr(),
                sizes.len(),
                rules.as_ptr(),
                rules.len(),
                $($number),*
            )
        }
    }};
}

pub fn open(board: &mut [u8], catalogue: &Catalogue) -> Changed {
    call!(nethazel_open([] board.as_mut_ptr(), catalogue, []))
}

pub fn enter(desk: DeskRecord, board: &mut [u8], catalogue: &Catalogue, seat: usize) -> Changed {
    call!(nethazel_enter([desk] board.as_mut_ptr(), catalogue, [seat]))
}

pub fn leave(desk: DeskRecord, board: &mut [u8], catalogue: &Catalogue, seat: usize) -> Changed {
    call!(nethazel_leave([desk] board.as_mut_ptr(), catalogue, [seat]))
}

pub fn choose(
    desk: DeskRecord,
    board: &mut [u8],
    catalogue: &Catalogue,
    seat: usize,
    feature: usize,
    option: usize,
) -> Changed {
    call!(nethazel_choose([desk] board.as_mut_ptr(), catalogue, [seat, feature, option]))
}

pub fn relax(
    desk: DeskRecord,
    board: &mut [u8],
    catalogue: &Catalogue,
    seat: usize,
    feature: usize,
) -> Changed {
    call!(nethazel_relax([desk] board.as_mut_ptr(), catalogue, [seat, feature]))
}

pub fn options(
    desk: DeskRecord,
    board: &[u8],
    catalogue: &Catalogue,
    seat: usize,
    feature: usize,
) -> Left {
    call!(nethazel_options([desk] board.as_ptr(), catalogue, [seat, feature]))
}

pub fn alternatives(
    desk: DeskRecord,
    board: &[u8],
    catalogue: &Catalogue,
    seat: usize,
    feature: usize,
) -> Left {
    call!(nethazel_alternatives([desk] board.as_ptr(), catalogue, [seat, feature]))
}

pub fn example(
    desk: DeskRecord,
    board: &[u8],
    catalogue: &Catalogue,
    seat: usize,
    feature: usize,
    option: usize,
) -> ExampleAt {
    call!(nethazel_example([desk] board.as_ptr(), catalogue, [seat, feature, option]))
}

pub fn ran_into(desk: DeskRecord, board: &[u8], catalogue: &Catalogue, seat: usize) -> Ran {
    call!(nethazel_ran_into([desk] board.as_ptr(), catalogue, [seat]))
}

pub fn turns(desk: DeskRecord, board: &mut [u8], catalogue: &Catalogue, turns: u16) -> Turned {
    call!(nethazel_turns([desk] board.as_mut_ptr(), catalogue, [turns]))
}

/// A desk that is put together: no turn is made, so the board stays, and where nothing is refused the record comes back tidy.
pub fn put_together(desk: DeskRecord, board: &mut [u8], catalogue: &Catalogue) -> Changed {
    let turned = turns(desk, board, catalogue, 0);
    Changed {
        number: turned.number,
        desk: turned.desk,
    }
}

#[cfg(test)]
mod tests {
    use super::*;
    use std::mem::size_of;

    /// The sizes that the C header's own test has.
    #[test]
    fn records_are_laid_out_as_in_c() {
        assert_eq!(
            (size_of::<SeatRecord>(), size_of::<DeskRecord>()),
            (102, 818)
        );
        assert_eq!((size_of::<Changed>(), size_of::<Turned>()), (820, 824));
        assert_eq!((size_of::<Left>(), size_of::<ExampleAt>()), (8, 24));
        assert_eq!(size_of::<Ran>(), 2);
    }

    #[test]
    fn a_board_of_another_length_is_refused_with_1() {
        let catalogue = Catalogue::new(&[3, 3, 2]);
        assert_eq!(open(&mut [0; 32_767], &catalogue).number, 1);
        assert_eq!(open(&mut [0; 32_769], &catalogue).number, 1);
        assert_eq!(open(&mut [], &catalogue).number, 1);
        let opened = open(&mut [0; 32_768], &catalogue);
        assert_eq!(opened.number, 0);
        assert_eq!(
            turns(opened.desk, &mut [0; 32_767], &catalogue, 1).number,
            1
        );
        let shown = ran_into(opened.desk, &[0; 32_767], &catalogue, 9);
        assert_eq!((shown.number, shown.rule), (1, 0));
    }

    #[test]
    fn a_desk_that_does_not_fit_is_refused_with_20_and_comes_back() {
        let catalogue = Catalogue::new(&[3, 3, 2]);
        let mut board = [0; 32_768];
        let mut unfit = open(&mut board, &catalogue).desk;
        unfit.seats[5].state = 3;
        unfit.seats[5].masks[15] = 4711;
        let turned = turns(unfit, &mut board, &catalogue, 7);
        assert_eq!((turned.number, turned.made, turned.working), (20, 0, 0));
        assert_eq!(turned.desk, unfit);
        assert_eq!(options(unfit, &board, &catalogue, 9, 9).number, 20);
        assert_eq!(alternatives(unfit, &board, &catalogue, 9, 9).number, 20);
        let shown = ran_into(unfit, &board, &catalogue, 9);
        assert_eq!((shown.number, shown.rule), (20, 0));
        let faulty = Catalogue::new(&[3, 17, 2]);
        assert_eq!(ran_into(unfit, &board, &faulty, 9).number, 11);
        let entered = enter(unfit, &mut board, &catalogue, 0);
        assert_eq!((entered.number, entered.desk), (20, unfit));
    }

    #[test]
    fn an_alternative_that_is_no_option_or_replaces_nothing_is_refused_with_20() {
        let catalogue = Catalogue::new(&[3, 3, 2]);
        let mut board = [0; 32_768];
        let opened = open(&mut board, &catalogue);
        let entered = enter(opened.desk, &mut board, &catalogue, 0);
        let ready = turns(entered.desk, &mut board, &catalogue, u16::MAX);
        let chosen = choose(ready.desk, &mut board, &catalogue, 0, 2, 1);
        let ready = turns(chosen.desk, &mut board, &catalogue, u16::MAX).desk;
        assert_eq!(ready.seats[0].alternatives[..3], [0, 0, 3]);
        for (seat, feature, mask, number) in [
            (0, 2, 0, 0),
            (0, 2, 3, 0),
            (0, 2, 4, 20),
            (0, 2, 1 << 15, 20),
            (0, 1, 1, 20),
            (0, 3, 1, 20),
            (0, 15, 1, 20),
            (7, 0, 1, 20),
        ] {
            let mut edited = ready;
            edited.seats[seat].alternatives[feature] = mask;
            let shown = alternatives(edited, &board, &catalogue, 0, 2);
            assert_eq!(shown.number, number);
            assert_eq!(shown.mask, if number == 0 { mask } else { 0 });
            assert_eq!(turns(edited, &mut board, &catalogue, 1).desk, edited);
        }
    }

    /// Seats 0 closed, 1 at work and 2 ready, under two rules.
    #[test]
    fn a_rule_that_is_none_or_of_a_seat_not_at_work_is_refused_with_20() {
        let catalogue = Catalogue::new(&[3, 3, 2])
            .rule(&[0, 1], &[[0, 1], [2, 0]])
            .rule(&[2], &[[1]]);
        let mut board = [0; 32_768];
        let opened = open(&mut board, &catalogue);
        let entered = enter(opened.desk, &mut board, &catalogue, 2);
        let ready = turns(entered.desk, &mut board, &catalogue, u16::MAX);
        let desk = enter(ready.desk, &mut board, &catalogue, 1).desk;
        assert_eq!([0, 1, 2].map(|seat| desk.seats[seat].state), [0, 2, 1]);
        assert_eq!([0, 1, 2].map(|seat| desk.seats[seat].broken), [255; 3]);
        for (seat, rule, number) in [
            (1, 0, 0),
            (1, 1, 0),
            (1, 2, 20),
            (1, 64, 20),
            (1, 254, 20),
            (1, 255, 0),
            (2, 0, 20),
            (2, 1, 20),
            (2, 254, 20),
            (2, 255, 0),
            (0, 0, 20),
            (0, 254, 20),
            (0, 255, 0),
        ] {
            let mut edited = desk;
            edited.seats[seat].broken = rule;
            let kept = edited.seats[1].broken;
            let shown = ran_into(edited, &board, &catalogue, 1);
            assert_eq!(shown.number, number, "{seat} {rule}");
            assert_eq!(shown.rule, if number == 0 { kept } else { 0 });
            let turned = turns(edited, &mut board, &catalogue, 0);
            assert_eq!((turned.number, turned.desk), (number, edited));
        }
    }

    #[test]
    fn a_desk_of_another_catalogue_is_refused_with_20() {
        let mut board = [0; 32_768];
        let small = Catalogue::new(&[2]);
        let large = Catalogue::new(&[3, 3]);
        let opened = open(&mut board, &large);
        let entered = enter(opened.desk, &mut board, &large, 0);
        let ready = turns(entered.desk, &mut board, &large, u16::MAX);
        assert_eq!((ready.number, ready.working), (0, 0));
        assert_eq!(leave(ready.desk, &mut board, &small, 0).number, 20);
    }
}
