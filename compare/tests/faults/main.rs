//! The comparison finds an engine that is wrong in one thing.

mod compared;
mod held;
mod read;
mod seen;
mod tuples;
mod widths;

use held::Move;
use helvemoik_compare::boundary::*;
use helvemoik_compare::calls_over_widths;
use helvemoik_compare::comparison::{compare, compare_isolation, Plan};
use helvemoik_compare::engine::Engine;
use helvemoik_compare::plain::Plain;
use seen::{by_places, of_form_1, without_above_7, without_conflicts, without_pairs};

/// The faults, and a list of them all.
macro_rules! faults {
    ($($fault:ident,)*) => {
        #[derive(Debug, Clone, Copy, PartialEq, Eq)]
        enum Fault {
            $($fault,)*
        }

        const FAULTS: &[Fault] = &[$(Fault::$fault,)*];
    };
}

faults! {
    LineOffByOne,
    PolicyBesideARefusal,
    WritesPastTheText,
    WritesThoughTooShort,
    MissesALeftover,
    MissesAHugeCount,
    TakesAnyForm,
    DecidesAnySet,
    ListsThoughTooShort,
    TakesAnyCount,
    LabelPerSet,
    LeavesTheTable,
    SaysAlike,
    FalseWitness,
    FreshHoldsASession,
    OpensForAll,
    AddForgets,
    DropDropsAll,
    CloseKeeps,
    RefusalChangesTheBoard,
    RequestHeedsNu,
    RequestSkipsCheck20,
    MissesABadBoard,
    OnlyOneIsOpen,
    RequestTidiesTheBoard,
    AddKeepsTheNumber,
    Tests21Before7,
    MissesALeftoverPair,
    MissesAHugePairCount,
    TakesPairsInAnyOrder,
    TakesAPairTwice,
    TakesAnyPairAction,
    TakesAnyUserValueInAPair,
    TakesAnyObjectValueInAPair,
    WritesNoPairs,
    DecidesWithoutPairs,
    ListsWithoutPairs,
    ListsThePairsOfAll,
    CompilesWithoutPairs,
    TellsApartWithoutPairs,
    Tests22Before7,
    MissesALeftoverConflict,
    MissesAHugeConflictCount,
    TakesConflictsInAnyOrder,
    TakesASetTwice,
    TakesAnySetInAConflict,
    TakesAnyMost,
    WritesNoConflicts,
    OpensOverAConflict,
    AddsOverAConflict,
    RefusesTheMostAllowed,
    AllowsOneMore,
    MissesAMostOfNone,
    ForbidsAllByNoValues,
    HeedsTheFirstConflict,
    HeedsTheLastConflict,
    CountsJuniors,
    CountsOnlyWhatIsAdded,
    CountsWhatIsAddedTwice,
    CountsAllSessionsOfAUser,
    CountsWhatIsAssigned,
    Tests23Before19,
    Tests23Before16,
    DropTests23,
    KeepsWhat23Refuses,
    OpenTakesABoardOver,
    AddTakesABoardOver,
    DropTakesABoardOver,
    CloseTakesABoardOver,
    RequestTakesABoardOver,
    TakesABoardOverByOne,
    JudgesClosedEntries,
    JudgesBoardsWithJuniors,
    DecidesByPlaces,
    ListsByPlaces,
    CompilesByPlaces,
    TellsApartByPlaces,
    DominatesByJuniors,
    DominatesByOneLine,
    DominatesByObjectSeniority,
    SameBySeniority,
    ReadsAction8InForm1,
    ReadsAction16InForm2,
    ReadsForm2AsForm1,
    TakesAction8InForm1,
    TakesAction16InForm2,
    TakesNumbersOfNoWord,
    WritesForm1,
    DecidesAction8InForm1,
    DecidesAction16InForm2,
    ListsAction8InForm1,
    TellsApartByEightActions,
    LabelsByEightActions,
    CutsEntries,
    SwapsTheBytesOfEntries,
    CompilesForm2InBytes,
    CompilesForm1InWideEntries,
    Tests20BeforeWidths,
    WrongWidthTouchesABuffer,
    RequestsAction8InForm1,
    AnswersForm2ByBytes,
    AnswersForm1ByWideEntries,
    Tests12BeforeWidths,
    LooksUpAtHalfThePlace,
    LooksAtALowByte,
    WrongWidthTidiesTheBoard,
    AddReachesTheNext,
    CloseClearsTwo,
    RequestsBySession0,
    ReadsEightValuesInForm2,
    ReadsTenValuesInForm3,
    ReadsForm3AsForm2,
    TakesEightValuesInForm2,
    TakesTenValuesInForm3,
    MissesALateWidth,
    MissesALateLine,
    CutsLabels,
    TakesLabel256For0,
    LooksUpCutLabels,
    LooksUpCutSets,
    CompilesForm3InBytes,
    CompilesForm3InByteLabels,
    CompilesForm1InWideLabels,
    CompilesForm2InWideLabels,
    AnswersForm3ByBytes,
    AnswersForm3ByByteLabels,
    AnswersForm1ByWideLabels,
    AnswersForm2ByWideLabels,
    CutsTuples,
    DecidesByCutTuples,
    ListsForm3In16Bits,
    ListsEarlierFormsIn32Bits,
    DecidesForm3By16Bits,
    DecidesEarlierFormsBy32Bits,
    Tests12BeforeTupleBits,
    WrongTupleBitsTouchTheBuffer,
}

use Fault::*;

/// Plain Rust with one fault.
struct Faulty(Fault);

impl Engine for Faulty {
    calls_over_widths!();

    fn read(&self, text: &[u8]) -> Reading {
        self.reading(text)
    }

    fn write(&self, policy: &PolicyValue, buffer: &mut [u8]) -> Counted {
        let seen = match self.0 {
            WritesNoPairs => without_pairs(policy),
            WritesNoConflicts => without_conflicts(policy),
            WritesForm1 => of_form_1(policy),
            _ => self.seen(policy),
        };
        let written = Plain.write(&seen, buffer);
        match self.0 {
            WritesPastTheText if written.refusal == 0 => {
                if let Some(byte) = buffer.get_mut(written.count) {
                    *byte = byte.wrapping_add(1);
                }
            }
            WritesThoughTooShort if written.refusal == 20 => {
                if let Some(byte) = buffer.first_mut() {
                    *byte = b'p';
                }
            }
            _ => {}
        }
        written
    }

    fn valid(&self, policy: &PolicyValue) -> bool {
        Plain.valid(&self.seen(policy))
    }

    fn decide(&self, policy: &PolicyValue, action: u32, user: u32, object: u32) -> u32 {
        let seen = match self.0 {
            DecidesWithoutPairs => without_pairs(policy),
            DecidesByPlaces => by_places(policy),
            _ => self.compared(policy, user, object),
        };
        match (self.0, Plain.decide(&seen, action, user, object)) {
            (DecidesAnySet, 19) => DENIED,
            (DecidesAction8InForm1, 12) if (policy.form, action) == (1, 8) => DENIED,
            (DecidesAction16InForm2, 12) if (policy.form, action) == (2, 16) => DENIED,
            (_, answer) => answer,
        }
    }

    fn apart(&self, policy: &PolicyValue, one: u32, other: u32) -> Separation {
        let seen = match self.0 {
            TellsApartWithoutPairs => without_pairs(policy),
            TellsApartByPlaces => by_places(policy),
            TellsApartByEightActions => without_above_7(policy),
            _ => *policy,
        };
        let mut found = Plain.apart(&seen, one, other);
        match self.0 {
            SaysAlike if found.answer == APART => found = Separation::default(),
            FalseWitness if found.answer == APART => found.action ^= 1,
            _ => {}
        }
        found
    }

    fn fresh(&self) -> Board {
        let mut board = Plain.fresh();
        board.sessions[31].live = u32::from(self.0 == FreshHoldsASession);
        board
    }

    fn open(&self, board: &Board, policy: &PolicyValue, user: u32, session: u32, set: u32) -> Step {
        let mut step = self.taking(Move::Open, board, policy, user, session, set);
        match self.0 {
            OpensForAll if step.answer == 19 => {
                step.answer = DONE;
                step.board.sessions[session as usize] = Session::open(user, set);
            }
            RefusalChangesTheBoard if step.answer == 16 => {
                step.board.sessions[session as usize].held = 0
            }
            MissesABadBoard if step.answer == 11 && Plain.valid(policy) => step.answer = 13,
            _ => {}
        }
        step
    }

    fn add(&self, board: &Board, policy: &PolicyValue, user: u32, session: u32, set: u32) -> Step {
        let mut step = self.taking(Move::Add, board, policy, user, session, set);
        match self.0 {
            AddForgets => step.board = *board,
            AddKeepsTheNumber if step.answer == DONE => {
                let session = session as usize;
                step.board.sessions[session].live = board.sessions[session].live;
            }
            AddReachesTheNext if step.answer == DONE => {
                for next in behind(&mut step.board, session).filter(|next| next.is_open()) {
                    next.held |= set;
                }
            }
            _ => {}
        }
        step
    }

    fn drop(&self, board: &Board, policy: &PolicyValue, user: u32, session: u32, set: u32) -> Step {
        let mut step = self.taking(Move::Drop, board, policy, user, session, set);
        if self.0 == DropDropsAll && step.answer == DONE {
            step.board.sessions[session as usize].held = 0;
        }
        step
    }

    fn close(&self, board: &Board, policy: &PolicyValue, user: u32, session: u32) -> Step {
        let mut step = self.on_board(CloseTakesABoardOver, board, policy, |policy| {
            Plain.close(board, policy, user, session)
        });
        match self.0 {
            CloseKeeps => step.board = *board,
            OnlyOneIsOpen if step.answer == DONE && board.sessions[session as usize].live != 1 => {
                step = Step {
                    answer: 17,
                    board: *board,
                };
            }
            CloseClearsTwo if step.answer == DONE => {
                behind(&mut step.board, session).for_each(|next| *next = Session::default());
            }
            _ => {}
        }
        step
    }
}

/// The entry behind that of a session, if there is one.
fn behind(board: &mut Board, session: u32) -> impl Iterator<Item = &mut Session> {
    board.sessions.iter_mut().skip(session as usize + 1).take(1)
}

#[test]
fn every_fault_is_found() {
    let plan = Plan {
        seed: 5,
        texts: 2_000,
        calls: 40_000,
    };
    for &fault in FAULTS {
        let found = compare(&Faulty(fault), plan);
        let difference = found.expect_err(&format!("{fault:?} is not found"));
        println!("{fault:?}: case {}", difference.case);
    }
}

/// An engine in which one session changes another's answers is found by its own answers to
/// two lists, with nothing to compare them with.
#[test]
fn sessions_that_are_not_isolated_are_found_by_two_lists() {
    let plan = Plan {
        seed: 5,
        texts: 5_000,
        calls: 0,
    };
    for fault in [AddReachesTheNext, CloseClearsTwo, RequestsBySession0] {
        let found = compare_isolation(&Faulty(fault), plan);
        let difference = found.expect_err(&format!("{fault:?} is not found"));
        println!("{difference}");
        assert!(difference.what.starts_with("calls naming session "));
    }
}
