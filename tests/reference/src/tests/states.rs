// The states that the differential tests use: sound ones of every kind, broken ones as asked for.

use crate::cache::{accepted, broken_clause, sound, stored, STATE};
use crate::random::Random;
use crate::states::{self, CLAUSES};

#[test]
fn sound_states_of_every_kind() {
    let (mut full, mut all_stored, mut waiting, mut ruled, mut of_no_run) = (0, 0, 0, 0, 0);
    for seed in 0..500 {
        let state = states::sound(&mut Random::new(seed));
        assert_eq!(state.len(), STATE);
        assert!(sound(&state));
        full += usize::from(state[1] == 64);
        all_stored += usize::from(state[1] > 0 && state[2] == state[1]);
        waiting += usize::from(state[2] < state[1]);
        ruled += usize::from(state[0] == 32);
        // Without rules a run stores each write before the later ones.
        let (writes, flags) = (accepted(&state), stored(&state));
        let later_first = (1..writes.len()).any(|i| flags[i] && !flags[i - 1]);
        of_no_run += usize::from(state[0] == 0 && later_first);
    }
    let kinds = [full, all_stored, waiting, ruled, of_no_run];
    assert!(kinds.iter().all(|&count| count > 20), "{kinds:?}");
}

#[test]
fn broken_states_break_one_clause() {
    for clause in CLAUSES {
        for seed in 0..50 {
            let state = states::broken(&mut Random::new(seed), clause);
            assert_eq!(broken_clause(&state), Some(clause));
        }
    }
}
