//! What the lister writes about a policy text.

use crate::labels::compile;
use crate::policy::Policy;
use crate::text::{read, Refused};
use crate::tuples::tuples;

/// The lister's output for a text, refused or not.
pub fn list(text: &[u8]) -> String {
    match read(text) {
        Ok(policy) => listing(&policy),
        Err(Refused { refusal, line }) => format!("refused,{refusal},{line}\n"),
    }
}

fn listing(policy: &Policy) -> String {
    let labelling = compile(policy);
    let mut output = format!(
        "labels,{},{}\n",
        labelling.user_count, labelling.object_count
    );
    for action in (0..policy.actions()).filter(|&action| policy.names(action)) {
        let tuples = tuples(policy, action).expect("an action");
        output += &format!("action,{action},{}\n", tuples.len());
        for tuple in tuples {
            let (user_set, object_set) =
                (tuple / policy.object_sets(), tuple % policy.object_sets());
            output += &format!("tuple,{action},{user_set},{object_set}\n");
        }
    }
    output
}

#[cfg(test)]
mod tests {
    use super::*;

    #[test]
    fn each_action_with_a_rule_or_a_pair_has_one_block_in_rising_order() {
        let head = "policy,1\nuattr,1\noattr,1\n";
        let rules = "rule,2,u0,n\nrule,4,f\n";
        let pairs = "pair,1,0,0\npair,2,0,0\npair,7,0,0\n";
        let output = list(format!("{head}{rules}{pairs}end\n").as_bytes());
        let expected = "labels,2,2\naction,1,1\ntuple,1,1,1\n\
            action,2,3\ntuple,2,0,0\ntuple,2,0,1\ntuple,2,1,1\n\
            action,4,0\naction,7,1\ntuple,7,1,1\n";
        assert_eq!(output, expected);
    }

    #[test]
    fn forms_2_and_3_have_blocks_up_to_action_15() {
        for form in [2, 3] {
            let lines = "uattr,1\noattr,1\nrule,8,u0,o0,a\npair,15,0,0\nend\n";
            let output = list(format!("policy,{form}\n{lines}").as_bytes());
            let expected = "labels,2,2\naction,8,1\ntuple,8,1,1\naction,15,1\ntuple,15,1,1\n";
            assert_eq!(output, expected);
        }
    }

    #[test]
    fn tuples_of_nine_values_a_side_are_parted_again() {
        let output = list(b"policy,3\nuattr,9\noattr,9\nrule,0,q00\nend\n");
        let tuples = (0..512).map(|set| format!("tuple,0,{set},{set}\n"));
        let tuples: String = tuples.collect();
        assert_eq!(output, format!("labels,512,512\naction,0,512\n{tuples}"));
    }
}
