//! Labels of user sets and object sets, and the table over them.

use crate::form::Widths;
use crate::formula::Formulas;
use crate::policy::{Policy, Refusal, Set};

/// A label, wide enough for every form.
pub type Label = u16;

/// An entry of a table, wide enough for every form.
pub type Entry = u16;

/// A number for each user set and each object set, and a table over them.
#[derive(Debug, Clone, PartialEq, Eq)]
pub struct Labelling {
    /// The bits in which labels and entries are stored.
    pub widths: Widths,
    pub user_labels: Vec<Label>,
    pub object_labels: Vec<Label>,
    /// NU: how many user labels are used.
    pub user_count: usize,
    /// NO: how many object labels are used.
    pub object_count: usize,
    /// Entry ul × NO + ol has bit a set exactly when action a is granted.
    pub table: Vec<Entry>,
}

/// A row for each user set with an entry for each object set, bit a for action a.
pub fn grants(policy: &Policy) -> Vec<Vec<Entry>> {
    let formulas = Formulas::of(policy);
    let row = |user_set| {
        let mut row = vec![0; policy.object_sets() as usize];
        for action in (0..policy.actions()).filter(|&action| policy.names(action)) {
            let granted = formulas.row(action, user_set, 0..policy.object_sets());
            for (entry, granted) in row.iter_mut().zip(granted) {
                *entry |= Entry::from(granted) << action;
            }
        }
        row
    };
    (0..policy.user_sets()).map(row).collect()
}

/// The compiled labelling, in the widths of the policy's form: alike sets share a
/// label.
pub fn compile(policy: &Policy) -> Labelling {
    let rows = grants(policy);
    let columns: Vec<Vec<Entry>> = (0..policy.object_sets() as usize)
        .map(|object_set| rows.iter().map(|row| row[object_set]).collect())
        .collect();
    let (user_labels, user_lowest) = number(&rows);
    let (object_labels, object_lowest) = number(&columns);
    let mut table = Vec::new();
    for &user_set in &user_lowest {
        for &object_set in &object_lowest {
            table.push(rows[user_set][object_set]);
        }
    }
    Labelling {
        widths: policy.form.widths,
        user_labels,
        object_labels,
        user_count: user_lowest.len(),
        object_count: object_lowest.len(),
        table,
    }
}

/// The same by a call made for these widths: refusal 11 where they are not those of
/// the policy's form.
pub fn compile_for(policy: &Policy, widths: Widths) -> Result<Labelling, Refusal> {
    policy.form.check(widths)?;
    Ok(compile(policy))
}

/// A label for each row, equal rows alike, and each label's lowest row.
fn number(rows: &[Vec<Entry>]) -> (Vec<Label>, Vec<usize>) {
    let mut labels = Vec::new();
    let mut lowest: Vec<usize> = Vec::new();
    for (set, row) in rows.iter().enumerate() {
        let label = lowest.iter().position(|&earlier| rows[earlier] == *row);
        let number = label.unwrap_or(lowest.len());
        labels.push(Label::try_from(number).expect("at most 512 labels"));
        if label.is_none() {
            lowest.push(set);
        }
    }
    (labels, lowest)
}

/// Whether a labelling says granted exactly where formulas and pairs grant.
pub fn grants_alike(policy: &Policy, labelling: &Labelling) -> bool {
    grants(policy)
        .iter()
        .zip(&labelling.user_labels)
        .all(|(row, &user_label)| {
            row.iter()
                .zip(&labelling.object_labels)
                .all(|(entry, &object_label)| {
                    let place =
                        user_label as usize * labelling.object_count + object_label as usize;
                    labelling.table.get(place) == Some(entry)
                })
        })
}

/// None when two user sets are alike, else an action and an object set that
/// tells them apart; refusal 19.
pub fn apart(policy: &Policy, one: Set, other: Set) -> Result<Option<(u32, Set)>, Refusal> {
    if one >= policy.user_sets() || other >= policy.user_sets() {
        return Err(19);
    }
    let formulas = Formulas::of(policy);
    let row = |action, user_set| formulas.row(action, user_set, 0..policy.object_sets());
    for action in 0..policy.actions() {
        let rows = row(action, one).into_iter().zip(row(action, other));
        if let Some((object_set, _)) = (0..).zip(rows).find(|(_, (one, other))| one != other) {
            return Ok(Some((action, object_set)));
        }
    }
    Ok(None)
}

#[cfg(test)]
mod tests {
    use super::*;
    use crate::form::{FORMS, WIDTHS};
    use crate::text::read;

    #[test]
    fn apart_looks_and_refuses_by_19() {
        let text = b"policy,1\nuattr,2\noattr,1\nrule,6,u1,o0,a\nend\n";
        let policy = read(text).expect("accepted");
        assert_eq!(apart(&policy, 0, 1), Ok(None));
        assert_eq!(apart(&policy, 2, 3), Ok(None));
        assert_eq!(apart(&policy, 1, 2), Ok(Some((6, 1))));
        assert_eq!(apart(&policy, 4, 0), Err(19));
        assert_eq!(apart(&policy, 0, 4), Err(19));
    }

    #[test]
    fn an_action_above_7_tells_apart_and_has_its_bit() {
        let text = b"policy,2\nuattr,1\noattr,1\nrule,0,t\npair,15,0,0\nend\n";
        let policy = read(text).expect("accepted");
        let labelling = compile(&policy);
        assert_eq!(labelling.user_labels, [0, 1]);
        assert_eq!(labelling.object_labels, [0, 1]);
        assert_eq!(labelling.table, [1, 1, 1, 32_769]);
        assert!(grants_alike(&policy, &labelling));
        assert_eq!(apart(&policy, 0, 1), Ok(Some((15, 1))));
    }

    #[test]
    fn compiling_for_other_widths_gets_11() {
        for form in FORMS {
            let text = format!("policy,{}\nuattr,1\noattr,1\nrule,7,u0\nend\n", form.number);
            let policy = read(text.as_bytes()).expect("accepted");
            let labelling = compile(&policy);
            assert_eq!(labelling.widths, form.widths);
            assert_eq!(labelling.table, [0, 128]);
            for widths in WIDTHS {
                let own = widths == form.widths;
                let due = if own { Ok(labelling.clone()) } else { Err(11) };
                assert_eq!(compile_for(&policy, widths), due);
            }
        }
    }

    /// Each set of nine values has a label of its own, on either side.
    #[test]
    fn there_are_up_to_512_labels() {
        let text = b"policy,3\nuattr,9\noattr,9\nrule,15,q00\nend\n";
        let labelling = compile(&read(text).expect("accepted"));
        assert!(labelling.user_labels.iter().copied().eq(0..512));
        assert!(labelling.object_labels.iter().copied().eq(0..512));
        assert_eq!((labelling.user_count, labelling.object_count), (512, 512));
        let mut granted = labelling.table.iter().enumerate().filter(|(_, e)| **e != 0);
        assert!(granted.all(|(place, &entry)| place % 513 == 0 && entry == 32_768));
    }

    #[test]
    fn a_wrong_table_does_not_grant_alike() {
        let text = b"policy,1\nuattr,1\noattr,1\nrule,0,u0,o0,a\nend\n";
        let policy = read(text).expect("accepted");
        let labelling = compile(&policy);
        assert_eq!(labelling.table, [0, 0, 0, 1]);
        assert!(grants_alike(&policy, &labelling));
        let wrong = Labelling {
            table: vec![0, 0, 1, 1],
            ..labelling.clone()
        };
        assert!(!grants_alike(&policy, &wrong));
        let merged = Labelling {
            user_labels: vec![0, 0],
            ..labelling
        };
        assert!(!grants_alike(&policy, &merged));
    }
}
