//! Document 02's note 3: 22 for an id of the table, 26 for one that comes twice in the request,
//! and 22 for both faults, wherever they stand. The numbers are told beforehand, and the engine,
//! the plain version and the ledger are held to them.

mod common;

use common::bytes::encode;
use zintukor::{fresh, refine, Columns};
use zintukor_plain::{Ledger, Refused};

/// The other group of the table.
const TAKEN: u32 = u32::MAX;

/// A table of the groups 1 and `TAKEN`, and its ledger.
struct Table {
    columns: Columns,
    ledger: Ledger,
}

impl Table {
    fn new() -> Table {
        let mut columns = Columns::new(256);
        let mut ledger = Ledger::fresh(256, 1, 300).unwrap();
        let request = encode(&[1, 0, 2, 1, 299, 0, TAKEN, 1, 0]);
        assert_eq!(fresh(&mut columns, 1, 300), Ok(1));
        assert_eq!(refine(&mut columns, 1, &request), Ok(2));
        assert_eq!(ledger.refine(&request), Ok(2));
        Table { columns, ledger }
    }

    /// Explodes 1 into entries with these ids, each of quota 1: less than 299 in all. All three
    /// refuse it with the number, and the columns stay.
    #[track_caller]
    fn refuses(&mut self, ids: &[u32], number: u32) {
        let mut numbers = vec![1, 0, ids.len() as u32];
        numbers.extend(ids.iter().flat_map(|&id| [id, 1, 0]));
        let request = encode(&numbers);
        let mut lent = self.columns.clone();
        let engine = refine(&mut lent, 2, &request).map_err(|refusal| refusal.number());
        assert_eq!(engine, Err(number), "{ids:?}");
        let Columns { id, l, r, q } = &mut lent;
        assert_eq!(zintukor_plain::refine(id, l, r, q, 2, &request), Err(Refused(number)), "{ids:?}");
        assert_eq!(self.ledger.refine(&request), Err(Refused(number)), "{ids:?}");
        assert_eq!(lent, self.columns);
    }
}

/// As many ids that differ, with 1, the exploded one, at a place.
fn ids(entries: usize, exploded: usize) -> Vec<u32> {
    let id = |at: usize| if at == exploded { 1 } else { u32::MAX - 1 - at as u32 };
    (0..entries).map(id).collect()
}

/// Every two places, for each number of entries around those where the engine looks otherwise.
#[test]
fn any_two_places() {
    let mut table = Table::new();
    for entries in [3, 4, 7, 8, 9, 15, 16, 17, 40] {
        for exploded in [0, entries / 2, entries - 1] {
            let differing = ids(entries, exploded);
            table.refuses(&differing, 23);
            let places: Vec<usize> = (0..entries).filter(|&at| at != exploded).collect();
            for (nth, &one) in places.iter().enumerate() {
                let mut taken = differing.clone();
                taken[one] = TAKEN;
                table.refuses(&taken, 22);
                for &other in &places[nth + 1..] {
                    let mut twice = differing.clone();
                    twice[other] = twice[one];
                    table.refuses(&twice, 26);
                    for third in [places[0], places[places.len() / 2], places[places.len() - 1]] {
                        let mut both = twice.clone();
                        both[third] = TAKEN;
                        table.refuses(&both, 22);
                    }
                    let mut both = twice.clone();
                    both[one] = TAKEN;
                    both[other] = TAKEN;
                    table.refuses(&both, 22);
                    // The exploded id twice is 21, whatever else is wrong.
                    let mut exploded_twice = both;
                    exploded_twice[other] = 1;
                    table.refuses(&exploded_twice, 21);
                }
            }
        }
    }
}

/// 256 entries: neighbours, and the first with every other.
#[test]
fn as_many_as_there_may_be() {
    let mut table = Table::new();
    let differing = ids(256, 128);
    table.refuses(&differing, 23);
    for other in (1..256).filter(|&at| at != 128) {
        for one in [0, other - 1] {
            if one == 128 {
                continue;
            }
            let mut twice = differing.clone();
            twice[other] = twice[one];
            table.refuses(&twice, 26);
            twice[if other == 255 { 1 } else { 255 }] = TAKEN;
            table.refuses(&twice, 22);
        }
    }
}
