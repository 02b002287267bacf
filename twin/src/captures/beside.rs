//! What stands beside the file: somebody who writes to the table between two pieces, record buffers of
//! other lengths (C9), tables that a case before left, and the order of refusals (C8).

use super::blocks::*;
use super::maker::{Maker, PORT};
use super::ROOM;
use crate::capture::ALL;
use crate::table::{LAST_PORT, PORTS};

const WRONG_ROOMS: [u16; 5] = [0, 24, ROOM - 1, ROOM + 1, u16::MAX];

impl Maker {
    pub fn somebody_beside(&mut self) {
        self.somebody_writes();
        self.writes_where_no_call_follows();
        self.writes_before_each_kind_of_record();
        self.unfit_at_the_beginning();
        self.the_order_of_refusals();
        self.rooms();
        self.rooms_come_first();
        self.two_captures();
        self.over_refused_captures();
    }

    /// About each edge of the file, from before the first octet to behind the last.
    fn somebody_writes(&mut self) {
        let edges = edges(&small_records());
        let about = edges.into_iter().flat_map(|edge| [edge - 1, edge, edge + 1]);
        let whole = small(self.order);
        for at in [0, 1, 4, 30, 60, 120].into_iter().chain(about) {
            self.file(whole.clone()).spoil = at as u64;
        }
        // Octets that are never fed.
        for at in [1 << 32, u64::MAX - 1] {
            self.file(whole.clone()).spoil = at;
        }
        // Behind a limit, in the frame that reaches it, and in the octet before.
        let behind_first = FILE_HEADER + RECORD_HEADER + 51;
        for limit in [0, 1, 2] {
            for at in [0, FILE_HEADER, behind_first - 1, behind_first, behind_first + 1] {
                let case = self.file(whole.clone());
                (case.limit, case.spoil) = (limit, at as u64);
            }
        }
    }

    /// The answer is what it would have been, and the octet is written; then the table is not fit.
    fn writes_where_no_call_follows(&mut self) {
        let order = self.order;
        let whole = small(order);
        let torn_at_once = cut(whole.clone(), FILE_HEADER + 7);
        let torn_later = cut(whole.clone(), whole.len() - 1);
        let other_magic = written_over(whole.clone(), 0, &[0; 4]);
        for (octets, at) in [
            (capture(order, &[]), FILE_HEADER),
            (capture(order, &[]), 0),
            (torn_at_once.clone(), FILE_HEADER),
            (torn_at_once, 0),
            // Here the first record's calls come before the end, and get 1.
            (torn_later.clone(), FILE_HEADER),
            (torn_later.clone(), torn_later.len()),
            (torn_later.clone(), torn_later.len() - 3),
            (other_magic.clone(), 0),
            (other_magic.clone(), FILE_HEADER - 1),
            (other_magic, FILE_HEADER + 50),
            (vec![], 0),
            (vec![], 1),
            (cut(whole.clone(), 10), 5),
        ] {
            self.file(octets).spoil = at as u64;
            self.file_over(whole.clone());
        }
        let case = self.file(whole.clone());
        (case.port, case.spoil) = (PORTS, FILE_HEADER as u64);
        self.file_over(whole);
    }

    /// The next call gets 1, also where it would be one with 0 seconds, or without a frame (C4, C5).
    /// At the last octet of the record its calls are made already.
    fn writes_before_each_kind_of_record(&mut self) {
        let first = Record::whole(10, heard(1, 60));
        let last = Record::whole(20, heard(2, 60));
        for second in [
            Record::whole(10, heard(1, 60)),
            Record::skipped(10, vec![7; 30]),
            Record::whole(70, vec![]),
            Record::skipped(70, vec![]),
            Record::whole(70, vec![7; 1_515]),
            Record::skipped(70, vec![7; 1_515]),
            Record::whole(70, heard(1, 60)[..13].to_vec()),
        ] {
            let records = [first.clone(), second, last.clone()];
            let edges = edges(&records);
            for at in [edges[2], edges[3] - 1, edges[3], edges[4] - 1, edges[4]] {
                self.records(&records).spoil = at as u64;
            }
        }
    }

    /// The case before left a table that is not fit: 1, whatever else would be due (C8).
    fn unfit_at_the_beginning(&mut self) {
        let order = self.order;
        let whole = small(order);
        self.file(whole.clone()).spoil = whole.len() as u64;
        self.file_over(whole.clone());
        self.file_over(whole.clone()).port = PORTS;
        self.file_over(whole.clone()).limit = 0;
        self.file_over(written_over(whole.clone(), 0, &[0; 4]));
        self.file_over(written_over(whole.clone(), 0, &[0; 4])).port = usize::MAX;
        self.file_over(cut(whole.clone(), 23));
        self.file_over(vec![]);
        self.file_over(vec![]).port = PORTS;
        self.file_over(cut(whole.clone(), 60));
        self.file_over(capture(order, &[]));
        self.file_over(whole.clone()).spoil = 30;
        // Start mends it (N6).
        self.file(whole);
    }

    /// 2 before 11 and 12, and 11 before 12; a limit of 0 spares none of 2 and 11 (C8).
    fn the_order_of_refusals(&mut self) {
        let order = self.order;
        let whole = small(order);
        let torn = cut(whole.clone(), 60);
        let other_magic = written_over(torn.clone(), 0, &[0; 4]);
        let other_link = written_over(torn.clone(), LINK_TYPE, &order.number(2));
        let short = cut(whole.clone(), 23);
        for port in [PORT, PORTS] {
            for limit in [0, ALL] {
                for octets in [&whole, &torn, &other_magic, &other_link, &short, &vec![]] {
                    let case = self.file(octets.clone());
                    (case.port, case.limit) = (port, limit);
                }
            }
        }
    }

    /// A record buffer of another length gives 1 and touches nothing; it is not lent where there is no
    /// octet (C9). The table is then as it was.
    fn rooms(&mut self) {
        let whole = small(self.order);
        for room in WRONG_ROOMS {
            self.file(whole.clone()).room = room;
            self.file(vec![]).room = room;
            self.file(cut(whole.clone(), 1)).room = room;
            let case = self.file(whole.clone());
            (case.room, case.spoil) = (room, FILE_HEADER as u64);
            self.file(whole.clone());
            let case = self.records_over(&[Record::whole(0, heard(3, 90))]);
            (case.room, case.port) = (room, LAST_PORT);
            self.records_over(&[Record::whole(0, heard(4, 90))]).port = LAST_PORT;
        }
    }

    /// Before 2, 11 and 12, and where the limit is 0.
    fn rooms_come_first(&mut self) {
        let whole = small(self.order);
        for room in [24, ROOM + 1] {
            for octets in [&whole, &vec![]] {
                let case = self.file(octets.clone());
                (case.room, case.port) = (room, PORTS);
                let case = self.file(octets.clone());
                (case.room, case.limit) = (room, 0);
                let case = self.file(octets.clone());
                (case.room, case.spoil) = (room, 0);
                self.file_over(octets.clone()).room = room;
            }
            self.file(written_over(whole.clone(), 0, &[0; 4])).room = room;
            self.file(cut(whole.clone(), 60)).room = room;
        }
    }

    /// A second capture on another port, on the same one, and once more.
    fn two_captures(&mut self) {
        let order = self.order;
        for [first, second] in [[3, 4], [0, LAST_PORT], [3, 3], [LAST_PORT, 0]] {
            self.file(small(order)).port = first;
            let records = [
                Record::whole(5, heard(2, 90)),
                Record::skipped(7, vec![1; 20]),
                Record::whole(8, heard(6, 7)),
            ];
            self.records_over(&records).port = second;
            let case = self.file_over(small(order));
            (case.port, case.limit) = (second, 1);
            // All of them go: time passes on every port.
            let late = [Record::whole(0, heard(1, 2)), Record::skipped(65_535, vec![])];
            self.records_over(&late).port = first;
        }
    }

    /// The calls that were made before a 12 stand, and 2 and 11 change nothing (C7, C8).
    fn over_refused_captures(&mut self) {
        let order = self.order;
        let whole = small(order);
        self.file(cut(whole.clone(), whole.len() - 1));
        self.records_over(&[Record::whole(0, heard(7, 50))]);
        self.file_over(whole.clone()).port = PORTS;
        self.file_over(written_over(whole.clone(), 2, &[0]));
        self.file_over(cut(whole.clone(), 12));
        self.file_over(cut(whole, 100));
        self.records_over(&[Record::whole(0, heard(8, 50)), Record::whole(9, heard(7, 0))]);
    }
}
