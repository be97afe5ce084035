//! The share of a processor that lldpa-live may use besides answering clients. In each period it
//! has a quota of processor time. Once that is used up, no frames are read until the next period.
//! All time of the process counts, wherever the program or the kernel spends it.

use crate::time::Moment;
use std::time::Duration;

/// So long that the times at which a neighbor speaks, each second or each 5, 10, 30 or 60 seconds,
/// fall into different parts of the period. So if a flood leaves more than half of each period for
/// reading, a neighbor is heard within three frames.
const PERIOD: Duration = Duration::from_millis(604);
/// Three tenths of the period. With what answers cost, which is left out, it stays below a third.
const QUOTA: Duration = Duration::from_millis(180);
/// How much time frames may borrow while a question waits for them.
const MOST_BORROWED: Duration = Duration::from_millis(50);
/// The most time that is owed to the next period: frames are read in each period, whatever else the
/// process does.
const MOST_OWED: Duration = Duration::from_millis(120);

pub struct Share {
    /// When the present period began.
    period: Moment,
    /// The processor time that was used of its quota, and perhaps of the next one's.
    used: Duration,
    /// The processor time of the process in its life when it was last counted.
    counted: Duration,
}

impl Share {
    /// Begins to count. `total` is the processor time of the process in its life.
    pub fn new(total: Duration) -> Share {
        Share { period: Moment::default(), used: Duration::ZERO, counted: total }
    }

    /// Counts the processor time that the process has used since the last call.
    pub fn count(&mut self, total: Duration, now: Moment) {
        let period = now.begin_of(PERIOD);
        if period.since(self.period) > PERIOD {
            self.used = Duration::ZERO;
        } else if period > self.period {
            self.used = self.used.saturating_sub(QUOTA);
        }
        self.period = period;
        self.used = (self.used + total.saturating_sub(self.counted)).min(QUOTA + MOST_OWED);
        self.counted = total;
    }

    /// Leaves out the processor time since the last call of `count`, which clients' questions have cost. `total` is
    /// that of the process in its life.
    pub fn leave_out(&mut self, total: Duration) {
        self.counted = self.counted.max(total);
    }

    /// Returns when frames may be read again; a moment that has passed if at once. They may borrow
    /// if a question waits for them.
    pub fn rests_until(&self, now: Moment, is_question: bool) -> Moment {
        let borrowed = if is_question { MOST_BORROWED } else { Duration::ZERO };
        if self.used < QUOTA + borrowed {
            return now;
        }
        self.period + PERIOD
    }
}

#[cfg(test)]
mod tests {
    use super::*;

    const MILLISECOND: Duration = Duration::from_millis(1);
    const SPAN: Duration = Duration::from_secs(20);

    fn begin() -> Moment {
        Moment::after_boot(10_000 * PERIOD)
    }

    /// A process that reads frames as soon as it may. A turn with frames costs 7 milliseconds of
    /// processor time, and each turn costs so much more around its reading.
    struct Process {
        share: Share,
        now: Moment,
        used: Duration,
        answers: Duration,
        around: Duration,
    }

    impl Process {
        fn work(&mut self, cost: Duration) {
            self.now = self.now + cost;
            self.used += cost;
        }

        fn turn(&mut self, is_question: bool) {
            let rests_until = self.share.rests_until(self.now, is_question);
            if is_question && rests_until > self.now {
                self.now = self.now + MILLISECOND; // it is answered without these frames
            } else {
                self.now = rests_until.max(self.now);
                self.work(7 * MILLISECOND);
            }
            self.work(self.around);
            self.share.count(self.used, self.now);
        }

        fn answer(&mut self, cost: Duration) {
            self.work(cost);
            self.answers += cost;
            self.share.leave_out(self.used);
        }
    }

    fn process(around: Duration) -> Process {
        let none = Duration::ZERO;
        Process { share: Share::new(none), now: begin(), used: none, answers: none, around }
    }

    #[test]
    fn all_time_of_the_process_counts_but_answers() {
        // what a turn costs besides its frames, how often questions come, and what an answer costs
        for (around, between, cost) in [(0, 0, 0), (3, 0, 0), (30, 0, 0), (0, 3, 2), (3, 2, 9), (0, 1, 1)] {
            let mut process = process(around * MILLISECOND);
            for turn in 1.. {
                let is_question = between > 0 && turn % between == 0;
                process.turn(is_question);
                if is_question {
                    process.answer(cost * MILLISECOND);
                }
                if process.now.since(begin()) >= SPAN {
                    break;
                }
            }
            let others = process.used - process.answers;
            let most = 34 * QUOTA + 2 * QUOTA; // 34 periods began in this time
            assert!(others <= most, "{around} {between} {cost}: {others:?}");
            assert!(34 * QUOTA < SPAN * 30 / 100 + QUOTA);
            if between == 0 {
                assert!(others >= most - 5 * QUOTA, "{around}: {others:?} of {most:?}");
            }
        }
    }

    /// Returns the milliseconds in which frames are read, if reading all of a flood needs so many
    /// hundredths of a processor.
    fn read_in(hundredths: u32, milliseconds: u32) -> Vec<bool> {
        let (mut share, mut used) = (Share::new(Duration::ZERO), Duration::ZERO);
        let step = |millisecond: u32| {
            let now = begin() + millisecond * MILLISECOND;
            let is_read = share.rests_until(now, false) <= now;
            used += if is_read { hundredths * MILLISECOND / 100 } else { Duration::ZERO };
            share.count(used, now + MILLISECOND);
            is_read
        };
        (0..milliseconds).map(step).collect()
    }

    #[test]
    fn a_neighbor_is_heard_within_three_frames() {
        for hundredths in [20, 30, 40, 50, 55] {
            let is_read = read_in(hundredths, 400_000);
            for seconds in [1, 5, 10, 30, 60] {
                for begin in 0..200_000 {
                    let mut frames = [0, 1, 2].iter().map(|number| begin + number * seconds * 1000);
                    assert!(frames.any(|frame| is_read[frame]), "{hundredths}, {seconds} from {begin}");
                }
            }
        }
    }

    #[test]
    fn frames_are_read_in_each_period_whatever_else_is_done() {
        let mut share = Share::new(Duration::ZERO);
        let mut used = Duration::from_secs(3600);
        share.count(used, begin());
        for is_question in [false, true] {
            assert_eq!(share.rests_until(begin(), is_question), begin() + PERIOD);
        }
        used += QUOTA - MOST_OWED - MILLISECOND;
        share.count(used, begin() + PERIOD);
        assert_eq!(share.rests_until(begin(), false), begin());
        share.count(used + MILLISECOND, begin() + PERIOD);
        assert_eq!(share.rests_until(begin(), false), begin() + 2 * PERIOD);
    }

    #[test]
    fn what_was_not_used_is_not_saved_up() {
        let (mut share, before) = (Share::new(SPAN), SPAN + QUOTA - MILLISECOND);
        share.count(SPAN, begin());
        share.count(before, begin());
        assert_eq!(share.rests_until(begin(), false), begin());
        share.count(before + MILLISECOND, begin());
        assert_eq!(share.rests_until(begin(), false), begin() + PERIOD);
        assert_eq!(share.rests_until(begin(), true), begin());
        share.count(before + MILLISECOND, begin() + 100 * PERIOD);
        assert_eq!(share.rests_until(begin(), false), begin());
    }
}
