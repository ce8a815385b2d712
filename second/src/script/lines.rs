//! The lines that change the entries of a slice, in as few bytes as `put` and `fill` allow.

/// The lines that turn the entries from `have` into `want`, place by place.
pub fn edits(name: &str, have: &[u32], want: &[u32]) -> String {
    let differs = |place: &usize| have[*place] != want[*place];
    let Some(last) = (0..want.len()).rfind(differs) else {
        return String::new();
    };
    let plan = Plan::new(name, &have[..=last], &want[..=last]);
    let mut text = String::new();
    let mut place = 0;
    while place <= last {
        let (line, next) = plan.line_at(place);
        text += &line;
        place = next;
    }
    text
}

/// For each place, the bytes of the lines that it and all later places need.
struct Plan<'a> {
    name: &'a str,
    have: &'a [u32],
    want: &'a [u32],
    /// Where no line has begun before the place.
    outside: Vec<usize>,
    /// Where a `put` reaches up to the place and can go on.
    within: Vec<usize>,
    /// Where the run of equal numbers to be had, from the place on, ends.
    run_ends: Vec<usize>,
}

impl<'a> Plan<'a> {
    fn new(name: &'a str, have: &'a [u32], want: &'a [u32]) -> Plan<'a> {
        let count = want.len();
        let (outside, within) = (vec![0; count + 1], vec![0; count + 1]);
        let mut plan = Plan { name, have, want, outside, within, run_ends: vec![count; count] };
        for place in (0..count).rev() {
            if place + 1 < count {
                let goes_on = want[place] == want[place + 1];
                plan.run_ends[place] = if goes_on { plan.run_ends[place + 1] } else { place + 1 };
            }
            let by_line = plan.by_put(place).min(plan.by_fill(place));
            plan.outside[place] = plan.by_leaving(place).map_or(by_line, |left| left.min(by_line));
            let going_on = field(want[place]) + plan.within[place + 1];
            plan.within[place] = plan.outside[place].min(going_on);
        }
        plan
    }

    fn by_leaving(&self, place: usize) -> Option<usize> {
        (self.have[place] == self.want[place]).then(|| self.outside[place + 1])
    }

    fn by_put(&self, place: usize) -> usize {
        let head = "put\t\n".len() + self.name.len() + field(place as u32);
        head + field(self.want[place]) + self.within[place + 1]
    }

    fn by_fill(&self, place: usize) -> usize {
        let end = self.run_ends[place];
        let numbers = [place as u32, (end - place) as u32, self.want[place]];
        let fields: usize = numbers.map(field).iter().sum();
        "fill\t\n".len() + self.name.len() + fields + self.outside[end]
    }

    /// The best line that begins at a place, empty if the place is left, and where to go on.
    fn line_at(&self, place: usize) -> (String, usize) {
        let best = self.outside[place];
        if self.by_leaving(place) == Some(best) {
            return (String::new(), place + 1);
        }
        let name = self.name;
        if self.by_fill(place) == best {
            let (end, number) = (self.run_ends[place], self.want[place]);
            return (format!("fill\t{name}\t{place}\t{}\t{number}\n", end - place), end);
        }
        let is_end = |next: &usize| self.outside[*next] == self.within[*next];
        let end = (place + 1..self.want.len()).find(is_end).unwrap_or(self.want.len());
        let numbers = self.want[place..end].iter().map(|number| format!("\t{number}"));
        (format!("put\t{name}\t{place}{}\n", numbers.collect::<String>()), end)
    }
}

/// The bytes of a number with the tab before it.
fn field(number: u32) -> usize {
    2 + number.checked_ilog10().unwrap_or(0) as usize
}

#[cfg(test)]
mod tests {
    use super::*;

    fn from_zeros(want: &[u32]) -> String {
        edits("masks", &vec![0; want.len()], want)
    }

    #[test]
    fn what_is_equal_needs_no_line() {
        assert_eq!(from_zeros(&[0, 0, 0]), "");
        assert_eq!(edits("masks", &[5, 6], &[5, 6]), "");
        assert_eq!(edits("masks", &[5, 6], &[5]), "");
    }

    #[test]
    fn only_what_differs_is_put() {
        assert_eq!(from_zeros(&[0, 0, 7, 8, 0, 0]), "put\tmasks\t2\t7\t8\n");
    }

    #[test]
    fn a_short_gap_is_put_again_and_a_long_one_is_left() {
        assert_eq!(from_zeros(&[7, 0, 0, 8]), "put\tmasks\t0\t7\t0\t0\t8\n");
        let mut want = [0; 12];
        (want[0], want[11]) = (7, 8);
        assert_eq!(from_zeros(&want), "put\tmasks\t0\t7\nput\tmasks\t11\t8\n");
    }

    #[test]
    fn a_run_of_one_number_is_filled_where_that_is_shorter() {
        assert_eq!(from_zeros(&[7, 7]), "put\tmasks\t0\t7\t7\n");
        assert_eq!(from_zeros(&[7, 7, 7]), "fill\tmasks\t0\t3\t7\n");
        assert_eq!(from_zeros(&[7; 20]), "fill\tmasks\t0\t20\t7\n");
        let want = [vec![1, 2, 3], vec![4_294_967_295; 6], vec![5]].concat();
        let lines = "put\tmasks\t0\t1\t2\t3\nfill\tmasks\t3\t6\t4294967295\nput\tmasks\t9\t5\n";
        assert_eq!(from_zeros(&want), lines);
    }

    /// Carries the lines out on a copy, in the plainest way.
    fn carried_out(lines: &str, have: &[u32]) -> Vec<u32> {
        let mut entries = have.to_vec();
        for line in lines.lines() {
            let fields: Vec<&str> = line.split('\t').collect();
            let numbers: Vec<usize> = fields[2..].iter().map(|f| f.parse().unwrap()).collect();
            match (fields[0], numbers.as_slice()) {
                ("fill", &[place, count, number]) => {
                    entries[place..place + count].fill(number as u32);
                }
                ("put", [place, listed @ ..]) => {
                    let listed = listed.iter().map(|number| *number as u32);
                    entries.splice(*place..place + listed.len(), listed);
                }
                _ => panic!("{line:?}"),
            }
        }
        entries
    }

    /// The bytes of the best lines, by trying every line at every place.
    fn least_bytes(have: &[u32], want: &[u32], place: usize) -> usize {
        if place == want.len() {
            return 0;
        }
        let left = (have[place] == want[place]).then(|| least_bytes(have, want, place + 1));
        let ends = place + 1..=want.len();
        let by_line = ends.map(|end| {
            let numbers = want[place..end].iter().map(|number| format!("\t{number}"));
            let put = format!("put\tmasks\t{place}{}\n", numbers.collect::<String>());
            let one = want[place..end].iter().all(|number| *number == want[place]);
            let fill = format!("fill\tmasks\t{place}\t{}\t{}\n", end - place, want[place]);
            let shorter = if one { put.len().min(fill.len()) } else { put.len() };
            shorter + least_bytes(have, want, end)
        });
        by_line.chain(left).min().unwrap()
    }

    #[test]
    fn the_lines_are_right_and_no_lines_are_shorter() {
        let mut random = crate::random::Random::new(5);
        for _ in 0..200 {
            let count = random.from_to(1, 9);
            let numbers = [0, 1, 1, 4_000_000_000, 70_000];
            let [have, want] =
                [(); 2].map(|()| (0..count).map(|_| random.pick(&numbers)).collect::<Vec<_>>());
            let lines = edits("masks", &have, &want);
            assert_eq!(carried_out(&lines, &have), want, "{lines}");
            assert_eq!(lines.len(), least_bytes(&have, &want, 0), "{have:?} {want:?} {lines}");
        }
    }
}
