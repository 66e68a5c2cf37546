//! Which jobs of a day are admitted, as points to be reached: the limit and what the
//! jobs declare decide it alone.

/// What a job's admission hangs on.
#[derive(Clone, Copy, Debug, PartialEq, Eq)]
pub struct Declared {
    pub caller: u8,
    pub steps: u16,
}

#[derive(Clone, Copy, Debug, PartialEq, Eq, PartialOrd, Ord)]
pub enum Admission {
    /// A job took all that its caller's earlier jobs had left.
    UsedUp,
    /// A job was admitted that would have been skipped if all callers had one allowance.
    NotCommon,
    /// So it was if the limit were divided by the callers of the day.
    NotDivided,
    /// A job was admitted behind a skipped one of its caller.
    BehindOwn,
    /// So it was behind a skipped one of another caller.
    BehindOther,
    /// A job was skipped that is above the limit by itself.
    AboveLimit,
    /// A job was skipped for want of one step, behind an admitted one of its caller.
    OneShort,
    /// A job was skipped behind a skipped one of its caller.
    SkippedAgain,
    /// A job was skipped while another caller of the day had the steps for it.
    NotBorrowed,
    /// A job was skipped that would have been admitted if another caller's job, which
    /// came between, had given its caller the whole limit back.
    NotRefilled,
}

/// Every point there is.
pub fn all_points() -> [Admission; 10] {
    use Admission::*;
    [
        UsedUp,
        NotCommon,
        NotDivided,
        BehindOwn,
        BehindOther,
        AboveLimit,
        OneShort,
        SkippedAgain,
        NotBorrowed,
        NotRefilled,
    ]
}

/// Whether each job is admitted, as the papers have it: a job is skipped if and only if
/// its declared steps exceed the limit less those of the same caller's earlier admitted
/// jobs.
pub fn admitted(limit: u32, jobs: &[Declared]) -> Vec<bool> {
    let mut admitted = Vec::new();
    for job in jobs {
        let left = left(limit, jobs, &admitted, job.caller);
        admitted.push(u32::from(job.steps) <= left);
    }
    admitted
}

/// What a caller has left behind the first so many jobs, of which it is known whether
/// they were admitted.
fn left(limit: u32, jobs: &[Declared], admitted: &[bool], caller: u8) -> u32 {
    let charged = jobs.iter().zip(admitted).filter(|(job, &admitted)| admitted && job.caller == caller);
    limit - charged.map(|(job, _)| u32::from(job.steps)).sum::<u32>()
}

/// The points that a day reaches.
pub fn reached(limit: u32, jobs: &[Declared]) -> Vec<Admission> {
    let mut callers: Vec<u8> = jobs.iter().map(|job| job.caller).collect();
    let one_caller: Vec<Declared> = jobs.iter().map(|job| Declared { caller: 0, ..*job }).collect();
    callers.sort_unstable();
    callers.dedup();
    let day = AdmittedDay {
        limit,
        jobs,
        admitted: admitted(limit, jobs),
        common: admitted(limit, &one_caller),
        divided: admitted(limit / callers.len().max(1) as u32, jobs),
        callers,
    };
    (0..jobs.len())
        .flat_map(|at| if day.admitted[at] { day.by_admitted(at) } else { day.by_skipped(at) })
        .collect()
}

struct AdmittedDay<'a> {
    limit: u32,
    jobs: &'a [Declared],
    admitted: Vec<bool>,
    /// Whether each job would be admitted if all callers had one allowance, or if the
    /// limit were divided.
    common: Vec<bool>,
    divided: Vec<bool>,
    callers: Vec<u8>,
}

impl AdmittedDay<'_> {
    /// What a caller has left as the job at `at` comes.
    fn left(&self, at: usize, caller: u8) -> u32 {
        left(self.limit, self.jobs, &self.admitted[..at], caller)
    }

    /// Whether there is such an earlier job: of the same caller or not, admitted or not.
    fn earlier(&self, at: usize, same: bool, admitted: bool) -> bool {
        let caller = self.jobs[at].caller;
        let mut earlier = self.jobs[..at].iter().zip(&self.admitted);
        earlier.any(|(job, &was)| (job.caller == caller) == same && was == admitted)
    }

    /// Whether another caller's job is behind the last one of this caller.
    fn comes_again(&self, at: usize) -> bool {
        let caller = self.jobs[at].caller;
        self.jobs[..at].last().is_some_and(|job| job.caller != caller)
            && self.jobs[..at].iter().any(|job| job.caller == caller)
    }

    fn by_admitted(&self, at: usize) -> Vec<Admission> {
        let Declared { caller, steps } = self.jobs[at];
        let used_up = u32::from(steps) == self.left(at, caller) && self.earlier(at, true, true);
        let points = [
            (used_up, Admission::UsedUp),
            (!self.common[at], Admission::NotCommon),
            (!self.divided[at], Admission::NotDivided),
            (self.earlier(at, true, false), Admission::BehindOwn),
            (self.earlier(at, false, false), Admission::BehindOther),
        ];
        those_of(points)
    }

    fn by_skipped(&self, at: usize) -> Vec<Admission> {
        let Declared { caller, steps } = self.jobs[at];
        let steps = u32::from(steps);
        let another_has = |&other: &u8| other != caller && steps <= self.left(at, other);
        let one_short = steps - self.left(at, caller) == 1 && self.earlier(at, true, true);
        let points = [
            (steps > self.limit, Admission::AboveLimit),
            (one_short, Admission::OneShort),
            (self.earlier(at, true, false), Admission::SkippedAgain),
            (self.callers.iter().any(another_has), Admission::NotBorrowed),
            (steps <= self.limit && self.comes_again(at), Admission::NotRefilled),
        ];
        those_of(points)
    }
}

fn those_of(points: impl IntoIterator<Item = (bool, Admission)>) -> Vec<Admission> {
    points.into_iter().filter_map(|(reached, point)| reached.then_some(point)).collect()
}
