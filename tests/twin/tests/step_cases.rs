//! One step: cases (a) to (g) of document 01 on the twin, and the program `step_cases`, whose output the gate compares with `crates/step_cases/stdout`. That
//! file has what the twin's step gives; and no step with another order of the updates, one update fewer, or one place of an update or a formula moved gives it.

use haul_tape_twin::cipher::State;

type Bits = [bool; 293];

/// Both values of a control bit, where a case leaves it open.
const OPEN: &[bool] = &[false, true];

/// A case as document 01 names it: the place that holds 1, if any, the bits given, and what comes of the step.
struct Named {
    name: &'static str,
    place: &'static [usize],
    m: bool,
    ca: &'static [bool],
    cb: &'static [bool],
    /// The keystream bit, where the case names it.
    ks: Option<bool>,
    /// Bits after the step.
    after: &'static [(usize, bool)],
}

#[rustfmt::skip]
const A_TO_G: [Named; 7] = [
    Named { name: "(a)", place: &[], m: false, ca: &[true], cb: &[true], ks: Some(false), after: &[(292, true)] },
    Named { name: "(b)", place: &[], m: true, ca: OPEN, cb: OPEN, ks: None, after: &[(292, false)] },
    Named { name: "(c)", place: &[0], m: false, ca: OPEN, cb: OPEN, ks: Some(false), after: &[(292, false), (60, true)] },
    Named { name: "(d)", place: &[66], m: false, ca: OPEN, cb: &[true], ks: Some(true), after: &[(292, true), (106, true)] },
    Named { name: "(e)", place: &[66], m: false, ca: OPEN, cb: &[false], ks: None, after: &[(292, false)] },
    Named { name: "(f)", place: &[196], m: false, ca: &[true], cb: OPEN, ks: None, after: &[(292, false)] },
    Named { name: "(g)", place: &[196], m: false, ca: &[false], cb: OPEN, ks: None, after: &[(292, true)] },
];

/// One step from a state of zeros but for the places named, with its control bits.
struct Case {
    name: &'static str,
    places: Vec<usize>,
    m: bool,
    ca: bool,
    cb: bool,
}

impl Case {
    fn before(&self) -> Bits {
        let mut bits = [false; 293];
        for &place in &self.places {
            bits[place] = true;
        }
        bits
    }

    /// ks, and the state after the twin's step.
    fn taken(&self) -> (bool, Bits) {
        let mut state = State::from_bits(self.before());
        let ks = state.step(|_| self.m, self.ca, self.cb);
        assert_eq!(state.steps(), 1);
        (ks, state.bits())
    }
}

/// A case with each of the control bits.
fn runs(name: &'static str, places: &[usize], m: bool, cas: &[bool], cbs: &[bool]) -> Vec<Case> {
    let mut all = Vec::new();
    for &ca in cas {
        for &cb in cbs {
            let places = places.to_vec();
            all.push(Case {
                name,
                places,
                m,
                ca,
                cb,
            });
        }
    }
    all
}

#[test]
fn cases_a_to_g() {
    for named in A_TO_G {
        for case in runs(named.name, named.place, named.m, named.ca, named.cb) {
            let (ks, after) = case.taken();
            assert_eq!(ks, named.ks.unwrap_or(ks), "{}, ks", named.name);
            for &(place, bit) in named.after {
                assert_eq!(after[place], bit, "{}, S{place}", named.name);
            }
        }
    }
}

/// What the program runs, in its order.
fn cases() -> Vec<Case> {
    let mut cases = Vec::new();
    for named in A_TO_G {
        cases.extend(runs(named.name, named.place, named.m, named.ca, named.cb));
    }
    for place in [
        292, 289, 244, 235, 230, 196, 193, 160, 154, 111, 107, 66, 61, 23, 12, 0,
    ] {
        cases.extend(runs("alone", &[place], false, OPEN, OPEN));
    }
    cases.extend(runs("alone", &[0], true, OPEN, OPEN));
    let mut together =
        |places: &[usize]| cases.extend(runs("together", places, false, &[false], &[false]));
    for places in [
        [289, 235],
        [230, 196],
        [193, 160],
        [154, 111],
        [107, 66],
        [61, 23],
    ] {
        together(&places);
    }
    for [x, y, z] in [[235, 61, 193], [230, 111, 66], [244, 23, 160]] {
        together(&[x, y]);
        together(&[x, z]);
        together(&[y, z]);
        together(&[x, y, z]);
    }
    for places in [[289, 61], [289, 111], [230, 154], [244, 61], [244, 193]] {
        together(&places);
    }
    cases
}

/// The places that hold 1, by name.
fn ones(bits: Bits) -> String {
    let names: Vec<String> = (0..293)
        .filter(|&place| bits[place])
        .map(|place| format!("S{place}"))
        .collect();
    if names.is_empty() {
        "none".to_string()
    } else {
        names.join(" ")
    }
}

#[test]
fn as_the_program_prints_them() {
    let mut text = "One step from each state; a place that is not named holds 0.\n".to_string();
    for case in cases() {
        let (ks, after) = case.taken();
        let [m, ca, cb, ks] = [case.m, case.ca, case.cb, ks].map(u8::from);
        let (before, after) = (ones(case.before()), ones(after));
        text += &format!(
            "{} before {before}, m {m}, ca {ca}, cb {cb}: ks {ks}, after {after}\n",
            case.name
        );
    }
    assert_eq!(include_str!("../../../crates/step_cases/stdout"), text);
}

/// A step of document 01's shape. Of an update: the place written, and the three that are read.
#[derive(Clone)]
struct Step {
    updates: Vec<[usize; 4]>,
    ks: [usize; 8],
    f: [usize; 6],
}

impl Step {
    fn right() -> Step {
        let updates = [
            [289, 235, 230],
            [230, 196, 193],
            [193, 160, 154],
            [154, 111, 107],
            [107, 66, 61],
            [61, 23, 0],
        ];
        Step {
            updates: updates.map(|[p, a, b]| [p, p, a, b]).to_vec(),
            ks: [12, 154, 235, 61, 193, 230, 111, 66],
            f: [0, 107, 244, 23, 160, 196],
        }
    }

    /// ks, and the state after the step.
    fn taken(&self, case: &Case) -> (bool, Bits) {
        let maj = |x, y, z| (x & y) ^ (x & z) ^ (y & z);
        let ch = |x: bool, y, z| (x & y) ^ (!x & z);
        let mut s = case.before();
        for &[written, p, a, b] in &self.updates {
            s[written] = s[p] ^ s[a] ^ s[b];
        }
        let [k0, k1, x, y, z, u, v, w] = self.ks.map(|place| s[place]);
        let ks = k0 ^ k1 ^ maj(x, y, z) ^ ch(u, v, w);
        let [f0, f1, x, y, z, with_ca] = self.f.map(|place| s[place]);
        let f = f0 ^ !f1 ^ maj(x, y, z) ^ (case.ca & with_ca) ^ (case.cb & ks);
        s.copy_within(1.., 0);
        s[292] = f ^ case.m;
        (ks, s)
    }

    /// The places of its updates and formulas.
    fn places(&mut self) -> Vec<&mut usize> {
        let updates = self.updates.iter_mut().flatten();
        updates.chain(&mut self.ks).chain(&mut self.f).collect()
    }
}

/// The orders of the numbers below n.
fn orders(n: usize) -> Vec<Vec<usize>> {
    if n == 0 {
        return vec![vec![]];
    }
    let mut all = Vec::new();
    for order in orders(n - 1) {
        for at in 0..n {
            let mut longer = order.clone();
            longer.insert(at, n - 1);
            all.push(longer);
        }
    }
    all
}

#[test]
fn no_other_step_prints_the_same() {
    let cases = cases();
    let right = Step::right();
    for case in &cases {
        assert_eq!(right.taken(case), case.taken());
    }
    let same = |step: &Step| {
        cases
            .iter()
            .all(|case| step.taken(case) == right.taken(case))
    };

    let orders = orders(6);
    assert_eq!(orders.len(), 720);
    for order in orders {
        let mut step = right.clone();
        step.updates = order.iter().map(|&at| right.updates[at]).collect();
        assert_eq!(
            same(&step),
            order.is_sorted(),
            "the updates in the order {order:?}"
        );
    }
    for at in 0..6 {
        let mut step = right.clone();
        step.updates.remove(at);
        assert!(!same(&step), "without update {at}");
    }
    let places = right.clone().places().len();
    assert_eq!(places, 38);
    for at in 0..places {
        for place in 0..293 {
            let mut step = right.clone();
            let moved = std::mem::replace(step.places()[at], place);
            assert_eq!(
                same(&step),
                moved == place,
                "place {at}, S{moved}, moved to S{place}"
            );
        }
    }
}
