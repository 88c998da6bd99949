//! ACORN-128 version 3 by document 003's own numbering, with its own names.
//!
//! Steps are numbered from -1792. Each section of 1.3 first gives m, ca and cb their values over a
//! range of numbers and then runs that range; so does each function here. It shares no code with
//! the stretches of the parent module.

/// S_i: the state at one step number.
type S = [bool; 293];

/// Section 1.2.3.
fn maj(x: bool, y: bool, z: bool) -> bool {
    (x & y) ^ (x & z) ^ (y & z)
}

/// Section 1.2.3.
fn ch(x: bool, y: bool, z: bool) -> bool {
    (x & y) ^ ((!x) & z)
}

/// KSG128, section 1.3.2. The state is the one after the six registers were updated.
fn ksg128(s: &S) -> bool {
    s[12] ^ s[154] ^ maj(s[235], s[61], s[193]) ^ ch(s[230], s[111], s[66])
}

/// FBK128, section 1.3.2, on the same updated state.
fn fbk128(s: &S, ca: bool, cb: bool) -> bool {
    let ks = ksg128(s);
    s[0] ^ (!s[107]) ^ maj(s[244], s[23], s[160]) ^ (ca & s[196]) ^ (cb & ks)
}

/// StateUpdate128, section 1.3.2. Answers the next state and this step's keystream bit.
fn state_update128(mut s: S, m: bool, ca: bool, cb: bool) -> (S, bool) {
    // Step 1.
    s[289] = s[289] ^ s[235] ^ s[230];
    s[230] = s[230] ^ s[196] ^ s[193];
    s[193] = s[193] ^ s[160] ^ s[154];
    s[154] = s[154] ^ s[111] ^ s[107];
    s[107] = s[107] ^ s[66] ^ s[61];
    s[61] = s[61] ^ s[23] ^ s[0];

    // Step 2.
    let ks = ksg128(&s);

    // Step 3.
    let f = fbk128(&s, ca, cb);

    // Step 4.
    let mut next = [false; 293];
    next[..=291].copy_from_slice(&s[1..=292]);
    next[292] = f ^ m;
    (next, ks)
}

/// The number of the first step.
const FIRST: i64 = -1792;

/// A row of bits numbered from -1792. Each is to be set once, and before it is read; a gap or an
/// overlap in the paper's ranges would stop the program.
struct Row(Vec<Option<bool>>);

impl Row {
    fn up_to(last: i64) -> Row {
        Row(vec![None; (last - FIRST + 1) as usize])
    }

    fn set(&mut self, i: i64, bit: bool) {
        let place = &mut self.0[(i - FIRST) as usize];
        assert!(place.is_none(), "number {i} is set twice");
        *place = Some(bit);
    }

    fn get(&self, i: i64) -> bool {
        self.0[(i - FIRST) as usize].expect("every number is set before it is read")
    }
}

/// Bit i of a byte string. The paper does not number the bits of a byte; document 01, "Bits of a
/// byte", does.
fn bit(bytes: &[u8], i: i64) -> bool {
    let (k, j) = (i / 8, i % 8);
    bytes[k as usize] & (1 << j) != 0
}

/// The inputs, the rows m, ca, cb and ks, and the state of the step reached.
struct Paper<'a> {
    k128: &'a [u8; 16],
    iv128: &'a [u8; 16],
    ad: &'a [u8],
    p: &'a [u8],
    adlen: i64,
    pclen: i64,
    t: i64,
    m: Row,
    ca: Row,
    cb: Row,
    ks: Row,
    s: S,
}

impl Paper<'_> {
    /// The line that each section ends with: StateUpdate128 for i = from to to.
    fn run(&mut self, from: i64, to: i64) {
        for i in from..=to {
            let (next, ks) = state_update128(self.s, self.m.get(i), self.ca.get(i), self.cb.get(i));
            self.ks.set(i, ks);
            self.s = next;
        }
    }

    /// Section 1.3.3.
    fn initialization(&mut self) {
        // 1.
        self.s = [false; 293];
        // 2.
        for i in 0..=127 {
            self.m.set(-1792 + i, bit(self.k128, i));
        }
        for i in 0..=127 {
            self.m.set(-1792 + 128 + i, bit(self.iv128, i));
        }
        self.m.set(-1792 + 256, !bit(self.k128, 0));
        for i in 1..=1535 {
            self.m.set(-1792 + 256 + i, bit(self.k128, i % 128));
        }
        // 3.
        for i in 0..=1791 {
            self.ca.set(-1792 + i, true);
        }
        for i in 0..=1791 {
            self.cb.set(-1792 + i, true);
        }
        // 4.
        self.run(-1792, -1);
    }

    /// Section 1.3.4.
    fn processing_the_associated_data(&mut self) {
        let adlen = self.adlen;
        // 1.
        for i in 0..=adlen - 1 {
            self.m.set(i, bit(self.ad, i));
        }
        self.m.set(adlen, true);
        for i in 1..=255 {
            self.m.set(adlen + i, false);
        }
        // 2.
        for i in 0..=adlen + 127 {
            self.ca.set(i, true);
        }
        for i in adlen + 128..=adlen + 255 {
            self.ca.set(i, false);
        }
        for i in 0..=adlen + 255 {
            self.cb.set(i, true);
        }
        // 3.
        self.run(0, adlen + 255);
    }

    /// Section 1.3.5. Answers the ciphertext.
    fn encryption(&mut self) -> Vec<u8> {
        let (adlen, pclen) = (self.adlen, self.pclen);
        // 1.
        for i in 0..=pclen - 1 {
            self.m.set(adlen + 256 + i, bit(self.p, i));
        }
        self.m.set(adlen + 256 + pclen, true);
        for i in 1..=255 {
            self.m.set(adlen + 256 + pclen + i, false);
        }
        // 2.
        for i in adlen + 256..=adlen + pclen + 383 {
            self.ca.set(i, true);
        }
        for i in adlen + pclen + 384..=adlen + pclen + 511 {
            self.ca.set(i, false);
        }
        for i in adlen + 256..=adlen + pclen + 511 {
            self.cb.set(i, false);
        }
        // 3.
        self.run(adlen + 256, adlen + pclen + 511);
        let mut c = vec![0; self.p.len()];
        for i in 0..=pclen - 1 {
            if bit(self.p, i) ^ self.ks.get(adlen + 256 + i) {
                c[(i / 8) as usize] |= 1 << (i % 8);
            }
        }
        c
    }

    /// Section 1.3.6. Answers the tag T, the last t keystream bits.
    fn finalization(&mut self) -> Vec<u8> {
        let (adlen, pclen, t) = (self.adlen, self.pclen, self.t);
        // 1.
        for i in 0..=767 {
            self.m.set(adlen + pclen + 512 + i, false);
        }
        // 2.
        for i in adlen + pclen + 512..=adlen + pclen + 1279 {
            self.ca.set(i, true);
        }
        for i in adlen + pclen + 512..=adlen + pclen + 1279 {
            self.cb.set(i, true);
        }
        // 3.
        self.run(adlen + pclen + 512, adlen + pclen + 1279);
        let mut tag = vec![0; (t / 8) as usize];
        for i in 0..=t - 1 {
            if self.ks.get(adlen + pclen + 1279 - t + 1 + i) {
                tag[(i / 8) as usize] |= 1 << (i % 8);
            }
        }
        tag
    }
}

/// Seals a message by document 003, sections 1.3.3 to 1.3.6, with a tag of so many whole bytes.
/// Answers ciphertext and tag.
pub fn paper_seal(
    key: &[u8; 16],
    nonce: &[u8; 16],
    data: &[u8],
    text: &[u8],
    tag_bytes: usize,
) -> (Vec<u8>, Vec<u8>) {
    let adlen = 8 * data.len() as i64;
    let pclen = 8 * text.len() as i64;
    let last = adlen + pclen + 1279;
    let mut paper = Paper {
        k128: key,
        iv128: nonce,
        ad: data,
        p: text,
        adlen,
        pclen,
        t: 8 * tag_bytes as i64,
        m: Row::up_to(last),
        ca: Row::up_to(last),
        cb: Row::up_to(last),
        ks: Row::up_to(last),
        s: [false; 293],
    };
    paper.initialization();
    paper.processing_the_associated_data();
    let c = paper.encryption();
    let tag = paper.finalization();
    (c, tag)
}
