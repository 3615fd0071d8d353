//! The check of a file on bytes and of a set, the printing of a term and the counting of strings, made fast: written from
//! documents 01 and 02, with the same answers as `reference`.
//!
//! Every term of a state is a piece of the file's term, so no term is copied in the walk. A piece is a place and an
//! environment, which says for each abstractor of the text around the place which entry of R stands for it. Entries are
//! counted from the outside, so a waiting term needs no lifting. Only compared bodies are written out, by the indices that
//! document 01 gives them; a step then rewrites its body in place.
//!
//! What a state holds moves between R, W, Y and B, and its size changes only where a variable is typed. The scope of R and B
//! never grows either but there, so that after an abstractor only what still waits is tested.

use bijterne::{CountAnswer, SetAnswer, Written};

const MAX_FILE: usize = 65_535;
pub const MAX_TERM: usize = 4096;
const MAX_STATE: usize = 8192;
const MAX_SCOPE: usize = 253;

/// For places within a body.
const MASK: usize = MAX_TERM - 1;
/// Bytes counted at once where a term is long.
const BLOCK: usize = 32;

const APPLICATOR: u8 = 0xfe;
const ABSTRACTOR: u8 = 0xff;

/// The level of a byte that is no variable: above every level.
const NO_LEVEL: u8 = 255;

#[derive(Clone, Copy, PartialEq, Eq, Debug)]
pub struct Answer {
    pub number: u32,
    pub place: usize,
    pub comparisons: usize,
    pub degree: usize,
}

/// What a counting check saw: states of the term's own text (a variable is two, met and typed), of copied text, and steps.
#[derive(Clone, Copy, Default, Debug)]
pub struct Counts {
    pub own: usize,
    pub copied: usize,
    pub steps: usize,
}

#[derive(Clone, Copy)]
struct Refusal {
    number: u32,
    place: usize,
}

fn refuse<T>(number: u32, place: usize) -> Result<T, Refusal> {
    Err(Refusal { number, place })
}

/// What is known of a place of the term's text. A level counts abstractors from the outside, 0 for the outermost.
#[derive(Clone, Copy, Default)]
struct Place {
    byte: u8,
    /// How many abstractors have the place in scope.
    depth: u8,
    /// A variable's abstractor.
    level: u8,
    /// The most abstractors of the term that starts here that any place of it has in scope.
    scope: u8,
    /// Where that term ends.
    end: u16,
    /// Where a variable's abstractor stands.
    binder: u16,
}

/// What is known of all places; the levels once more, to be read in a row.
struct Text {
    places: [Place; MAX_TERM],
    levels: [u8; MAX_TERM],
}

/// ⟨K⟩[U] or [U] in R. A `k` of 0 is none: an applicator stands before every K.
#[derive(Clone, Copy, Default)]
struct Entry {
    u: u16,
    u_env: u16,
    k: u16,
    k_env: u16,
}

/// An environment: the abstractors of the text from `from` on are entries of R, `shift` levels higher; those before it are as
/// in the parent. Environment 0 is that of the term's own text.
#[derive(Clone, Copy, Default)]
struct Env {
    from: u16,
    shift: u16,
    parent: u16,
}

/// A waiting applicator: its place, its environment, the scope of all that waits up to it.
#[derive(Clone, Copy, Default)]
struct Waiting {
    at: u16,
    env: u16,
    scope: u16,
}

/// An item of the term's own text whose inside is being checked, and where the outer W begins.
#[derive(Clone, Copy, Default)]
struct Open {
    at: u16,
    base: u16,
}

/// All buffers of a check. A check reads nothing in them that it has not written.
pub struct Space {
    text: Text,
    open: [Open; MAX_TERM],
    entries: [Entry; MAX_SCOPE + 1],
    /// The size of the entries before each level.
    sizes: [u16; MAX_SCOPE + 2],
    envs: [Env; MAX_SCOPE + 4],
    w: [Waiting; MAX_TERM / 2],
    y: [Waiting; MAX_TERM],
    bodies: [[u8; MAX_TERM]; 2],
    scopes: [u8; MAX_TERM],
}

impl Space {
    /// Cleared buffers.
    #[inline]
    pub fn new() -> Space {
        Space {
            text: Text { places: [Place::default(); MAX_TERM], levels: [0; MAX_TERM] },
            open: [Open::default(); MAX_TERM],
            entries: [Entry::default(); MAX_SCOPE + 1],
            sizes: [0; MAX_SCOPE + 2],
            envs: [Env::default(); MAX_SCOPE + 4],
            w: [Waiting::default(); MAX_TERM / 2],
            y: [Waiting::default(); MAX_TERM],
            bodies: [[0; MAX_TERM]; 2],
            scopes: [0; MAX_TERM],
        }
    }
}

/// Checks a file in buffers cleared for it.
#[inline(never)]
pub fn check(file: &[u8]) -> Answer {
    let mut space = Space::new();
    run::<false>(&mut space, file).0
}

/// Checks a file in buffers that are kept and not cleared.
#[inline(never)]
pub fn check_in(space: &mut Space, file: &[u8]) -> Answer {
    run::<false>(space, file).0
}

/// Checks a file and counts.
pub fn count(file: &[u8]) -> (Answer, Counts) {
    run::<true>(&mut Space::new(), file)
}

fn run<const COUNT: bool>(space: &mut Space, file: &[u8]) -> (Answer, Counts) {
    let mut answer = Answer { number: 0, place: 0, comparisons: 0, degree: 0 };
    let examined = read_fields(file).and_then(|end| {
        let t = &file[3..end];
        Ok((t, end, examine(&mut space.text, &mut space.open, t)?))
    });
    let (t, end, degree) = match examined {
        Ok(examined) => examined,
        Err(Refusal { number, place }) => {
            answer.number = number;
            answer.place = place;
            return (answer, Counts::default());
        }
    };
    measure(&mut space.text.places[..t.len()]);
    let mut walk = Walk::<COUNT> {
        file,
        t,
        text: &space.text,
        entries: &mut space.entries,
        envs: &mut space.envs,
        bodies: &mut space.bodies,
        scopes: &mut space.scopes,
        next: end,
        comparisons: 0,
        counts: Counts::default(),
    };
    walk.envs[0] = Env { from: 0, shift: 0, parent: 0 };
    let ended = walk.own_text(&mut space.open, &mut space.sizes, &mut space.w, &mut space.y);
    answer.degree = degree;
    answer.comparisons = walk.comparisons;
    match ended {
        Err(Refusal { number, place }) => {
            answer.number = number;
            answer.place = place;
        }
        Ok(()) if walk.next < file.len() => {
            answer.number = 13;
            answer.place = walk.next;
        }
        Ok(()) => {}
    }
    (answer, walk.counts)
}

// ---- Conditions 1 to 6.

/// Conditions 4 (of the file), 1 and 2: where the term's field ends.
fn read_fields(file: &[u8]) -> Result<usize, Refusal> {
    if file.len() > MAX_FILE {
        return refuse(4, 0);
    }
    let end = read_field(file, 0, 1)?;
    let mut head = end;
    while head < file.len() {
        let middle = read_field(file, head, 2)?;
        head = read_field(file, middle, 3)?;
    }
    Ok(end)
}

/// Where the field due at `head` ends.
fn read_field(file: &[u8], head: usize, tag: u8) -> Result<usize, Refusal> {
    let Some(&[found, high, low]) = file.get(head..head + 3) else {
        return refuse(1, head);
    };
    if found != tag {
        return refuse(2, head);
    }
    let length = usize::from(high) << 8 | usize::from(low);
    if file.len() - (head + 3) < length {
        return refuse(1, head);
    }
    if tag != 1 && length % 3 != 0 {
        return refuse(2, head);
    }
    Ok(head + 3 + length)
}

/// Conditions 4, 3, then 5 and 6, in one pass from the left, which notes depths, levels and binders: the term's degree.
fn examine(text: &mut Text, open: &mut [Open; MAX_TERM], t: &[u8]) -> Result<usize, Refusal> {
    if t.len() > MAX_TERM {
        return refuse(4, 0);
    }
    // Of the abstractors in scope.
    let mut degrees = [0; MAX_SCOPE + 1];
    let mut binders = [0; MAX_SCOPE + 1];
    let mut depth = 0;
    let mut opened = 0;
    for (i, &byte) in t.iter().enumerate() {
        let place = &mut text.places[i];
        *place = Place { byte, depth: depth as u8, level: NO_LEVEL, ..Place::default() };
        text.levels[i] = NO_LEVEL;
        if byte >= APPLICATOR {
            if byte == ABSTRACTOR && depth == MAX_SCOPE {
                return unless_unbalanced(t, 6, i);
            }
            open[opened].at = i as u16;
            opened += 1;
            continue;
        }
        let index = usize::from(byte);
        if index > depth {
            return unless_unbalanced(t, 5, i);
        }
        let mut degree = 1;
        if index > 0 {
            let level = depth - index;
            place.level = level as u8;
            place.binder = binders[level];
            text.levels[i] = level as u8;
            degree += degrees[level];
        }
        if opened == 0 {
            if i + 1 < t.len() {
                return refuse(3, i + 1);
            }
            return Ok(degree);
        }
        // The inside of this item ends here.
        opened -= 1;
        let item = open[opened].at;
        let Place { byte, depth: outside, .. } = text.places[usize::from(item)];
        depth = usize::from(outside);
        if byte == ABSTRACTOR {
            degrees[depth] = degree;
            binders[depth] = item;
            depth += 1;
        }
    }
    refuse(3, t.len())
}

/// Condition 3 comes before the condition found.
fn unless_unbalanced<T>(t: &[u8], number: u32, place: usize) -> Result<T, Refusal> {
    let mut balance = 1;
    for (i, &b) in t.iter().enumerate() {
        balance += if b >= APPLICATOR { 1 } else { -1 };
        if balance == 0 {
            if i + 1 < t.len() {
                return refuse(3, i + 1);
            }
            return refuse(number, place);
        }
    }
    refuse(3, t.len())
}

/// Notes the end and the scope of each term of the text, from the right.
fn measure(places: &mut [Place]) {
    for i in (0..places.len()).rev() {
        let byte = places[i].byte;
        if byte < APPLICATOR {
            places[i].end = i as u16 + 1;
        } else {
            let inside = places[i + 1];
            let rest = places[usize::from(inside.end)];
            places[i].end = rest.end;
            places[i].scope = inside.scope.max(rest.scope + (byte == ABSTRACTOR) as u8);
        }
    }
}

// ---- The walk.

struct Walk<'a, const COUNT: bool> {
    file: &'a [u8],
    t: &'a [u8],
    text: &'a Text,
    entries: &'a mut [Entry; MAX_SCOPE + 1],
    envs: &'a mut [Env; MAX_SCOPE + 4],
    bodies: &'a mut [[u8; MAX_TERM]; 2],
    scopes: &'a mut [u8; MAX_TERM],
    /// Where the next group's head is.
    next: usize,
    comparisons: usize,
    counts: Counts,
}

/// The two bodies of a comparison.
const LEFT: usize = 0;
const RIGHT: usize = 1;

/// A waiting term and the abstractor that takes it, both after `depth` entries.
struct Comparison {
    place: usize,
    k: usize,
    u: usize,
    u_env: u16,
    depth: usize,
    /// The first environment not in use.
    free: u16,
}

impl<'a, const COUNT: bool> Walk<'a, COUNT> {
    /// The term's own text, from left to right. R has as many entries as the place has abstractors in scope.
    fn own_text(
        &mut self,
        open: &mut [Open; MAX_TERM],
        sizes: &mut [u16; MAX_SCOPE + 2],
        w: &mut [Waiting; MAX_TERM / 2],
        y: &mut [Waiting; MAX_TERM],
    ) -> Result<(), Refusal> {
        let places = &self.text.places;
        let mut opened = 0;
        // W is w[base..top].
        let mut base = 0;
        let mut top = 0;
        sizes[0] = 0;
        let mut i = 0;
        loop {
            let byte = places[i].byte;
            if COUNT {
                self.counts.own += 1;
            }
            if byte >= APPLICATOR {
                open[opened] = Open { at: i as u16, base: base as u16 };
                opened += 1;
                base = top;
                i += 1;
                continue;
            }
            if byte > 0 {
                if COUNT {
                    self.counts.own += 1;
                }
                // The state is as large as at the start of its text.
                let start = if opened == 0 { 0 } else { usize::from(open[opened - 1].at) + 1 };
                let size = usize::from(sizes[usize::from(places[start].depth)]) + self.size(start);
                self.copied_text(i, size, &w[base..top], y)?;
            } else if top > base {
                return refuse(8, usize::from(w[top - 1].at));
            }
            if opened == 0 {
                return Ok(());
            }
            // The inside of this item has passed.
            opened -= 1;
            top = base;
            base = usize::from(open[opened].base);
            let item = usize::from(open[opened].at);
            let inside = item + 1;
            i += 1;
            if places[item].byte == APPLICATOR {
                let before = if top > base { w[top - 1].scope } else { 0 };
                let scope = before.max(u16::from(places[inside].scope));
                w[top] = Waiting { at: item as u16, env: 0, scope };
                top += 1;
                continue;
            }
            let depth = usize::from(places[item].depth);
            let mut size = 1 + (i - inside);
            let mut k = 0;
            if top > base {
                top -= 1;
                let place = usize::from(w[top].at);
                k = place + 1;
                size += 1 + self.size(k);
                self.compare(Comparison { place, k, u: inside, u_env: 0, depth, free: 1 })?;
                if top > base && depth + 1 + usize::from(w[top - 1].scope) > MAX_SCOPE {
                    return refuse(11, i);
                }
            }
            self.entries[depth] = Entry { u: inside as u16, u_env: 0, k: k as u16, k_env: 0 };
            sizes[depth + 1] = sizes[depth] + size as u16;
        }
    }

    /// The size of the term that starts here.
    fn size(&self, at: usize) -> usize {
        usize::from(self.text.places[at].end) - at
    }

    /// The entry of R that stands for this level of the text.
    fn entry_for(&self, env: u16, level: u8) -> usize {
        if env == 0 {
            return usize::from(level);
        }
        let mut env = self.envs[usize::from(env)];
        while u16::from(level) < env.from {
            env = self.envs[usize::from(env.parent)];
        }
        usize::from(level) + usize::from(env.shift)
    }

    /// An environment in which the levels of the text from `from` on are `shift` higher.
    fn extend(&mut self, free: u16, parent: u16, from: u16, shift: usize) {
        let mut parent = parent;
        while parent != 0 && self.envs[usize::from(parent)].from >= from {
            parent = self.envs[usize::from(parent)].parent;
        }
        self.envs[usize::from(free)] = Env { from, shift: shift as u16, parent };
    }

    /// Copied text, from the variable of the term's own text at `place`, in a state of `size` bytes.
    fn copied_text(
        &mut self,
        place: usize,
        size: usize,
        w: &[Waiting],
        y: &mut [Waiting; MAX_TERM],
    ) -> Result<(), Refusal> {
        let places = &self.text.places;
        let mut size = size;
        let mut w = w;
        let mut w_scope = w.last().map_or(0, |last| last.scope);
        let mut y_top = 0;
        let mut y_scope = 0;
        // R has `depth` entries, and the environments from `free` on are not in use.
        let mut depth = usize::from(places[place].depth);
        let mut free = 1;
        let mut entry = usize::from(places[place].level);
        loop {
            // The U of this entry is B.
            let Entry { u, u_env: mut env, .. } = self.entries[entry];
            let mut i = usize::from(u);
            let mut here = places[i];
            size += usize::from(here.end) - i - 1;
            if size > MAX_STATE || depth + usize::from(here.scope) > MAX_SCOPE {
                return refuse(11, place);
            }
            if COUNT {
                self.counts.copied += 1;
            }
            // A first abstractor makes an environment: its level and those after it are of new entries.
            let mut extended = false;
            while here.byte >= APPLICATOR {
                let inside = places[i + 1];
                if here.byte == APPLICATOR {
                    y_scope = y_scope.max(u16::from(inside.scope));
                    y[y_top] = Waiting { at: i as u16, env, scope: y_scope };
                    y_top += 1;
                } else {
                    if !extended {
                        self.extend(free, env, u16::from(here.depth), depth - usize::from(here.depth));
                        env = free;
                        free += 1;
                        extended = true;
                    }
                    let mut made = Entry { u: i as u16 + 1, u_env: env, k: 0, k_env: 0 };
                    if y_top > 0 {
                        y_top -= 1;
                        made.k = y[y_top].at + 1;
                        made.k_env = y[y_top].env;
                        y_scope = if y_top > 0 { y[y_top - 1].scope } else { 0 };
                    } else if let Some((last, others)) = w.split_last() {
                        made.k = last.at + 1;
                        let place = usize::from(last.at);
                        self.compare(Comparison { place, k: place + 1, u: i + 1, u_env: env, depth, free })?;
                        w = others;
                        w_scope = w.last().map_or(0, |last| last.scope);
                    }
                    self.entries[depth] = made;
                    depth += 1;
                    if depth + usize::from(w_scope.max(y_scope)) > MAX_SCOPE {
                        return refuse(11, place);
                    }
                }
                i = usize::from(inside.end);
                here = places[i];
                if COUNT {
                    self.counts.copied += 1;
                }
            }
            if here.byte == 0 {
                assert!(y_top == 0, "Y is empty at every τ of a check");
                return match w.last() {
                    None => Ok(()),
                    Some(last) => refuse(8, usize::from(last.at)),
                };
            }
            entry = self.entry_for(env, here.level);
        }
    }

    // ---- Comparisons.

    /// `same(R,K,U)` by the next group. K is of the term's own text.
    fn compare(&mut self, c: Comparison) -> Result<(), Refusal> {
        let places = &self.text.places;
        let last = usize::from(places[c.k].end) - 1;
        if places[last].byte == 0 {
            return refuse(7, c.place);
        }
        // The U that the last variable of K means.
        let outer = places[c.k].depth;
        let (domain, domain_env) = if places[last].level >= outer {
            self.extend(c.free, 0, u16::from(outer), c.depth - usize::from(outer));
            (usize::from(places[last].binder) + 1, c.free)
        } else {
            let entry = self.entries[usize::from(places[last].level)];
            (usize::from(entry.u), entry.u_env)
        };
        if self.next >= self.file.len() {
            return refuse(9, c.place);
        }
        let prefix = last - c.k;
        let mut left = prefix + self.size(domain);
        let domain_depth = c.depth + usize::from(places[last].depth - outer);
        if left > MAX_TERM || domain_depth + usize::from(places[domain].scope) > MAX_SCOPE {
            return refuse(11, c.place);
        }
        let (left_steps, right_steps) = self.take_group();
        let mut right = self.size(c.u);
        self.write::<LEFT>(c.k, prefix, 0, c.depth, 0);
        self.write::<LEFT>(domain, left - prefix, domain_env, domain_depth, prefix);
        if let Err(number) = self.replay::<LEFT>(&mut left, c.depth, left_steps) {
            return refuse(number, c.place);
        }
        self.write::<RIGHT>(c.u, right, c.u_env, c.depth, 0);
        if let Err(number) = self.replay::<RIGHT>(&mut right, c.depth, right_steps) {
            return refuse(number, c.place);
        }
        if self.bodies[LEFT][..left] != self.bodies[RIGHT][..right] {
            return refuse(12, c.place);
        }
        self.comparisons += 1;
        Ok(())
    }

    /// The left and right steps of the next group.
    fn take_group(&mut self) -> (&'a [u8], &'a [u8]) {
        let left = self.next + 3;
        let middle = left + self.length(left);
        let right = middle + 3;
        self.next = right + self.length(right);
        (&self.file[left..middle], &self.file[right..self.next])
    }

    /// The length of the field whose body starts here.
    fn length(&self, body: usize) -> usize {
        usize::from(self.file[body - 2]) << 8 | usize::from(self.file[body - 1])
    }

    /// Writes `n` bytes of the text from `from` on, the start of a term in `env`, into a body at `at`, where `depth`
    /// abstractors are in scope, R's included.
    fn write<const SIDE: usize>(&mut self, from: usize, n: usize, env: u16, depth: usize, at: usize) {
        let outer = self.text.places[from].depth;
        let bytes = &self.t[from..from + n];
        let levels = &self.text.levels[from..from + n];
        let out = &mut self.bodies[SIDE][at..at + n];
        let mut env = self.envs[usize::from(env)];
        while env.from >= u16::from(outer) && env.from > 0 {
            env = self.envs[usize::from(env.parent)];
        }
        // A variable of a level that is not of the term itself is lifted, and those of a parent's levels further.
        let lift = (depth - usize::from(outer)) as u8;
        let lift = lift.wrapping_sub(env.shift as u8);
        if lift == 0 || outer == 0 {
            out.copy_from_slice(bytes);
        } else {
            for ((o, &b), &level) in out.iter_mut().zip(bytes).zip(levels) {
                *o = b.wrapping_add(if level < outer { lift } else { 0 });
            }
        }
        while env.from > 0 {
            let parent = self.envs[usize::from(env.parent)];
            let from = env.from as u8;
            let lift = (env.shift as u8).wrapping_sub(parent.shift as u8);
            for (o, &level) in out.iter_mut().zip(levels) {
                *o = o.wrapping_add(if level < from { lift } else { 0 });
            }
            env = parent;
        }
    }

    // ---- Steps.

    /// Replays steps on the body of `n` bytes after `depth` entries, and sets its new length; or the number of a refusal.
    fn replay<const SIDE: usize>(&mut self, n: &mut usize, depth: usize, steps: &[u8]) -> Result<(), u32> {
        for step in steps.chunks_exact(3) {
            if COUNT {
                self.counts.steps += 1;
            }
            let place = usize::from(step[1]) << 8 | usize::from(step[2]);
            if place >= *n {
                return Err(10);
            }
            *n = match step[0] {
                1 => self.local::<SIDE>(*n, depth, place)?,
                2 => removal(&mut self.bodies[SIDE], *n, place, self.scopes)?,
                3 => substitution(&mut self.bodies[SIDE], *n, depth, place, self.scopes)?,
                _ => return Err(10),
            };
        }
        Ok(())
    }

    /// Kind 1: the body's new length.
    fn local<const SIDE: usize>(&mut self, n: usize, depth: usize, place: usize) -> Result<usize, u32> {
        let body = &mut self.bodies[SIDE];
        let index = usize::from(body[place]);
        if index == 0 || index > MAX_SCOPE {
            return Err(10);
        }
        let found = find(body, place, index);
        let inside = depth + found.depth;
        if index > found.depth {
            // A frame pair.
            let Entry { k, k_env, .. } = self.entries[inside - index];
            if k == 0 {
                return Err(10);
            }
            let k = usize::from(k);
            let Place { end, scope, .. } = self.text.places[k];
            let size = usize::from(end) - k;
            let length = n - 1 + size;
            if length > MAX_TERM || inside + usize::from(scope) > MAX_SCOPE {
                return Err(11);
            }
            if size > 1 {
                body.copy_within(place + 1..n, place + size);
            }
            self.write::<SIDE>(k, size, k_env, inside, place);
            return Ok(length);
        }
        if found.mate == found.at {
            return Err(10);
        }
        let k = found.mate + 1;
        let size = found.next - k;
        let length = n - 1 + size;
        if length > MAX_TERM {
            return Err(11);
        }
        if size > 1 {
            body.copy_within(place + 1..n, place + size);
        }
        let scope = copy_lifted(body, k, place, index + found.between, self.scopes);
        if inside + scope > MAX_SCOPE {
            return Err(11);
        }
        Ok(length)
    }
}

/// The abstractors of a body around a place.
struct Found {
    /// How many have the place in scope.
    depth: usize,
    /// The one that the index means.
    at: usize,
    /// The applicator of its train that it is matched with, or `at` if there is none.
    mate: usize,
    /// What follows the applicator in that train.
    next: usize,
    /// How many abstractors of that train stand between the two.
    between: usize,
}

/// Reads leftward from `place`, counting the complete terms that stand before what was read.
#[inline(never)]
fn find(body: &[u8; MAX_TERM], place: usize, index: usize) -> Found {
    let mut found = Found { depth: 0, at: 0, mate: 0, next: 0, between: 0 };
    let mut complete = 0;
    // Whether what is read stands before the abstractor in its train and the applicator is still to come, and how many
    // abstractors were read since that no applicator matches.
    let mut near = false;
    let mut open = 0;
    let mut i = place;
    while i > 0 {
        if complete > BLOCK + 1 && i >= BLOCK {
            // None of the items of this block stands around the place.
            i -= BLOCK;
            complete = complete + BLOCK - 2 * items(body, i);
            continue;
        }
        i -= 1;
        let b = body[i & MASK];
        if b < APPLICATOR {
            complete += 1;
        } else if complete > 1 {
            complete -= 1;
        } else if complete == 0 {
            // The place is inside this item.
            near = false;
        } else {
            // The place is in the rest after this item.
            complete = 0;
            if b == ABSTRACTOR {
                found.depth += 1;
                if near {
                    open += 1;
                    found.between += 1;
                    found.next = i;
                } else if found.depth == index {
                    near = true;
                    found.at = i;
                    found.mate = i;
                    found.next = i;
                }
            } else if near {
                if open == 0 {
                    found.mate = i;
                    near = false;
                } else {
                    open -= 1;
                    found.next = i;
                }
            }
        }
    }
    found
}

/// How many of the bytes of a block from `i` on are items.
fn items(body: &[u8; MAX_TERM], i: usize) -> usize {
    let items = body[i..i + BLOCK].iter().map(|&b| (b >= APPLICATOR) as u8);
    usize::from(items.sum::<u8>())
}

/// Copies the term at `from` to `to`, past it, lifted by `n`: its scope. `scopes` holds the scopes of rests still to come.
#[inline(never)]
fn copy_lifted(body: &mut [u8; MAX_TERM], from: usize, to: usize, n: usize, scopes: &mut [u8; MAX_TERM]) -> usize {
    let mut scope = 0u8;
    let mut deepest = 0;
    let mut due = 0;
    let mut i = 0;
    loop {
        let b = body[from + i];
        if b >= APPLICATOR {
            body[to + i] = b;
            scopes[due] = scope + (b == ABSTRACTOR) as u8;
            due += 1;
        } else {
            body[to + i] = if b > scope { b.wrapping_add(n as u8) } else { b };
            if due == 0 {
                return usize::from(deepest);
            }
            due -= 1;
            scope = scopes[due];
            deepest = deepest.max(scope);
        }
        i += 1;
    }
}

/// Where the term at `i` ends.
fn end_of(body: &[u8; MAX_TERM], mut i: usize) -> usize {
    let mut balance = 1;
    loop {
        while balance > BLOCK && i + BLOCK <= MAX_TERM {
            balance = balance + 2 * items(body, i) - BLOCK;
            i += BLOCK;
        }
        if body[i] >= APPLICATOR {
            balance += 1;
        } else {
            balance -= 1;
        }
        i += 1;
        if balance == 0 {
            return i;
        }
    }
}

/// The abstractor that matches an applicator, by what follows the applicator in its train, and how many abstractors of the train
/// stand between.
#[inline]
fn partner(body: &[u8; MAX_TERM], next: usize) -> Result<(usize, usize), u32> {
    if body[next] == ABSTRACTOR {
        return Ok((next, 0));
    }
    far_partner(body, next)
}

/// The same with wagons between.
#[inline(never)]
fn far_partner(body: &[u8; MAX_TERM], next: usize) -> Result<(usize, usize), u32> {
    let mut at = next;
    let mut open = 0;
    let mut between = 0;
    loop {
        match body[at & MASK] {
            APPLICATOR => open += 1,
            ABSTRACTOR if open == 0 => return Ok((at, between)),
            ABSTRACTOR => {
                open -= 1;
                between += 1;
            }
            _ => return Err(10),
        }
        at = end_of(body, at + 1);
    }
}

/// Kind 2: the body's new length.
#[inline(never)]
fn removal(body: &mut [u8; MAX_TERM], n: usize, place: usize, scopes: &mut [u8; MAX_TERM]) -> Result<usize, u32> {
    if body[place] != APPLICATOR {
        return Err(10);
    }
    let next = end_of(body, place + 1);
    let (abstractor, _) = partner(body, next)?;
    let rest = end_of(body, abstractor + 1);
    let mut scope = 1;
    let mut due = 0;
    for b in &mut body[rest..n] {
        if *b >= APPLICATOR {
            scopes[due & MASK] = scope + (*b == ABSTRACTOR) as u8;
            due += 1;
            continue;
        }
        if *b >= scope {
            if *b == scope {
                return Err(10);
            }
            *b -= 1;
        }
        if due == 0 {
            break;
        }
        due -= 1;
        scope = scopes[due & MASK];
    }
    let mut to = place;
    if abstractor > next {
        body.copy_within(next..abstractor, place);
        to += abstractor - next;
    }
    body.copy_within(rest..n, to);
    Ok(n - (rest - to))
}

/// Kind 3, after `depth` entries: the body's new length. One pass measures the uses, and one writes, with the text after the
/// first use out of the way at the buffer's end. The first copy of K is the pattern of the others. The applicator of a couple
/// is first brought to its abstractor.
#[inline(never)]
fn substitution(
    body: &mut [u8; MAX_TERM],
    n: usize,
    depth: usize,
    place: usize,
    scopes: &mut [u8; MAX_TERM],
) -> Result<usize, u32> {
    if body[place] != APPLICATOR {
        return Err(10);
    }
    let next = end_of(body, place + 1);
    let (abstractor, between) = partner(body, next)?;
    let size = next - (place + 1);
    let rest = end_of(body, abstractor + 1);
    let mut place = place;
    if abstractor > next {
        body[place..abstractor].rotate_left(1 + size);
        place += abstractor - next;
    }
    let mut uses = 0;
    let mut deepest = 0;
    let mut first = rest;
    let mut first_scope = 0;
    let mut first_due = 0;
    let mut scope = 1u8;
    let mut due = 0;
    // For the scopes due at the first use: no more items stand inside each other than half of the bytes.
    let kept = MAX_TERM - 1 - (n - rest) / 2;
    // Indices before the first use fall in this pass.
    for i in rest..n {
        let b = body[i & MASK];
        if b >= APPLICATOR {
            scopes[due & MASK] = scope + (b == ABSTRACTOR) as u8;
            due += 1;
            continue;
        }
        if b == scope {
            if uses == 0 {
                first = i;
                first_scope = scope;
                first_due = due;
                scopes.copy_within(..due, kept);
            }
            uses += 1;
            deepest = deepest.max(scope);
        } else if uses == 0 && b > scope {
            body[i & MASK] = b - 1;
        }
        if due == 0 {
            break;
        }
        due -= 1;
        scope = scopes[due & MASK];
    }
    let dropped = rest - place;
    if uses == 0 {
        body.copy_within(rest..n, place);
        return Ok(n - dropped);
    }
    let length = n - dropped + uses * size - uses;
    if length > MAX_TERM {
        return Err(11);
    }
    // The text before the first use, then K, which had fe before it.
    body[place..first].rotate_left(dropped);
    let pattern = first - dropped;
    body.copy_within(pattern + 1..pattern + 1 + size, pattern);
    let mut from = MAX_TERM - (n - (first + 1));
    body.copy_within(first + 1..n, from);
    let lift = first_scope - 1 + between as u8;
    let scope_of_k = if uses == 1 {
        copy_lifted(body, pattern, pattern, lift.into(), scopes)
    } else {
        lift_marked(body, pattern, size, lift, scopes)
    };
    // Of one scope there is room in any case: the couple's own abstractor goes.
    if scope_of_k > 1 && depth + find(body, place, 0).depth + usize::from(deepest) - 1 + scope_of_k > MAX_SCOPE {
        return Err(11);
    }
    let mut to = pattern + size;
    due = first_due;
    while due > 0 {
        due -= 1;
        scope = scopes[(kept + due) & MASK];
        let mut b = body[from & MASK];
        while b >= APPLICATOR {
            scopes[(kept + due) & MASK] = scope + (b == ABSTRACTOR) as u8;
            due += 1;
            body[to & MASK] = b;
            to += 1;
            from += 1;
            b = body[from & MASK];
        }
        from += 1;
        if b != scope {
            body[to & MASK] = b - (b > scope) as u8;
            to += 1;
            continue;
        }
        let lift = scope.wrapping_sub(first_scope);
        let (before, after) = body.split_at_mut(to);
        let pattern = before[pattern..].iter().zip(&scopes[..size]);
        for (o, (&b, &mark)) in after.iter_mut().zip(pattern) {
            *o = b.wrapping_add(lift & mark);
        }
        to += size;
    }
    body.copy_within(from.., to);
    Ok(length)
}

/// Lifts the term of `size` bytes by `n` in place, and marks its bytes in `scopes`, ff if lifted and else 0: its scope. The
/// scopes of rests still to come stand after the marks.
fn lift_marked(body: &mut [u8; MAX_TERM], at: usize, size: usize, n: u8, scopes: &mut [u8; MAX_TERM]) -> usize {
    let mut scope = 0;
    let mut deepest = 0;
    let mut due = size;
    for i in 0..size {
        let b = body[at + i];
        if b >= APPLICATOR {
            scopes[i] = 0;
            scopes[due] = scope + (b == ABSTRACTOR) as u8;
            due += 1;
            continue;
        }
        let mark = if b > scope { 0xff } else { 0 };
        scopes[i] = mark;
        body[at + i] = b.wrapping_add(n & mark);
        if due > size {
            due -= 1;
            scope = scopes[due];
            deepest = deepest.max(scope);
        }
    }
    usize::from(deepest)
}

// ---- Printing.

/// Cells of a line, and its columns with the line feed.
const CELLS: usize = 18;
const LINE: usize = 73;

/// A term of at most this many bytes is examined in a smaller buffer.
const SMALL: usize = 64;

/// What each byte prints.
const PRINTED: [[u8; 4]; 256] = {
    let mut printed = [*b"    "; 256];
    let mut index = 1;
    while index <= MAX_SCOPE {
        printed[index][3] = b'0' + (index % 10) as u8;
        if index >= 10 {
            printed[index][2] = b'0' + (index / 10 % 10) as u8;
        }
        if index >= 100 {
            printed[index][1] = b'0' + (index / 100) as u8;
        }
        index += 1;
    }
    printed[0][3] = b't';
    printed[APPLICATOR as usize][3] = b'A';
    printed[ABSTRACTOR as usize][3] = b'T';
    printed
};

/// Prints a term, in a buffer cleared for examining it.
pub fn print(t: &[u8], out: &mut [u8]) -> Written {
    if t.len() <= SMALL {
        print_by(&mut [0; SMALL], t, out)
    } else {
        print_by(&mut [0; MAX_TERM], t, out)
    }
}

/// Prints a term, in a buffer that is kept and not cleared.
pub fn print_in(space: &mut Space, t: &[u8], out: &mut [u8]) -> Written {
    print_by(&mut space.scopes, t, out)
}

/// The length of the page of so many bytes.
pub fn page_length(bytes: usize) -> usize {
    bytes.div_ceil(CELLS) * LINE
}

#[inline(never)]
fn print_by<const N: usize>(after: &mut [u8; N], t: &[u8], out: &mut [u8]) -> Written {
    let length = page_length(t.len());
    let examined = examine_scopes(after, t).and_then(|()| out.get_mut(..length).ok_or(Refusal { number: 14, place: 0 }));
    match examined {
        Ok(page) => {
            write_page(t, page);
            Written { number: 0, place: 0, length }
        }
        Err(Refusal { number, place }) => Written { number, place, length: 0 },
    }
}

/// Conditions 4, 3, then 5 and 6, as in `examine`, noting only how many abstractors are in scope after each open item. Three
/// sorts of runs are read in turn: items with more items inside, items with a terminal inside, and terminals that end items.
fn examine_scopes<const N: usize>(after: &mut [u8; N], t: &[u8]) -> Result<(), Refusal> {
    if t.len() > MAX_TERM {
        return refuse(4, 0);
    }
    let at = |i: usize| t.get(i).copied().ok_or(Refusal { number: 3, place: t.len() });
    let too_many = |item: u8, depth: u8| item == ABSTRACTOR && usize::from(depth) == MAX_SCOPE;
    let mut depth = 0;
    let mut opened = 0;
    let mut i = 0;
    let mut byte = at(0)?;
    loop {
        while byte >= APPLICATOR {
            let inside = at(i + 1)?;
            if inside < APPLICATOR {
                break;
            }
            if too_many(byte, depth) {
                return unless_unbalanced(t, 6, i);
            }
            after[opened & (N - 1)] = depth + (byte - APPLICATOR);
            opened += 1;
            i += 1;
            byte = inside;
        }
        while byte >= APPLICATOR {
            let inside = at(i + 1)?;
            if inside >= APPLICATOR {
                break;
            }
            if too_many(byte, depth) {
                return unless_unbalanced(t, 6, i);
            }
            if inside > depth {
                return unless_unbalanced(t, 5, i + 1);
            }
            depth += byte - APPLICATOR;
            i += 2;
            byte = at(i)?;
        }
        while byte < APPLICATOR {
            if byte > depth {
                return unless_unbalanced(t, 5, i);
            }
            if opened == 0 {
                return if i + 1 < t.len() { refuse(3, i + 1) } else { Ok(()) };
            }
            opened -= 1;
            depth = after[opened & (N - 1)];
            i += 1;
            byte = at(i)?;
        }
    }
}

/// The page of the term, as long as it is.
fn write_page(t: &[u8], page: &mut [u8]) {
    let full = t.chunks_exact(CELLS);
    let rest = full.remainder();
    let mut lines = page.chunks_exact_mut(LINE);
    for (bytes, line) in full.zip(&mut lines) {
        write_line(bytes, line);
    }
    if let Some(line) = lines.next() {
        line.fill(b' ');
        write_line(rest, line);
    }
}

fn write_line(bytes: &[u8], line: &mut [u8]) {
    for (cell, &byte) in line.chunks_exact_mut(4).zip(bytes) {
        cell.copy_from_slice(&PRINTED[usize::from(byte)]);
    }
    line[LINE - 1] = b'\n';
}

// ---- Counting.

const MAX_COUNTED: usize = 7;

/// A term of 2n + 1 bytes has n applicators and abstractors, those inside others too: its items.
const MAX_ITEMS: usize = MAX_COUNTED / 2;

/// Counts the strings of a length. A term with items is the first of them, with a term inside, and then a term.
#[inline(never)]
pub fn count_strings(length: usize) -> CountAnswer {
    if length > MAX_COUNTED {
        return CountAnswer { number: 15, accepted: 0, malformed: 0, unbound: 0 };
    }
    let strings = 1 << (8 * length);
    if length.is_multiple_of(2) {
        return CountAnswer { number: 0, accepted: 0, malformed: strings, unbound: 0 };
    }
    let items = length / 2;
    // terms[n]: those of n items, with any indices. closed[n][depth]: of these, those with no index beyond its scope where the
    // term stands in the scope of `depth` abstractors.
    let mut terms = [0; MAX_ITEMS + 1];
    let mut closed = [[0; MAX_ITEMS + 1]; MAX_ITEMS + 1];
    terms[0] = APPLICATOR.into();
    closed[0] = std::array::from_fn(|depth| 1 + depth as u64);
    for n in 1..=items {
        for (inside, rest) in (0..n).map(|inside| (inside, n - 1 - inside)) {
            terms[n] += 2 * terms[inside] * terms[rest];
            for depth in 0..=items - n {
                closed[n][depth] += closed[inside][depth] * (closed[rest][depth] + closed[rest][depth + 1]);
            }
        }
    }
    let (terms, accepted) = (terms[items], closed[items][0]);
    CountAnswer { number: 0, accepted, malformed: strings - terms, unbound: terms - accepted }
}

// ---- Sets.

/// Checks a set in buffers cleared for it, once.
#[inline(never)]
pub fn check_set(set: &[u8]) -> SetAnswer {
    check_set_in(&mut Space::new(), set)
}

/// Checks a set in buffers that are kept and not cleared.
pub fn check_set_in(space: &mut Space, set: &[u8]) -> SetAnswer {
    let refused = |number: u32, place: usize| SetAnswer { file: 0, number, place, comparisons: 0, degree: 0 };
    if set.len() > MAX_FILE {
        return refused(4, 0);
    }
    let mut head = 0;
    while head < set.len().max(1) {
        match file_at(set, head) {
            Some(file) => head += 3 + file.len(),
            None => return refused(16, head),
        }
    }
    check_files(set, |file| check_in(space, file))
}

/// The file of the field at `head`, if that is whole and has the tag.
fn file_at(set: &[u8], head: usize) -> Option<&[u8]> {
    let &[5, high, low] = set.get(head..head + 3)? else {
        return None;
    };
    let start = head + 3;
    set.get(start..start + (usize::from(high) << 8 | usize::from(low)))
}

/// Checks the files of a set, whose heads are good, up to the first that is refused.
pub fn check_files(set: &[u8], mut check: impl FnMut(&[u8]) -> Answer) -> SetAnswer {
    let mut accepted = SetAnswer { file: 0, number: 0, place: 0, comparisons: 0, degree: 0 };
    let mut head = 0;
    while let Some(file) = file_at(set, head) {
        let Answer { number, place, comparisons, degree } = check(file);
        if number != 0 {
            return SetAnswer { number, place, comparisons, degree, ..accepted };
        }
        accepted.file += 1;
        accepted.comparisons += comparisons;
        head += 3 + file.len();
    }
    accepted
}
