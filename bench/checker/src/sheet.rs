//! The questions 21 to 37, as an ordinary Rust programmer would write them.

pub struct Row {
    pub letter: char,
    pub n: [i64; 5],
}

pub type Verdict = Result<(), (u8, usize)>;

struct Sheet<'a> {
    types: &'a [Row],
    sites: &'a [Row],
    nodes: &'a [Row],
    entries: &'a [Row],
}

const ALL: i64 = u32::MAX as i64;

fn is_set(x: i64) -> bool {
    (0..=ALL).contains(&x)
}

fn within(a: i64, b: i64) -> bool {
    a & !b == 0
}

fn has(k: i64, set: i64) -> bool {
    (0..32).contains(&k) && set >> k & 1 == 1
}

fn ask(question: u8, first: usize, n: usize, yes: impl Fn(usize) -> bool) -> Verdict {
    match (0..n).find(|k| !yes(*k)) {
        Some(k) => Err((question, first + k)),
        None => Ok(()),
    }
}

impl Sheet<'_> {
    fn deep(&self, t: i64, bound: u32) -> bool {
        let n = &self.types[t as usize].n;
        bound > 0
            && (n[0] != 1
                || (0..t).contains(&n[2])
                    && (0..t).contains(&n[3])
                    && self.deep(n[2], bound - 1)
                    && self.deep(n[3], bound - 1))
    }

    fn lawful_type(&self, t: usize) -> bool {
        let n = &self.types[t].n;
        let fields = match n[0] {
            0 => n[2] == 0 && n[3] == 0 && n[4] == 0,
            1 => is_set(n[4]),
            2 => n[2] >= 0 && n[2] >> self.sites.len() == 0 && n[3] == 0 && n[4] == 0,
            _ => false,
        };
        is_set(n[1]) && fields && self.deep(t as i64, 8)
    }

    fn lawful_site(&self, s: usize) -> bool {
        let n = &self.sites[s].n;
        (0..32).contains(&n[0])
            && (0..self.types.len() as i64).contains(&n[1])
            && (n[2] == 0 || n[2] == 1 && self.types[n[1] as usize].n[0] == 0)
            && n[3] == 0
            && n[4] == 0
    }

    fn site_is(&self, s: i64, flag: i64) -> bool {
        (0..self.sites.len() as i64).contains(&s) && self.sites[s as usize].n[2] == flag
    }

    fn parts(kind: i64) -> usize {
        [0, 0, 1, 2, 1, 0, 1, 2, 3, 2][kind as usize]
    }

    fn lawful_node(&self, i: usize) -> bool {
        let n = &self.nodes[i].n;
        let argument = match n[0] {
            0 => (-(1 << 31)..1 << 31).contains(&n[4]),
            1 => (0..self.nodes.len() as i64).contains(&n[4]),
            4 => self.site_is(n[4], 0),
            5 => self.site_is(n[4], 1),
            9 => (0..6).contains(&n[4]),
            2 | 3 | 6 | 7 | 8 => n[4] == 0,
            _ => return false,
        };
        let mut begin = i as i64;
        for _ in 0..Self::parts(n[0]) {
            if begin == 0 {
                return false;
            }
            let size = self.nodes[begin as usize - 1].n[1];
            if size < 1 || size > begin {
                return false;
            }
            begin -= size;
        }
        (0..self.types.len() as i64).contains(&n[2])
            && is_set(n[3])
            && argument
            && n[1] == i as i64 - begin + 1
    }

    fn bound(&self, i: usize) -> bool {
        let n = &self.nodes[i].n;
        n[0] != 1 || {
            let f = &self.nodes[n[4] as usize].n;
            f[0] == 2 && (i as i64) < n[4] && n[4] - (i as i64) < f[1]
        }
    }

    fn span(&self, e: usize) -> (i64, i64) {
        let root = self.entries[e].n[1];
        (root - self.nodes[root as usize].n[1] + 1, root)
    }

    fn lawful_entry(&self, e: usize) -> bool {
        let n = &self.entries[e].n;
        (0..32).contains(&n[0])
            && (0..self.nodes.len() as i64).contains(&n[1])
            && n[2..] == [0, 0, 0]
            && (0..e).all(|f| {
                let ((a, b), (c, d)) = (self.span(e), self.span(f));
                b < c || d < a
            })
    }

    // ---- admission

    fn fits(&self, x: i64, raise: i64, y: i64) -> bool {
        let (p, q) = (&self.types[x as usize].n, &self.types[y as usize].n);
        p[0] == q[0]
            && within(p[1] | raise, q[1])
            && match p[0] {
                1 => self.fits(q[2], 0, p[2]) && self.fits(p[3], 0, q[3]) && within(q[4], p[4]),
                2 => within(p[2], q[2]),
                _ => true,
            }
    }

    fn ty(&self, i: usize) -> &[i64; 5] {
        &self.types[self.nodes[i].n[2] as usize].n
    }

    fn every_site(&self, set: i64, yes: impl Fn(&[i64; 5]) -> bool) -> bool {
        self.sites.iter().enumerate().all(|(s, site)| !has(s as i64, set) || yes(&site.n))
    }

    fn typed(&self, i: usize) -> bool {
        let n = &self.nodes[i].n;
        let own = self.ty(i);
        let end = i.saturating_sub(1);
        let middle = end.saturating_sub(self.nodes[end].n[1] as usize);
        let value = self.nodes[end].n[2];
        match n[0] {
            0 => own[0] == 0,
            1 => {
                let f = self.ty(n[4] as usize);
                f[0] == 1 && self.fits(f[2], 0, n[2])
            }
            2 => own[0] == 1 && self.fits(value, 0, own[3]),
            3 => {
                let f = self.ty(middle);
                f[0] == 1
                    && self.fits(value, 0, f[2])
                    && within(f[1] | n[3], f[4])
                    && self.fits(f[3], f[1], n[2])
            }
            4 => own[0] == 2 && has(n[4], own[2]) && self.fits(value, n[3], self.sites[n[4] as usize].n[1]),
            5 => own[0] == 2 && has(n[4], own[2]),
            6 => {
                let r = self.ty(end);
                r[0] == 2 && self.every_site(r[2], |site| self.fits(site[1], r[1], n[2]))
            }
            7 => {
                let r = self.ty(middle);
                r[0] == 2
                    && self.every_site(r[2], |site| self.fits(value, r[1] | n[3], site[1]))
                    && self.fits(value, 0, n[2])
            }
            8 => {
                let c = self.ty(middle.saturating_sub(self.nodes[middle].n[1] as usize));
                c[0] == 0
                    && self.fits(self.nodes[middle].n[2], 0, n[2])
                    && self.fits(value, 0, n[2])
                    && within(c[1], own[1])
            }
            _ => {
                let (a, b) = (self.ty(middle), self.ty(end));
                a[0] == 0 && b[0] == 0 && own[0] == 0 && within(a[1] | b[1], own[1])
            }
        }
    }

    fn controlled(&self, i: usize) -> bool {
        let n = &self.nodes[i].n;
        let end = i.saturating_sub(1);
        let under = |set: i64, p: usize| within(set, self.nodes[p].n[3]);
        let before = |p: usize| p.saturating_sub(self.nodes[p].n[1] as usize);
        match n[0] {
            2 => under(self.ty(i)[4], end),
            4 | 6 => under(n[3], end),
            3 | 7 | 9 => under(n[3], before(end)) && under(n[3], end),
            8 => {
                let c = before(before(end));
                let both = n[3] | self.ty(c)[1];
                under(n[3], c) && under(both, before(end)) && under(both, end)
            }
            _ => true,
        }
    }
}

pub fn check(rows: &[Row], labels: i64, flows: &[u32; 32]) -> Verdict {
    let rank = |r: &Row| "TSNE".find(r.letter);
    ask(21, 0, rows.len(), |k| match rank(&rows[k]) {
        Some(r) => k == 0 || rank(&rows[k - 1]).is_some_and(|p| p <= r),
        None => false,
    })?;
    let mut rest = rows;
    let mut section = |letter: char| {
        let n = rest.iter().take_while(|r| r.letter == letter).count();
        let (front, back) = rest.split_at(n);
        rest = back;
        front
    };
    let s = Sheet { types: section('T'), sites: section('S'), nodes: section('N'), entries: section('E') };
    let (t, u, n, e) = (s.types.len(), s.sites.len(), s.nodes.len(), s.entries.len());
    if !(1..=128).contains(&t) || !(1..=32).contains(&u) || !(1..=512).contains(&n) || !(1..=32).contains(&e) {
        return Err((22, 0));
    }
    ask(23, 0, t, |k| s.lawful_type(k))?;
    ask(24, t, u, |k| s.lawful_site(k))?;
    ask(25, t + u, n, |k| s.lawful_node(k))?;
    ask(26, t + u, n, |k| s.bound(k))?;
    ask(27, t + u + n, e, |k| s.lawful_entry(k))?;
    let covered = |i: i64| (0..e).any(|k| (s.span(k).0..=s.span(k).1).contains(&i));
    if !(0..n as i64).all(covered) {
        return Err((27, rows.len() - 1));
    }
    let below = |set: i64| set >> labels == 0;
    ask(31, 0, t, |k| below(s.types[k].n[1]) && below(s.types[k].n[4]))?;
    ask(31, t, u, |k| s.sites[k].n[0] < labels)?;
    ask(31, t + u, n, |k| below(s.nodes[k].n[3]))?;
    ask(31, t + u + n, e, |k| s.entries[k].n[0] < labels)?;
    let all_flow = |set: i64, to: i64| (0..32).all(|a| !has(a, set) || flows[a as usize] >> to & 1 == 1);
    let content = |k: usize| s.types[s.sites[k].n[1] as usize].n[1];
    ask(32, t, u, |k| has(s.sites[k].n[0], content(k)))?;
    ask(33, t, u, |k| all_flow(content(k), s.sites[k].n[0]))?;
    for i in 0..n {
        if !s.typed(i) {
            return Err((34, t + u + i));
        }
        if !s.controlled(i) {
            return Err((35, t + u + i));
        }
    }
    let root = |k: usize| s.entries[k].n[1] as usize;
    ask(36, t + u + n, e, |k| s.ty(root(k))[0] == 0 && has(s.entries[k].n[0], s.nodes[root(k)].n[3]))?;
    ask(37, t + u + n, e, |k| all_flow(s.ty(root(k))[1], s.entries[k].n[0]))
}
