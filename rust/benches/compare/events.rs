//! The events of the rules that are compared, by a generator of its own: the words of event k.
#![allow(dead_code)]

pub struct Random(pub u64);

impl Random {
    pub fn below(&mut self, n: u32) -> u32 {
        self.0 = self.0.wrapping_mul(6_364_136_223_846_793_005).wrapping_add(1_442_695_040_888_963_407);
        ((self.0 >> 33) % n as u64) as u32
    }

    pub fn one_in(&mut self, n: u32) -> bool {
        self.below(n) == 0
    }
}

pub fn words(time: u32, rows: &[(u32, &[u32])]) -> Vec<u32> {
    let mut out = vec![time, rows.len() as u32];
    out.extend(rows.iter().map(|r| r.0));
    for (_, values) in rows {
        out.extend((0..4).map(|k| values.get(k).copied().unwrap_or(0)));
    }
    out
}

pub fn leak(g: &mut Random, k: u32) -> Vec<u32> {
    words(10 * k + g.below(10), &[(g.below(2), &[g.below(8)])])
}

pub fn half_hour(g: &mut Random, k: u32) -> Vec<u32> {
    words(45 * k + g.below(30), &[(g.one_in(3) as u32, &[g.below(8)])])
}

pub fn running(g: &mut Random, k: u32) -> Vec<u32> {
    let pumps: Vec<[u32; 1]> = (0..8).filter(|_| !g.one_in(24)).map(|p| [p]).collect();
    let on = [g.below(8)];
    let mut rows: Vec<(u32, &[u32])> = pumps.iter().map(|p| (0, &p[..])).collect();
    rows.push((1, &on));
    words(k, &rows)
}

pub fn burst(g: &mut Random, k: u32) -> Vec<u32> {
    let zones: Vec<[u32; 1]> = (0..4).filter(|_| !g.one_in(16)).map(|z| [z]).collect();
    let zone = [g.below(4)];
    let mut rows: Vec<(u32, &[u32])> = zones.iter().map(|z| (0, &z[..])).collect();
    if g.one_in(8) {
        rows.push((1, &zone));
    }
    words(k, &rows)
}

pub fn dry_zone(g: &mut Random, k: u32) -> Vec<u32> {
    let flow: Vec<[u32; 2]> = (0..8).map(|v| [10 * v + g.below(10), g.below(4)]).collect();
    let dry: Vec<[u32; 2]> = (0..8).map(|p| [p % 4, 10 * p + g.below(10)]).collect();
    let rows: Vec<(u32, &[u32])> = flow.iter().map(|r| (0, &r[..])).chain(dry.iter().map(|r| (1, &r[..]))).collect();
    words(10 * k, &rows)
}

pub fn orchard(g: &mut Random, k: u32) -> Vec<u32> {
    // flow, relation 4, has a second column
    let rows: Vec<(u32, [u32; 2])> = (0..3).map(|_| (g.below(5), [g.below(8), g.below(100)])).collect();
    let rows: Vec<(u32, &[u32])> = rows.iter().map(|(r, v)| (*r, if *r == 4 { &v[..] } else { &v[..1] })).collect();
    words(5 * k + g.below(5), &rows)
}
