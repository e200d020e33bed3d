//! The smallest job that still shows something: one simplification after another, kept if it still does.

use crate::form::Form;
use crate::job::*;

/// Tries every simplification until none is kept.
pub fn shrink(start: &Job, shows: &mut dyn FnMut(&Job) -> bool) -> Job {
    let mut best = start.clone();
    for _ in 0..12 {
        let mut moved = false;
        let mut i = 0;
        loop {
            let candidates = simpler(&best);
            if i >= candidates.len() {
                break;
            }
            if shows(&candidates[i]) {
                best = candidates[i].clone();
                moved = true;
            } else {
                i += 1;
            }
        }
        if !moved {
            break;
        }
    }
    best
}

fn simpler(job: &Job) -> Vec<Job> {
    let mut list = Vec::new();
    let elements = job.elements();
    let whole = job.sheet.len() % RECORD == 0;
    if whole && elements.len() > 3 {
        for half in [&elements[..elements.len() / 2], &elements[elements.len() / 2..]] {
            let mut j = job.clone();
            j.set_elements(half);
            list.push(j);
        }
    }
    if whole {
        for k in (0..elements.len()).rev() {
            let mut fewer = elements.clone();
            fewer.remove(k);
            let mut j = job.clone();
            j.set_elements(&fewer);
            list.push(j);
        }
    }
    if job.transient {
        let mut j = job.clone();
        j.transient = false;
        list.push(j);
    }
    for (nodes, sources) in [(1, 0), (0, 1)] {
        if job.nodes > nodes && job.sources >= sources && job.nodes + job.sources > 1 {
            let mut j = job.clone();
            j.nodes -= nodes;
            j.sources -= sources;
            list.push(j);
        }
    }
    if whole && job.nodes.checked_add(job.sources).map_or(false, |n| n <= 48) {
        renumbered(job, &elements, &mut list);
        let mut j = job.clone();
        j.fit(200);
        list.push(j);
    }
    if !job.points.is_empty() {
        let mut j = job.clone();
        j.points.truncate((job.points.len() - 1) / POINT * POINT);
        list.push(j);
    }
    let (usual, words) = (Options::usual().words(), job.options.words());
    for i in 0..COUNTS_AT {
        if words[i] != usual[i] {
            let mut targets = vec![usual[i]];
            if !simple(f64::from_bits(words[i])) {
                targets.extend_from_slice(&[1.0f64.to_bits(), 0.0f64.to_bits()]);
            }
            for target in targets {
                let mut w = words;
                w[i] = target;
                list.push(with_options(job, w));
            }
        }
    }
    for i in COUNTS_AT..OPTIONS {
        for number in [0, 1, 10, usual[i]] {
            if number < words[i] && (i != BUDGET || number > 0) {
                let mut w = words;
                w[i] = number;
                list.push(with_options(job, w));
            }
        }
    }
    if whole {
        values(job, &elements, &mut list);
    }
    list.retain(|j| j.bytes(Form::Two) != job.bytes(Form::Two));
    list
}

fn simple(x: f64) -> bool {
    [0.0, 1.0, 2.0].contains(&x)
}

fn with_options(job: &Job, words: [u64; OPTIONS]) -> Job {
    Job { options: Options::of_words(words), ..job.clone() }
}

/// The greatest node number put in place of each other one, counts lowered with it.
fn renumbered(job: &Job, elements: &[Element], list: &mut Vec<Job>) {
    if job.nodes < 2 {
        return;
    }
    let last = (job.nodes - 1) as u16;
    for to in 0..last {
        let moved: Vec<Element> = elements
            .iter()
            .map(|e| {
                let m = |n: u16| if n == last { to } else { n };
                let mut e = *e;
                e.a = m(e.a);
                e.b = m(e.b);
                if e.has_controls() {
                    e.cp = m(e.cp);
                    e.cn = m(e.cn);
                }
                e
            })
            .collect();
        let mut j = job.clone();
        j.set_elements(&moved);
        j.nodes -= 1;
        list.push(j);
    }
}

fn values(job: &Job, elements: &[Element], list: &mut Vec<Job>) {
    for k in 0..elements.len() {
        for v in 0..3 {
            if simple(elements[k].value[v]) || elements[k].value[v] == 0.0 {
                continue;
            }
            for round in [0.0, 1.0, elements[k].value[v].round()] {
                let mut changed = elements.to_vec();
                changed[k].value[v] = round;
                let mut j = job.clone();
                j.set_elements(&changed);
                list.push(j);
            }
        }
    }
}
