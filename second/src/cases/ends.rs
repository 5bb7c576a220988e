//! Right inputs with the least and the greatest leaf counts, for every call, with
//! enough room: "n is 1 to 1,024".

use super::chance::Chance;
use super::{permutations, rooms, tables, texts, vectors};
use crate::record::{length_in_bytes, record};
use crate::stream::Case;

const SIZES: [usize; 5] = [1, 2, 3, 1023, 1024];
const TIMES: usize = 4;

pub fn add(cases: &mut Vec<Case>, chance: &mut Chance) {
    for n in SIZES {
        for _ in 0..TIMES {
            from_vectors(cases, chance, n);
            to_vectors(cases, chance, n);
        }
    }
}

fn from_vectors(cases: &mut Vec<Case>, chance: &mut Chance, n: usize) {
    let v = vectors::of_size(chance, n);
    let out = rooms::enough(chance, rooms::table(n));
    cases.push(Case::ToTable { v: v.clone(), out });
    let out = rooms::enough(chance, rooms::text(n));
    cases.push(Case::ToNewick { v: v.clone(), out });
    let out = rooms::enough(chance, length_in_bytes(n));
    cases.push(Case::Pack { v: v.clone(), out });
    let new_out = rooms::enough(chance, n);
    let vector_out = rooms::enough(chance, n);
    cases.push(Case::Shuffle { v: v.clone(), new_out, vector_out });
    let p = permutations::any(chance, n);
    let out = rooms::enough(chance, n);
    cases.push(Case::Relabel { v, p, out });
}

fn to_vectors(cases: &mut Vec<Case>, chance: &mut Chance, n: usize) {
    let (leaves, rows) = tables::joined(chance, n);
    let out = rooms::enough(chance, n);
    cases.push(Case::FromTable { leaves, rows, out });
    let v = vectors::of_size(chance, n);
    let text = texts::turned_text(chance, &v);
    let out = rooms::enough(chance, n);
    cases.push(Case::FromNewick { text, out });
    let record = record(&v);
    let out = rooms::enough(chance, n);
    cases.push(Case::Unpack { record, out });
}
