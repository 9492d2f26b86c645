//! Aggregates dealt into two piles: 02, "Where the whole request answers, dealing its vector by edited label gives merged
//! answers."
use reference::{take_request, take_vector, AggregateCall, Answer, Labels, Outcome, Vector, SIZES};

use crate::random::Random;

/// What runs a call: the reference or a library.
pub type Run = fn(&AggregateCall) -> Outcome;

/// A call, and for each series whether it goes into the second pile; series with equal edited labels go into the same.
pub struct Deal {
    pub whole: AggregateCall,
    pub in_second: Vec<bool>,
}

/// Deals a call's totals at random. A pile may be empty. None where the call has no vector to deal.
pub fn dealt(r: &mut Random, whole: AggregateCall) -> Option<Deal> {
    let (edited, _) = taken(&whole)?;
    let mut piles: Vec<(&Labels, bool)> = Vec::new();
    let mut in_second = Vec::new();
    for labels in &edited {
        let known = piles.iter().find(|(known, _)| *known == labels).map(|(_, pile)| *pile);
        let pile = known.unwrap_or_else(|| r.one_in(2));
        piles.push((labels, pile));
        in_second.push(pile);
    }
    Some(Deal { whole, in_second })
}

/// The edited label of each series, and the vector.
fn taken(call: &AggregateCall) -> Option<(Vec<Labels>, Vector)> {
    let request = take_request(&call.request).ok()?;
    let vector = take_vector(0, &call.labels, &call.readings).ok()?;
    Some((vector.series.iter().map(|s| s.labels.edited_total(&request)).collect(), vector))
}

/// Runs the whole and, where it answers, both piles, each with the request, p, grid and lengths of output parts of the whole;
/// then the piles' rows, ranked by the first whole place of their totals, must be the whole's, bit for bit. True where the
/// whole answers.
pub fn check(deal: &Deal, run: Run) -> Result<bool, String> {
    let Ok(whole) = run(&deal.whole) else {
        return Ok(false);
    };
    let (edited, vector) = taken(&deal.whole).ok_or("an answer to what is not taken")?;
    let mut ranked = Vec::new();
    for second in [false, true] {
        let places: Vec<usize> = (0..edited.len()).filter(|place| deal.in_second[*place] == second).collect();
        let series = places.iter().map(|place| vector.series[*place].clone()).collect();
        let (labels, readings) = Vector { series, ..vector }.parts();
        let pile = AggregateCall { request: deal.whole.request.clone(), labels, readings, room: deal.whole.room };
        let answer = run(&pile).map_err(|r| format!("the whole answers, and a pile is refused: {r:?}"))?;
        // Row k of the pile is the total of the k-th edited label that is new in it.
        let first = |place: &&usize| places.iter().find(|p| edited[**p] == edited[**place]) == Some(*place);
        let firsts: Vec<usize> = places.iter().filter(first).copied().collect();
        let rows = again(&answer)?;
        if rows.points != vector.points || rows.grid != vector.grid || rows.series.len() != firsts.len() {
            return Err(format!(
                "a pile of {} totals answers {} series of {} points",
                firsts.len(),
                answer.series,
                answer.points
            ));
        }
        ranked.extend(firsts.into_iter().zip(rows.series));
    }
    ranked.sort_by_key(|(first, _)| *first);
    let merged = Vector { series: ranked.into_iter().map(|(_, row)| row).collect(), ..vector };
    let (part, readings) = merged.parts();
    let sizes = (merged.series.len(), merged.points, merged.grid);
    if (whole.series, whole.points, whole.grid) != sizes || whole.labels != part[SIZES..] || whole.readings != readings {
        return Err(format!("the piles' answers merged are {merged:?}, the whole's {whole:?}"));
    }
    Ok(true)
}

/// An answer taken as the vector that it is.
fn again(answer: &Answer) -> Result<Vector, String> {
    let sizes = [answer.series, answer.points, answer.labels.len()].map(|size| (size as u16).to_le_bytes()).concat();
    let part = [&sizes[..], &answer.grid.start.to_le_bytes(), &answer.grid.step.to_le_bytes(), &answer.labels].concat();
    take_vector(0, &part, &answer.readings).map_err(|r| format!("the answer is no vector: {r:?}"))
}
