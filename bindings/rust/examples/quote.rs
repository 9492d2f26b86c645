use nosingcatnip::{exec_binop, Vector};

fn main() -> Result<(), Box<dyn std::error::Error>> {
    // Three points, the first at 0, an hour apart.
    let (mut fed, mut waste) = (Vector::new(3, 0, 3_600_000), Vector::new(3, 0, 3_600_000));
    fed.push("fed", &[("press", "A")], &[10.0, f64::NAN, 6.0])?;
    waste.push("waste", &[("press", "A")], &[2.0, 1.0, 3.0])?;

    // The operator `/`; no matching, join or flags; two empty lists; an allowance of 2.
    let query = [4, 0, 0, 0, 0, 0, 2];
    let (mut labels, mut readings) = ([0; 64], [0; 8]);
    let answer = exec_binop(&query, fed.side(), waste.side(), &mut labels, &mut readings)?;
    for series in answer.read(&labels, &readings) {
        let tags = series.tags.iter().map(|(key, value)| format!("{}={}", key.escape_ascii(), value.escape_ascii()));
        println!("{{{}}} {:?}", tags.collect::<Vec<_>>().join(","), series.row);
    }
    Ok(())
}
