//! Thousands of random circuits, with and without tags: the solver against the literal one and against the closure, all marks, bounds and shown tags against
//! all runs that the tags allow.

mod literal;

use literal::{Literal, Tagging};
use second::brute::{pairs, satisfying_runs};
use second::compose::{compose, USUAL_SIZE};
use second::edge::{any_edge, tagged_digits, tied, Edge};
use second::generate::{any, small, tiny, Weaver, PRIMES};
use second::grow::grown;
use second::hand_in::{random_step, random_tags};
use second::marker::write_steps;
use second::pair::write_pair;
use second::planted::{planted, Planted};
use second::random::Random;
use second::reader::Circuit;
use second::rules::{Rules, Standing, Step, DIGITS, NONZERO, PRODUCT, QUOTIENT, ROOT, SUM, ZERO};
use second::runs::is_small;
use second::sheet::{read_sheet, write_sheet, Tag, MAXVALUE, NO_TAGS};
use second::solver::{derive, longest};
use second::vectors::{DERIVATION, SOLVE};
use second::writer::Draft;
use second::{check_derivation, check_pair, read_circuit, solve, worst, Judgement, Refusal};

fn same(literal: &literal::Standing, standing: &Standing, circuit: &Circuit) -> bool {
    let marks = |s: u16| (literal.marked.contains(&s), literal.nonzero.contains(&s)) == (standing.is_marked(s), standing.is_nonzero(s));
    circuit.all_signals().all(|s| literal.bounds[&s] == i128::from(standing.bound(s)) && marks(s))
}

/// Whether a value obeys a tag.
fn obeys(tag: &Tag, run: &[u32]) -> bool {
    i128::from(run[usize::from(tag.signal) - 1]) <= (Tagging::RIGHT.limit)(tag.kind, tag.number)
}

/// The satisfying runs in which every input obeys its tags.
fn allowed(circuit: &Circuit, tags: &[Tag], runs: &[Vec<u32>]) -> Vec<Vec<u32>> {
    runs.iter().filter(|run| tags.iter().all(|tag| tag.signal > circuit.inputs || obeys(tag, run))).cloned().collect()
}

/// No run exceeds a bound, and runs that share their inputs agree wherever there is a mark.
fn assert_sound(circuit: &Circuit, standing: &Standing, runs: &[Vec<u32>]) {
    let inputs = usize::from(circuit.inputs);
    for (index, run) in runs.iter().enumerate() {
        for signal in circuit.all_signals() {
            let at = usize::from(signal) - 1;
            assert!(u64::from(run[at]) <= standing.bound(signal), "bound of {signal} in {circuit:?}");
            if index > 0 && standing.is_marked(signal) && runs[index - 1][..inputs] == run[..inputs] {
                assert_eq!(runs[index - 1][at], run[at], "mark of {signal} in {circuit:?}");
            }
        }
    }
}

/// No satisfying run has the value 0 where there is a nonzero mark, whatever the tags on its inputs.
fn assert_nonzero(circuit: &Circuit, standing: &Standing, all: &[Vec<u32>]) {
    for signal in circuit.all_signals().filter(|&signal| standing.is_nonzero(signal)) {
        assert!(all.iter().all(|run| run[usize::from(signal) - 1] > 0), "nonzero mark of {signal} in {circuit:?}");
    }
}

/// Counted one by one: tags on signals other than inputs, shown at a standing or not. Each that is shown is obeyed by all allowed runs.
fn assert_shown(circuit: &Circuit, tags: &[Tag], standing: &Standing, runs: &[Vec<u32>]) {
    let (mut count, mut first) = (0, 0);
    for (index, tag) in tags.iter().enumerate().filter(|(_, tag)| tag.signal > circuit.inputs) {
        if i128::from(standing.bound(tag.signal)) <= (Tagging::RIGHT.limit)(tag.kind, tag.number) {
            count += 1;
            assert!(runs.iter().all(|run| obeys(tag, run)), "{tag:?} in {circuit:?}");
        } else if first == 0 {
            first = index + 1;
        }
    }
    let Judgement { shown, unshown, .. } = Judgement::of(circuit, tags, standing);
    assert_eq!((shown, unshown), (count, first), "{tags:?} in {circuit:?}");
}

/// The solver's derivation is the literal one, the marker accepts it with the same marks, and no order of steps reaches more.
fn assert_solved(rng: &mut Random, bytes: &[u8], circuit: &Circuit, tags: &[Tag]) -> Standing {
    let (n, sheet) = (usize::from(circuit.signals), write_sheet(tags));
    let literal = Literal::new(circuit, tags);
    let (steps, standing) = derive(circuit, tags);
    let (expected, expected_standing) = literal.solve();
    assert_eq!(steps, expected, "{tags:?} in {circuit:?}");
    assert!(same(&expected_standing, &standing, circuit));
    for signal in circuit.all_signals() {
        let of_kinds = |kinds: &[u8]| steps.iter().filter(|step| step.target == signal && kinds.contains(&step.kind)).count();
        assert!([&[ROOT, SUM][..], &[NONZERO], &[ZERO, PRODUCT, DIGITS, QUOTIENT]].into_iter().all(|kinds| of_kinds(kinds) <= 1));
    }
    let mut all = literal.all_steps();
    rng.shuffle(&mut all);
    assert!(same(&literal.closure(&all), &standing, circuit), "closure of {tags:?} in {circuit:?}");
    let (mut out, mut marks) = (vec![9; longest(n)], vec![9; n]);
    let (judgement, length) = solve(bytes, &sheet, &mut out).unwrap();
    assert_eq!(out[..length], write_steps(&steps));
    assert!(out[length..].iter().all(|&byte| byte == 9));
    assert_eq!(check_derivation(bytes, &sheet, &out[..length], &mut marks), Ok(judgement));
    let marked: Vec<u8> = circuit.all_signals().map(|s| u8::from(standing.is_marked(s))).collect();
    assert_eq!(marks, marked);
    let Judgement { count, fixed, shown, unshown } = judgement;
    assert_eq!(count, marks.iter().filter(|&&mark| mark == 1).count());
    assert_eq!([count, usize::from(fixed), shown, unshown].map(|number| number as u32), literal.judge(&expected_standing));
    standing
}

/// Random steps are met or not as the literal rules say; answers the standing that they reach, which isn't above the solver's.
fn assert_steps(rng: &mut Random, circuit: &Circuit, tags: &[Tag], tries: usize) -> Standing {
    let (rules, literal) = (Rules::new(circuit), Literal::new(circuit, tags));
    let (mut standing, mut expected) = (Standing::start(circuit, tags), literal.start());
    assert!(same(&expected, &standing, circuit), "start with {tags:?} in {circuit:?}");
    let (solved, best) = derive(circuit, tags);
    for _ in 0..tries {
        let from_solver = !solved.is_empty() && rng.once_in(3);
        let Some(step) = (if from_solver { Some(rng.pick(&solved)) } else { random_step(rng, circuit) }) else { continue };
        let next = literal.take(&expected, step);
        assert_eq!(rules.take(&mut standing, step), next.is_some(), "{step:?} in {circuit:?}");
        expected = next.unwrap_or(expected);
        assert!(same(&expected, &standing, circuit), "{step:?} in {circuit:?}");
    }
    assert_at_least(circuit, &best, &standing);
    standing
}

/// Every bound of the better standing is as low or lower, and every mark of the other is there, of both sorts.
fn assert_at_least(circuit: &Circuit, better: &Standing, other: &Standing) {
    for signal in circuit.all_signals() {
        assert!(better.bound(signal) <= other.bound(signal), "bound of {signal} in {circuit:?}");
        assert!(better.is_marked(signal) || !other.is_marked(signal), "mark of {signal} in {circuit:?}");
        assert!(better.is_nonzero(signal) || !other.is_nonzero(signal), "nonzero mark of {signal} in {circuit:?}");
    }
}

/// A circuit with at most 65,536 runs, of one of three sorts.
fn small_circuit(rng: &mut Random, round: usize) -> Vec<u8> {
    match round % 4 {
        0 => tiny(rng),
        1 => {
            let (p, most) = rng.pick(&[(3, 9), (5, 6), (7, 5), (13, 4), (31, 3)]);
            grown(rng, p, most)
        }
        _ => small(rng),
    }
}

#[test]
fn small_circuits_against_all_runs() {
    let mut rng = Random::new(2026);
    let (mut marks, mut lowered, mut fixed, mut divided, mut kinds) = (0, 0, 0, 0, [0; 8]);
    for round in 0..5000 {
        let bytes = small_circuit(&mut rng, round);
        let circuit = read_circuit(&bytes).unwrap();
        assert!(is_small(&circuit));
        let runs = satisfying_runs(&circuit);
        let standing = assert_solved(&mut rng, &bytes, &circuit, &[]);
        assert_sound(&circuit, &standing, &runs);
        assert_nonzero(&circuit, &standing, &runs);
        let partial = assert_steps(&mut rng, &circuit, &[], 60);
        assert_sound(&circuit, &partial, &runs);
        assert_nonzero(&circuit, &partial, &runs);
        for (q, first, second) in pairs(&circuit, &runs, 5) {
            assert!(!standing.is_marked(q));
            assert_eq!(check_pair(&bytes, NO_TAGS, &write_pair(q, &runs[first], &runs[second])), Ok(q));
        }
        marks += standing.count() - usize::from(circuit.inputs);
        lowered += circuit.all_signals().filter(|&s| standing.bound(s) < circuit.field.prime() - 1).count();
        fixed += usize::from(standing.is_fixed(&circuit) && !runs.is_empty());
        let steps = derive(&circuit, &[]).0;
        steps.iter().for_each(|step| kinds[usize::from(step.kind)] += 1);
        divided += usize::from(!runs.is_empty() && steps.iter().any(|step| step.kind == QUOTIENT));
    }
    // The circuits are worth their while: every rule is used often.
    assert!(marks > 3000 && lowered > 4000 && fixed > 400 && divided > 150, "{marks} {lowered} {fixed} {divided}");
    assert!(kinds[1..].iter().all(|&count| count > 300), "{kinds:?}");
}

#[test]
fn small_circuits_with_tags_against_all_allowed_runs() {
    let mut rng = Random::new(2027);
    let (mut fewer, mut lower, mut shown, mut unshown, mut inputs) = (0, 0, 0, 0, 0);
    for round in 0..6000 {
        let bytes = small_circuit(&mut rng, round);
        let circuit = read_circuit(&bytes).unwrap();
        let (all, tags) = (satisfying_runs(&circuit), random_tags(&mut rng, &circuit));
        let runs = allowed(&circuit, &tags, &all);
        let standing = assert_solved(&mut rng, &bytes, &circuit, &tags);
        assert_sound(&circuit, &standing, &runs);
        assert_nonzero(&circuit, &standing, &all);
        assert_shown(&circuit, &tags, &standing, &runs);
        let partial = assert_steps(&mut rng, &circuit, &tags, 60);
        assert_sound(&circuit, &partial, &runs);
        assert_nonzero(&circuit, &partial, &all);
        assert_shown(&circuit, &tags, &partial, &runs);
        assert_pairs(&bytes, &circuit, &tags, &all, &standing);
        // What the tags have done: fewer runs, lower bounds; inputs' bounds that were below p - 1 and are lowered further.
        let (start, bare) = (Standing::start(&circuit, &tags), derive(&circuit, &[]).1);
        assert_at_least(&circuit, &standing, &bare);
        let others = || circuit.inputs + 1..=circuit.signals;
        fewer += usize::from(runs.len() < all.len());
        lower += others().filter(|&s| standing.bound(s) < bare.bound(s)).count();
        shown += Judgement::of(&circuit, &tags, &standing).shown;
        unshown += usize::from(Judgement::of(&circuit, &tags, &standing).unshown > 1);
        inputs += (1..=circuit.inputs).filter(|&s| standing.bound(s) < start.bound(s) && start.bound(s) < circuit.field.prime() - 1).count();
    }
    assert!(fewer > 1000 && lower > 200 && shown > 2000 && unshown > 500 && inputs > 200, "{fewer} {lower} {shown} {unshown} {inputs}");
}

/// Circuits made of divisions, near misses among them.
#[test]
fn divisions_against_all_runs() {
    let mut rng = Random::new(2032);
    let (mut quotients, mut nonzero, mut satisfied, mut missed) = (0, 0, 0, 0);
    for round in 0..4000 {
        let bytes = divided(&mut rng);
        let circuit = read_circuit(&bytes).unwrap();
        let tags = if round % 3 == 0 { random_tags(&mut rng, &circuit) } else { Vec::new() };
        let all = satisfying_runs(&circuit);
        let runs = allowed(&circuit, &tags, &all);
        let standing = assert_solved(&mut rng, &bytes, &circuit, &tags);
        let partial = assert_steps(&mut rng, &circuit, &tags, 40);
        for standing in [&standing, &partial] {
            assert_sound(&circuit, standing, &runs);
            assert_nonzero(&circuit, standing, &all);
        }
        assert_pairs(&bytes, &circuit, &tags, &all, &standing);
        let steps = derive(&circuit, &tags).0;
        let (divides, by_mark) = (steps.iter().any(|step| step.kind == QUOTIENT), steps.iter().any(|step| step.kind == NONZERO));
        satisfied += usize::from(divides && runs.len() > 1);
        quotients += usize::from(divides);
        nonzero += usize::from(by_mark);
        // Never 0 in any run, and yet without a nonzero mark.
        let never = |signal: u16| !all.is_empty() && all.iter().all(|run| run[usize::from(signal) - 1] > 0);
        missed += usize::from(circuit.all_signals().any(|signal| never(signal) && !standing.is_nonzero(signal)));
    }
    assert!(quotients > 1000 && nonzero > 2500 && satisfied > 250 && missed > 300, "{quotients} {nonzero} {satisfied} {missed}");
}

/// A small circuit of divisions, with 2 to 6 signals, of which up to two are inputs.
fn divided(rng: &mut Random) -> Vec<u8> {
    let (p, most) = rng.pick(&[(5, 6), (5, 5), (7, 5), (13, 4), (31, 3)]);
    let n = rng.range(2, most) as u16;
    let inputs = rng.range(0, usize::from(n - 1).min(2)) as u16;
    let mut weaver = Weaver::new(rng, Draft::new(p, n, inputs, n - inputs));
    (0..weaver.rng.range(1, usize::from(n))).for_each(|_| weaver.any_division());
    weaver.draft.bytes()
}

/// Of a tiny circuit every standing that any derivation reaches: each is sound, and none has more than the solver's.
#[test]
fn every_derivation_of_tiny_circuits() {
    let mut rng = Random::new(2033);
    let (mut standings, mut whole) = (0, 0);
    for round in 0..400 {
        let bytes = if round % 2 == 0 { tiny(&mut rng) } else { divided(&mut rng) };
        let circuit = read_circuit(&bytes).unwrap();
        let tags = if round % 3 == 0 { random_tags(&mut rng, &circuit) } else { Vec::new() };
        let (all, best) = (satisfying_runs(&circuit), derive(&circuit, &tags).1);
        let (runs, reached) = (allowed(&circuit, &tags, &all), reached(&circuit, &tags, 3000));
        for standing in &reached {
            assert_sound(&circuit, standing, &runs);
            assert_nonzero(&circuit, standing, &all);
            assert_at_least(&circuit, &best, standing);
        }
        standings += reached.len();
        whole += usize::from(reached.len() < 3000 && reached.contains(&best));
    }
    assert!(standings > 4000 && whole > 360, "{standings} {whole}");
}

/// The standings that derivations reach, at most so many.
fn reached(circuit: &Circuit, tags: &[Tag], most: usize) -> Vec<Standing> {
    let (rules, steps) = (Rules::new(circuit), Literal::new(circuit, tags).all_steps());
    let (mut reached, mut at) = (vec![Standing::start(circuit, tags)], 0);
    while at < reached.len() && reached.len() < most {
        for &step in &steps {
            let mut next = reached[at].clone();
            if rules.progress(&mut next, step) == Some(true) && !reached.contains(&next) {
                reached.push(next);
            }
        }
        at += 1;
    }
    reached
}

/// Circuits in which marks rest on tags.
#[test]
fn marks_from_tags_against_all_allowed_runs() {
    let mut rng = Random::new(2030);
    let (mut more, mut small) = (0, 0);
    for _ in 0..600 {
        let Edge { circuit: bytes, tags, .. } = tagged_digits(&mut rng);
        let circuit = read_circuit(&bytes).unwrap();
        let standing = assert_solved(&mut rng, &bytes, &circuit, &tags);
        assert_steps(&mut rng, &circuit, &tags, 60);
        more += usize::from(standing.count() > derive(&circuit, &[]).1.count());
        if is_small(&circuit) {
            let all = satisfying_runs(&circuit);
            assert_sound(&circuit, &standing, &allowed(&circuit, &tags, &all));
            assert_pairs(&bytes, &circuit, &tags, &all, &standing);
            small += usize::from(standing.count() > derive(&circuit, &[]).1.count());
        }
    }
    assert!(more > 60 && small > 10, "{more} {small}");
}

/// Pairs of satisfying runs: accepted if the inputs obey, else 28 at the lowest input that doesn't.
fn assert_pairs(bytes: &[u8], circuit: &Circuit, tags: &[Tag], runs: &[Vec<u32>], standing: &Standing) {
    for (q, first, second) in pairs(circuit, runs, 8) {
        let run = &runs[first];
        let broken = (1..=circuit.inputs).find(|&input| tags.iter().any(|tag| tag.signal == input && !obeys(tag, run)));
        let expected = broken.map_or(Ok(q), |input| Err(Refusal { number: 28, place: input.into() }));
        assert_eq!(check_pair(bytes, &write_sheet(tags), &write_pair(q, run, &runs[second])), expected);
        assert!(broken.is_some() || !standing.is_marked(q));
    }
}

/// Tags on signals other than inputs, and limits of p - 1 and more, change neither the standing nor any derivation or pair.
#[test]
fn tags_that_assume_nothing_change_nothing() {
    let mut rng = Random::new(2028);
    for round in 0..1000 {
        let bytes = small_circuit(&mut rng, round);
        let circuit = read_circuit(&bytes).unwrap();
        let mut tags = random_tags(&mut rng, &circuit);
        tags.retain(|tag| tag.signal > circuit.inputs);
        tags.extend((1..=circuit.inputs).flat_map(|input| [Tag::new(input, 2, 30), Tag::new(input, MAXVALUE, circuit.field.prime() as u32 - 1)]));
        rng.shuffle(&mut tags);
        let (sheet, n) = (write_sheet(&tags), usize::from(circuit.signals));
        let (mut with, mut without) = (vec![0; longest(n)], vec![0; longest(n)]);
        let (one, length) = solve(&bytes, &sheet, &mut with).unwrap();
        let (two, _) = solve(&bytes, NO_TAGS, &mut without).unwrap();
        assert_eq!(with, without);
        assert_eq!((one.count, one.fixed, two.shown, two.unshown), (two.count, two.fixed, 0, 0));
        let marked = |sheet: &[u8], marks: &mut [u8]| check_derivation(&bytes, sheet, &with[..length], marks).map(|judgement| judgement.count);
        let (mut marks, mut bare) = (vec![9; n], vec![9; n]);
        assert_eq!(marked(&sheet, &mut marks), marked(NO_TAGS, &mut bare));
        assert_eq!(marks, bare);
        let runs = satisfying_runs(&circuit);
        for (q, first, second) in pairs(&circuit, &runs, 3) {
            assert_eq!(check_pair(&bytes, &sheet, &write_pair(q, &runs[first], &runs[second])), Ok(q));
        }
    }
}

/// The call without any sheet: every first bound is p - 1. With an empty sheet the calls answer the same.
#[test]
fn an_empty_sheet_gives_what_no_sheet_gave() {
    let mut rng = Random::new(2029);
    for _ in 0..1000 {
        let bytes = any(&mut rng, 8);
        let circuit = read_circuit(&bytes).unwrap();
        let most = circuit.field.prime() - 1;
        let start = Standing::start(&circuit, &read_sheet(&circuit, NO_TAGS).unwrap());
        assert!(circuit.all_signals().all(|signal| start.bound(signal) == most && start.is_marked(signal) == (signal <= circuit.inputs)));
        let literal = Literal::with(&circuit, &[], Tagging { first: |most, _, _| most, ..Tagging::RIGHT });
        let (steps, standing) = literal.solve();
        let mut out = vec![0; longest(circuit.signals.into())];
        let (judgement, length) = solve(&bytes, NO_TAGS, &mut out).unwrap();
        assert_eq!(out[..length], write_steps(&steps));
        assert_eq!((judgement.count, judgement.shown, judgement.unshown), (standing.marked.len(), 0, 0));
    }
}

#[test]
fn circuits_over_every_prime_against_the_literal_solver() {
    let mut rng = Random::new(7);
    for round in 0..2400 {
        let bytes = match round % 4 {
            0 => any(&mut rng, 10),
            1 => any_edge(&mut rng).circuit,
            2 => tied(&mut rng),
            _ => {
                let (p, most) = (rng.pick(&PRIMES), rng.range(2, 14) as u16);
                grown(&mut rng, p, most)
            }
        };
        let circuit = read_circuit(&bytes).unwrap();
        let tags = if round % 8 < 3 { Vec::new() } else { random_tags(&mut rng, &circuit) };
        assert_solved(&mut rng, &bytes, &circuit, &tags);
        assert_steps(&mut rng, &circuit, &tags, 60);
    }
}

#[test]
fn larger_circuits_against_the_literal_solver() {
    let mut rng = Random::new(8);
    for round in 0..12 {
        let p = rng.pick(&PRIMES);
        let bytes = grown(&mut rng, p, 40);
        let circuit = read_circuit(&bytes).unwrap();
        let tags = if round % 3 == 0 { Vec::new() } else { random_tags(&mut rng, &circuit) };
        assert_solved(&mut rng, &bytes, &circuit, &tags);
    }
}

#[test]
fn planted_pairs_are_accepted() {
    let mut rng = Random::new(10);
    for _ in 0..500 {
        let (p, n) = (rng.pick(&PRIMES), rng.range(1, 12) as u16);
        let constraints = rng.below(10);
        let Planted { circuit, q, first, second } = planted(&mut rng, p, n, constraints, 4);
        assert_eq!(check_pair(&circuit, NO_TAGS, &write_pair(q, &first, &second)), Ok(q));
        let read = read_circuit(&circuit).unwrap();
        assert!(!derive(&read, &[]).1.is_marked(q));
    }
}

/// On the worst circuits the naive search takes too long; but the marker accepts the derivation and no step changes anything after it.
#[test]
fn nothing_is_left_on_the_worst_circuits() {
    let bare = worst::all().into_iter().map(|(name, circuit)| (name, circuit, NO_TAGS.to_vec()));
    for (name, bytes, sheet) in bare.chain(worst::tagged().into_iter().map(|tagged| (tagged.name, tagged.circuit, tagged.sheet))) {
        let circuit = read_circuit(&bytes).unwrap();
        let (rules, tags) = (Rules::new(&circuit), read_sheet(&circuit, &sheet).unwrap());
        let (steps, standing) = derive(&circuit, &tags);
        let mut followed = Standing::start(&circuit, &tags);
        for (index, &step) in steps.iter().enumerate() {
            let before = followed.clone();
            assert!(rules.take(&mut followed, step) && followed != before, "{name}, step {}", index + 1);
        }
        assert_eq!(followed, standing, "{name}");
        for (number, constraint) in (1..).zip(&circuit.constraints) {
            let forms = [&constraint.a, &constraint.b, &constraint.c];
            let signals: Vec<u16> = forms.iter().flat_map(|form| form.signals()).map(|&(signal, _)| signal).collect();
            for &target in &signals {
                let references = signals.iter().filter(|_| !standing.is_marked(target));
                let referring = references.flat_map(|&reference| [DIGITS, QUOTIENT].map(|kind| Step::new(kind, target, number, reference)));
                for step in [ROOT, SUM, PRODUCT, NONZERO].map(|kind| Step::new(kind, target, number, 0)).into_iter().chain(referring) {
                    rules.take(&mut followed, step);
                }
            }
            assert_eq!(followed, standing, "{name}, constraint {number}");
        }
        assert!(circuit.all_signals().all(|signal| standing.is_marked(signal) || standing.bound(signal) > 0), "{name}");
    }
}

#[test]
fn the_largest_circuit() {
    for seed in 1..4 {
        let Planted { circuit, q, first, second } = worst::largest(seed);
        assert_eq!(circuit.len(), 59_999);
        let read = read_circuit(&circuit).unwrap();
        assert_eq!((read.signals, read.constraints.len()), (256, 512));
        assert_eq!(check_pair(&circuit, NO_TAGS, &write_pair(q, &first, &second)), Ok(q));
    }
}

/// The stored vectors' own circuits, where they are small: the solver's marks and bounds, and the marks of every accepted derivation.
#[test]
fn vectors_of_small_circuits_agree_with_all_runs() {
    let mut held = 0;
    for record in compose(1, USUAL_SIZE).iter().filter(|record| record.answer.number == 0 && [DERIVATION, SOLVE].contains(&record.kind)) {
        let circuit = read_circuit(&record.circuit).unwrap();
        if !is_small(&circuit) {
            continue;
        }
        let tags = read_sheet(&circuit, &record.sheet).unwrap();
        let (all, best) = (satisfying_runs(&circuit), derive(&circuit, &tags).1);
        let runs = allowed(&circuit, &tags, &all);
        assert_sound(&circuit, &best, &runs);
        assert_nonzero(&circuit, &best, &all);
        if record.kind == DERIVATION {
            let inputs = usize::from(circuit.inputs);
            for two in runs.windows(2).filter(|two| two[0][..inputs] == two[1][..inputs]) {
                let marks = record.answer.written.iter().enumerate();
                assert!(marks.filter(|&(_, &mark)| mark == 1).all(|(at, _)| two[0][at] == two[1][at]), "{circuit:?}");
            }
        }
        held += 1;
    }
    assert!(held > 500, "{held}");
}
