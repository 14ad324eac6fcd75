//! Reads cases from stdin, one a line; writes one answer a line for each. oracle/README.md has the kinds.

use crate::{
    cut::{cut, UpToProofs},
    fields::{self, Elem, ALGORITHM_ID},
    pine::{flp::PineType, msg::InputShareFor, vdaf::PineVec, Pine},
    xofs::{choose_stream, take_seen, ChosenXof, WatchedXof, STREAM_SHORT},
};
use prio_draft09::{
    codec::{Decode, Encode},
    field::{FftFriendlyFieldElement, Field128, Field64, FieldElement},
    flp::{FlpError, Gadget, Type},
    vdaf::{
        xof::{IntoFieldVec, Seed, Xof, XofTurboShake128},
        Aggregatable, Aggregator, Collector, PrepareTransition,
    },
};
use rand::RngCore;
use std::{
    any::Any,
    cell::{Cell, RefCell},
    fmt::Write as _,
    io::{BufRead, Write},
    panic::{catch_unwind, AssertUnwindSafe},
    rc::Rc,
};

enum Stop {
    /// The code under test returned an error.
    Err(String),
    /// The case is malformed.
    Bad(String),
}

type Answer = Result<String, Stop>;

fn bad<T>(s: impl Into<String>) -> Result<T, Stop> {
    Err(Stop::Bad(s.into()))
}

fn err(e: impl std::fmt::Display) -> Stop {
    Stop::Err(e.to_string())
}

// Reading

struct Words<'a>(std::str::SplitAsciiWhitespace<'a>);

impl<'a> Words<'a> {
    fn word(&mut self) -> Result<&'a str, Stop> {
        self.0.next().ok_or(Stop::Bad("too few words".into()))
    }

    fn int<T: std::str::FromStr>(&mut self) -> Result<T, Stop> {
        let w = self.word()?;
        w.parse().or_else(|_| bad(format!("not a decimal number in range: {w}")))
    }

    fn hex64(&mut self) -> Result<u64, Stop> {
        let w = self.word()?;
        u64::from_str_radix(w.strip_prefix("0x").unwrap_or(w), 16)
            .or_else(|_| bad(format!("not a 64-bit hex number: {w}")))
    }

    fn elem<F: Elem>(&mut self) -> Result<F, Stop> {
        let w = self.word()?;
        let Some(x) = F::from_hex(w.strip_prefix("0x").unwrap_or(w)) else {
            return bad(format!("not a {}-bit hex number: {w}", 8 * F::ENCODED_SIZE));
        };
        if x >= F::modulus() {
            return bad(format!("not a canonical element: {x:x}"));
        }
        Ok(F::from(x))
    }

    fn elems<F: Elem>(&mut self) -> Result<Vec<F>, Stop> {
        let n: usize = self.int()?;
        (0..n).map(|_| self.elem()).collect()
    }

    fn floats(&mut self) -> Result<Vec<f64>, Stop> {
        let n: usize = self.int()?;
        (0..n).map(|_| self.hex64().map(f64::from_bits)).collect()
    }

    fn bytes(&mut self) -> Result<Vec<u8>, Stop> {
        match self.word()? {
            "-" => Ok(Vec::new()),
            w => hex::decode(w).or_else(|_| bad(format!("not hex bytes: {w}"))),
        }
    }

    fn bytes16(&mut self) -> Result<[u8; 16], Stop> {
        self.bytes()?.try_into().or_else(|_| bad("not 16 bytes"))
    }

    /// n, d, f, c, e, T and K.
    fn param(&mut self) -> Result<[u64; 7], Stop> {
        let mut inputs = [0; 7];
        for x in &mut inputs {
            *x = self.int()?;
        }
        Ok(inputs)
    }

    fn end(&mut self) -> Result<(), Stop> {
        match self.0.next() {
            // The lengths of the rows that a caller lends, for those that lend them.
            None | Some("out") => Ok(()),
            Some(w) => bad(format!("too many words, from {w}")),
        }
    }
}

// Writing

fn elem<F: Elem>(x: F) -> String {
    format!("{:x}", F::Integer::from(x))
}

fn elems<F: Elem>(v: &[F]) -> String {
    let mut s = v.len().to_string();
    for x in v {
        write!(s, " {:x}", F::Integer::from(*x)).unwrap();
    }
    s
}

fn floats(v: &[f64]) -> String {
    let mut s = v.len().to_string();
    for x in v {
        write!(s, " {:016x}", x.to_bits()).unwrap();
    }
    s
}

fn bytes(v: &[u8]) -> String {
    if v.is_empty() {
        "-".into()
    } else {
        hex::encode(v)
    }
}

// Helpers

fn pine<F: Elem>(inputs: [u64; 7]) -> Result<Pine<F, XofTurboShake128, 16>, Stop> {
    fields::pine(inputs).map_err(err)
}

/// A field of `Pine` that is private to `pine`, read out of its derived `Debug` form.
fn debug_field(pine: &impl std::fmt::Debug, name: &str) -> usize {
    let s = format!("{pine:#?}");
    s.lines()
        .find_map(|l| l.strip_prefix("    ")?.strip_prefix(name)?.strip_prefix(": "))
        .and_then(|v| v.trim_end_matches(',').parse().ok())
        .unwrap_or_else(|| panic!("oracle: no field {name} in {s}"))
}

/// Enough of a `PineType` to encode or decode one coordinate.
fn one_coordinate<F: Elem>(frac_bits: usize) -> PineType<F> {
    PineType {
        dimension: 1,
        frac_bits,
        chunk_len: 1,
        num_wr_tests: 0,
        num_wr_successes: 0,
        sq_norm_bound: F::zero(),
        sq_norm_bits: 1,
        wr_test_bound: F::zero(),
        wr_test_bits: 1,
        input_len: 3,
        bit_checked_len: 2,
        gadget_calls: 1,
        algorithm_id: ALGORITHM_ID,
    }
}

fn seed(b: [u8; 16]) -> Seed<16> {
    Seed::get_decoded(&b).unwrap()
}

#[derive(Debug)]
struct Counted<G: FftFriendlyFieldElement> {
    inner: Box<dyn Gadget<G>>,
    calls: Rc<Cell<usize>>,
}

impl<G: FftFriendlyFieldElement> Gadget<G> for Counted<G> {
    fn call(&mut self, inp: &[G]) -> Result<G, FlpError> {
        self.calls.set(self.calls.get() + 1);
        self.inner.call(inp)
    }
    fn call_poly(&mut self, outp: &mut [G], inp: &[Vec<G>]) -> Result<(), FlpError> {
        self.inner.call_poly(outp, inp)
    }
    fn arity(&self) -> usize {
        self.inner.arity()
    }
    fn degree(&self) -> usize {
        self.inner.degree()
    }
    fn calls(&self) -> usize {
        self.inner.calls()
    }
    fn as_any(&mut self) -> &mut dyn Any {
        self
    }
}

fn encode<F: Elem, X: Xof<16>>(p: [u64; 7], g: Vec<f64>, s: [u8; 16]) -> Answer {
    let (meas, results) = pine::<F>(p)?.flp.encode_with_wr_joint_rand::<X, 16>(g.into_iter(), &seed(s)).map_err(err)?;
    Ok(format!("{} {}", elems(&meas), elems(&results)))
}

fn wr_tests<F: Elem, X: Xof<16>>(p: [u64; 7], g: Vec<F>, s: [u8; 16]) -> Answer {
    Ok(elems(&pine::<F>(p)?.flp.run_wr_tests::<X, 16>(&g, &seed(s))))
}

fn valid<F: Elem>(typ: &impl Type<Field = F>, meas: &[F], joint_rand: &[F], num_shares: usize) -> Answer {
    let calls = Rc::new(Cell::new(0));
    let mut gadgets: Vec<Box<dyn Gadget<F>>> = typ
        .gadget()
        .into_iter()
        .map(|inner| {
            let calls = calls.clone();
            Box::new(Counted { inner, calls }) as Box<dyn Gadget<F>>
        })
        .collect();
    let out = typ.valid(&mut gadgets, meas, joint_rand, num_shares).map_err(err)?;
    Ok(format!("{} {}", elem(out), calls.get()))
}

fn type_lens(name: &str, gadget_calls: usize, t: &impl Type) -> String {
    format!(
        "{name} gadget_calls {gadget_calls} proof_len {} verifier_len {} joint_rand_len {} prove_rand_len {} query_rand_len {}",
        t.proof_len(),
        t.verifier_len(),
        t.joint_rand_len(),
        t.prove_rand_len(),
        t.query_rand_len()
    )
}

// Commands

fn answer(line: &str) -> Answer {
    let mut w = Words(line.split_ascii_whitespace());
    let name = w.word()?;
    match name.strip_suffix("128") {
        Some(kind) => of_field::<Field128>(name, kind, w),
        None => of_field64(name, w),
    }
}

/// The kinds that there are of both fields.
fn of_field<F: Elem>(name: &str, kind: &str, mut w: Words) -> Answer {
    match kind {
        "params" => {
            let p = w.param()?;
            w.end()?;
            let pine = pine::<F>(p)?;
            let (t, e) = (&pine.flp, &pine.flp_sq_norm_equal);
            assert_eq!((t.input_len, t.sq_norm_bits), (e.input_len, e.sq_norm_bits));
            Ok(format!(
                "sq_norm_bound {} sq_norm_bits {} wr_test_bound {} wr_test_bits {} bit_checked_len {} encoded_input_len {} input_len {} {} {}",
                elem(t.sq_norm_bound),
                t.sq_norm_bits,
                elem(t.wr_test_bound),
                t.wr_test_bits,
                t.bit_checked_len,
                debug_field(&pine, "encoded_input_len"),
                t.input_len,
                type_lens("main", t.gadget_calls, t),
                type_lens("eq", e.gadget_calls, e),
            ))
        }
        "coord" => {
            let (f, x) = (w.int()?, f64::from_bits(w.hex64()?));
            w.end()?;
            // f64_to_field() is private to `pine`; this calls it, pushes what it gives, and then does the
            // squared norm, whose failure says nothing about the coordinate.
            let mut meas = Vec::new();
            let r = one_coordinate::<F>(f).append_encoded_gradient(&mut meas, std::iter::once(x));
            match (meas.first(), r) {
                (Some(x), _) => Ok(elem(*x)),
                (None, r) => Err(err(r.unwrap_err())),
            }
        }
        "decode" => {
            let (f, x) = (w.int()?, w.elem::<F>()?);
            w.end()?;
            let v = one_coordinate(f).decode_result(&[x], 1).map_err(err)?;
            Ok(format!("{:016x}", v[0].to_bits()))
        }
        "encode" => {
            let (p, g, s) = (w.param()?, w.floats()?, w.bytes()?);
            w.end()?;
            choose_stream(s);
            encode::<F, ChosenXof>(p, g, [0; 16])
        }
        "wrtests" => {
            let (p, g, s) = (w.param()?, w.elems()?, w.bytes()?);
            w.end()?;
            choose_stream(s);
            wr_tests::<F, ChosenXof>(p, g, [0; 16])
        }
        cmd @ ("valid" | "valideq") => {
            let (p, num_shares, meas, joint_rand): (_, usize, _, _) = (w.param()?, w.int()?, w.elems()?, w.elems()?);
            w.end()?;
            let pine = pine::<F>(p)?;
            if cmd == "valid" {
                valid(&pine.flp, &meas, &joint_rand, num_shares)
            } else {
                valid(&pine.flp_sq_norm_equal, &meas, &joint_rand, num_shares)
            }
        }
        cmd @ ("merge" | "accumulate") => {
            let (p, mut a, b) = (w.param()?, PineVec(w.elems::<F>()?), PineVec(w.elems()?));
            w.end()?;
            pine::<F>(p)?;
            if cmd == "merge" {
                a.merge(&b).map_err(err)?;
            } else {
                a.accumulate(&b).map_err(err)?;
            }
            Ok(elems(&a.0))
        }
        "aggregate" => {
            let (p, rows): (_, usize) = (w.param()?, w.int()?);
            let rows = (0..rows).map(|_| w.elems().map(PineVec)).collect::<Result<Vec<_>, _>>()?;
            w.end()?;
            Ok(elems(&pine::<F>(p)?.aggregate(&(), rows).map_err(err)?.0))
        }
        "unshard" => {
            let (p, a, b) = (w.param()?, PineVec(w.elems()?), PineVec(w.elems()?));
            w.end()?;
            Ok(floats(&pine::<F>(p)?.unshard(&(), [a, b], 1).map_err(err)?))
        }
        "truncate" => {
            let (p, v) = (w.param()?, w.elems()?);
            w.end()?;
            Ok(elems(&pine::<F>(p)?.flp.truncate(v).map_err(err)?))
        }
        _ => bad(format!("no such command: {name}")),
    }
}

/// Those, and the kinds that there are of Field64 alone.
fn of_field64(name: &str, mut w: Words) -> Answer {
    type F = Field64;
    match name {
        "encodeseed" => {
            let (p, g, s) = (w.param()?, w.floats()?, w.bytes16()?);
            w.end()?;
            encode::<F, XofTurboShake128>(p, g, s)
        }
        "wrtestsseed" => {
            let (p, g, s) = (w.param()?, w.elems()?, w.bytes16()?);
            w.end()?;
            wr_tests::<F, XofTurboShake128>(p, g, s)
        }
        "sample" => {
            let (p, mut s) = (w.param()?, w.bytes()?);
            w.end()?;
            if s.len() % F::ENCODED_SIZE != 0 {
                return bad("not whole numbers of 8 bytes");
            }
            let pine = fields::pine::<F, ChosenXof>(p).map_err(err)?;
            let n = debug_field(&pine, "encoded_input_len");
            // 32 numbers are asked for at a time. Those added are not below p, so they are passed over.
            s.resize((s.len() + 1).next_multiple_of(32 * F::ENCODED_SIZE), 0xff);
            choose_stream(s);
            let v: Vec<F> = ChosenXof::seed_stream(&seed([0; 16]), &[], &[]).into_field_vec(n);
            Ok(elems(&v))
        }
        "cut" => {
            let (p, g, nonce, five) = (w.param()?, w.floats()?, w.bytes16()?, w.bytes()?);
            w.end()?;
            let mut seeds = [[0; 16]; 5];
            if five.len() != seeds.as_flattened().len() {
                return bad("not five seeds of 16 bytes");
            }
            seeds.as_flattened_mut().copy_from_slice(&five);
            let pine = fields::pine::<F, UpToProofs<WatchedXof>>(p).map_err(err)?;
            let cut = cut(&pine, &g, &nonce, seeds).map_err(err)?;
            Ok(format!(
                "{} {} {}{}",
                elems(&cut.leader),
                elems(&cut.helper),
                bytes(&cut.wr_joint_rand_seed),
                bytes(&cut.vf_joint_rand_seed)
            ))
        }
        "seedstream" => {
            let (s, n): (_, usize) = (w.bytes16()?, w.int()?);
            w.end()?;
            // Have the unchanged run_wr_tests() make the stream: one byte per test at dimension 4.
            let t = PineType { dimension: 4, num_wr_tests: n, ..one_coordinate::<F>(0) };
            take_seen();
            t.run_wr_tests::<WatchedXof, 16>(&[F::zero(); 4], &seed(s));
            let seen = take_seen();
            assert_eq!((seen.len(), seen[0].bytes.len()), (1, n));
            Ok(format!("{} dst {} binder {}", bytes(&seen[0].bytes), bytes(&seen[0].dst), bytes(&seen[0].binder)))
        }
        // The bare XOF, for checks against published vectors.
        "xof" => {
            let (s, dst, binder, n): (_, _, _, usize) = (w.bytes16()?, w.bytes()?, w.bytes()?, w.int()?);
            w.end()?;
            let mut out = vec![0; n];
            XofTurboShake128::seed_stream(&seed(s), &dst, &binder).fill_bytes(&mut out);
            Ok(bytes(&out))
        }
        "xofvec" => {
            let (s, dst, binder, n): (_, _, _, usize) = (w.bytes16()?, w.bytes()?, w.bytes()?, w.int()?);
            w.end()?;
            let v: Vec<F> = XofTurboShake128::seed_stream(&seed(s), &dst, &binder).into_field_vec(n);
            Ok(elems(&v))
        }
        "shard" => {
            let (p, nonce) = (w.param()?, w.bytes16()?);
            let mut rand = [[0; 16]; 7];
            for r in &mut rand {
                *r = w.bytes16()?;
            }
            let g = w.floats()?;
            w.end()?;
            shard(p, &nonce, rand, &g)
        }
        "prio3sv64" => prio3_sum_vec_field64(w),
        kind => of_field::<F>(name, kind, w),
    }
}

fn shard(p: [u64; 7], nonce: &[u8; 16], rand: [[u8; 16]; 7], g: &[f64]) -> Answer {
    type F = Field64;
    let pine = pine::<F>(p)?;
    let (public, inputs) = pine.shard_with_rand(g, nonce, rand).map_err(err)?;
    let InputShareFor::Leader { meas_share: leader, proofs_share, .. } = &inputs[0].0 else {
        panic!("oracle: no leader share");
    };

    // Prepare with the unchanged code, which also gives the joint randomness seeds and checks the proofs.
    let mut states = Vec::new();
    let mut prep_shares = Vec::new();
    for (id, input) in inputs.iter().enumerate() {
        let (s, m) = pine
            .prepare_init(&[0; 16], id, &(), nonce, &public, input)
            .map_err(|e| Stop::Err(format!("prepare_init {id}: {e}")))?;
        states.push(s);
        prep_shares.push(m);
    }
    let prep = pine
        .prepare_shares_to_prepare_message(&(), prep_shares)
        .map_err(|e| Stop::Err(format!("prepare_shares_to_prepare_message: {e}")))?;
    let mut out_shares = Vec::new();
    for s in states {
        match pine.prepare_next(s, prep.clone()).map_err(|e| Stop::Err(format!("prepare_next: {e}")))? {
            PrepareTransition::Finish(o) => out_shares.push(o),
            PrepareTransition::Continue(..) => panic!("oracle: prepare did not finish"),
        }
    }

    // The helper's share is a seed. What it stands for is the measurement less the leader's share.
    let (meas, _) = pine
        .flp
        .encode_with_wr_joint_rand::<XofTurboShake128, 16>(g.iter().copied(), &prep.wr_joint_rand_seed)
        .map_err(err)?;
    assert_eq!(meas.len(), leader.len(), "oracle: lengths");
    let helper: Vec<F> = meas.iter().zip(leader).map(|(m, l)| *m - *l).collect();
    assert_eq!(&helper[..pine.flp.dimension], &out_shares[1].0[..], "oracle: helper's output share");
    assert_eq!(&leader[..pine.flp.dimension], &out_shares[0].0[..], "oracle: leader's output share");
    // The same again, drawn from its seed: version 1, algorithm, usage 1, then the aggregator's number.
    let mut dst = vec![1];
    dst.extend_from_slice(&ALGORITHM_ID.to_be_bytes());
    dst.extend_from_slice(&[0, 1]);
    let drawn: Vec<F> = XofTurboShake128::seed_stream(&seed(rand[0]), &dst, &[1]).into_field_vec(leader.len());
    assert_eq!(drawn, helper, "oracle: helper's share drawn from its seed");

    let hex16 = |s: &Seed<16>| hex::encode(s.get_encoded().unwrap());
    Ok(format!(
        "leader {} helper {} wr_seed {} vf_seed {} wr_parts {} {} vf_parts {} {} proofs {}",
        elems(leader),
        elems(&helper),
        hex16(&prep.wr_joint_rand_seed),
        hex16(&prep.vf_joint_rand_seed),
        hex16(&public.wr_joint_rand_parts[0]),
        hex16(&public.wr_joint_rand_parts[1]),
        hex16(&public.vf_joint_rand_parts[0]),
        hex16(&public.vf_joint_rand_parts[1]),
        elems(proofs_share),
    ))
}

/// Prio3SumVecField64Multiproof of VDAF-08, prepared from given shares: no part of PINE, but it puts the
/// same field, gadget, FLP and XOF code of `prio` to the vectors that come with it.
fn prio3_sum_vec_field64(mut w: Words) -> Answer {
    use prio_draft09::{
        codec::ParameterizedDecode,
        flp::{
            gadgets::{Mul, ParallelSum},
            types::SumVec,
        },
        vdaf::prio3::{Prio3, Prio3InputShare, Prio3PublicShare},
    };
    type V = Prio3<SumVec<Field64, ParallelSum<Field64, Mul<Field64>>>, XofTurboShake128, 16>;
    let (shares, bits, len, chunk): (u8, usize, usize, usize) = (w.int()?, w.int()?, w.int()?, w.int()?);
    let (key, nonce, public) = (w.bytes16()?, w.bytes16()?, w.bytes()?);
    let vdaf = V::new(shares, 3, 0xffff_ffff, SumVec::new(bits, len, chunk).map_err(err)?).map_err(err)?;
    let public = Prio3PublicShare::get_decoded_with_param(&vdaf, &public).map_err(err)?;
    let (mut states, mut preps) = (Vec::new(), Vec::new());
    for id in 0..usize::from(shares) {
        let input = Prio3InputShare::get_decoded_with_param(&(&vdaf, id), &w.bytes()?).map_err(err)?;
        let (s, m) = vdaf.prepare_init(&key, id, &(), &nonce, &public, &input).map_err(err)?;
        states.push(s);
        preps.push(m);
    }
    w.end()?;
    let mut out: Vec<String> = preps.iter().map(|m| bytes(&m.get_encoded().unwrap())).collect();
    let msg = vdaf.prepare_shares_to_prepare_message(&(), preps).map_err(err)?;
    out.push(bytes(&msg.get_encoded().unwrap()));
    for s in states {
        let PrepareTransition::Finish(o) = vdaf.prepare_next(s, msg.clone()).map_err(err)? else {
            panic!("oracle: prepare did not finish");
        };
        out.push(elems(o.as_ref()));
    }
    Ok(out.join(" "))
}

thread_local! {
    static PANIC: RefCell<String> = const { RefCell::new(String::new()) };
}

fn one_line(s: &str) -> String {
    s.split_whitespace().collect::<Vec<_>>().join(" ")
}

pub fn main() {
    std::panic::set_hook(Box::new(|info| {
        let what = info
            .payload()
            .downcast_ref::<&str>()
            .map(|s| s.to_string())
            .or_else(|| info.payload().downcast_ref::<String>().cloned())
            .unwrap_or_default();
        let at = info.location().map(|l| format!(" @{}:{}", l.file(), l.line())).unwrap_or_default();
        PANIC.set(what + &at);
    }));
    let mut out = std::io::BufWriter::new(std::io::stdout().lock());
    for line in std::io::stdin().lock().lines() {
        let line = line.expect("stdin");
        if line.trim().is_empty() || line.starts_with('#') {
            continue;
        }
        let r = match catch_unwind(AssertUnwindSafe(|| answer(&line))) {
            Ok(Ok(s)) => format!("ok {s}"),
            Ok(Err(Stop::Err(s))) => format!("err {}", one_line(&s)),
            Ok(Err(Stop::Bad(s))) => format!("bad {}", one_line(&s)),
            Err(_) => {
                let s = one_line(&PANIC.take());
                if s.starts_with(STREAM_SHORT) {
                    format!("bad {STREAM_SHORT}")
                } else {
                    format!("panic {s}")
                }
            }
        };
        writeln!(out, "{r}").expect("stdout");
    }
    out.flush().expect("stdout");
}
