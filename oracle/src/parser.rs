//! Stands in for the original parser.rs: reads the text of a run (docs/, "The text of a run"), builds the Rust's own
//! tables from its words, calls `whnf` or `infer` (InferOnly) of tc.rs, and answers each call with one line:
//!
//!   reads TERM        the read-out of the Rust's answer
//!   left out TERM     the read-out where the parts that document 01 leaves out are shut out; with them the Rust answers otherwise
//!   panic WHAT        the Rust panics; WHAT ends in file:line
//!   endless           no answer within `opt ticks`
//!   not posable WHAT  the Rust has no such table
//!
//! Each call is made twice. Shut: the names that tc.rs takes for zero and succ are aliases that no term holds, and every rule
//! of zero or succ is there for its alias too; so numbers as majors work, but no succ of a number is reduced and no zero is
//! read as a number. Structures count as recursive, so there is no structure eta. Open: as the Rust has it.
//! Nothing is tested here for being accepted: the other side does that.
//! Statements of this side alone: `opt osnf off|shallow|deep`, `opt cache on|off`, `opt ticks N`, `opt open 0|1` (1: the open
//! call alone), and `opt nanoda 1` (the locally nameless checker; depth 0 only).
use crate::env::{ConstructorData, Declar, DeclarInfo, EnvLimit, InductiveData, RecRule, RecursorData, ReducibilityHint};
use crate::expr::{BinderStyle, Expr};
use crate::level::Level;
use crate::name::Name;
use crate::nanoda_tc::NanodaTypeChecker;
use crate::tc::{InferFlag, TypeChecker};
use crate::util::*;
use num_bigint::BigUint;
use num_traits::ToPrimitive;
use std::sync::Arc;

type Row = [u32; 7];
type P = (u32, u32);
const ALIAS: u64 = 1 << 33;
const PARAM: u64 = 1 << 32;
const LONGEST: usize = 65_536;

#[derive(Clone, Copy)]
pub struct Opts { osnf: Osnf, cache: bool, ticks: u64, nanoda: bool, open: bool }

/// The words as they were read. `answer`: the last answer's rows, numbered after the library's and the scratch's.
#[derive(Default)]
struct Words { lib: Vec<u32>, decl: Vec<u32>, rule: Vec<u32>, ctx: Vec<u32>, scr: Vec<u32>, mark: u32, depth: u32 }

struct Built { ef: ExportFile<'static>, ptrs: Vec<ExprPtr<'static>> }

// ---------------------------------------------------------------- from words to the Rust's tables

fn named<'a>(b: &mut Builder<'_, 'a>, n: u64) -> NamePtr<'a> {
    let anon = Ptr::from(DagMarker::ExportFile, 0);
    b.alloc_name(Name::Num(anon, n))
}
fn half(n: u32, what: &str) -> Result<u16, String> { u16::try_from(n).map_err(|_| format!("{} {}", what, n)) }

fn build_row<'a>(b: &mut Builder<'_, 'a>, at: impl Fn(usize) -> ExprPtr<'a>, w: &Row) -> ExprPtr<'a> {
    let anon: NamePtr<'a> = Ptr::from(DagMarker::ExportFile, 0);
    let st = BinderStyle::Default;
    match w[0] {
        0 => b.mk_var(u16::try_from(w[1]).unwrap()),
        1 => {
            let mut l = b.alloc_level(Level::Zero);
            for _ in 0..w[1] { l = b.level_succ(l) }
            b.mk_sort(l)
        }
        2 => {
            let z = b.alloc_level(Level::Zero);
            let n = named(b, w[1] as u64);
            let ls = b.alloc_levels(Arc::from(vec![z; w[2] as usize]));
            b.mk_const(n, ls)
        }
        3 => b.mk_app(at(1), at(3)),
        4 => b.mk_lambda(anon, st, at(1), at(3)),
        5 => b.mk_pi(anon, st, at(1), at(3)),
        6 => b.mk_let(anon, at(1), at(3), at(5), false),
        7 => { let n = named(b, w[3] as u64); b.mk_proj(n, w[4], at(1)) }
        8 => { let v = b.alloc_bignum(BigUint::from(w[1] as u64 | ((w[2] as u64) << 32))); b.mk_nat_lit(v) }
        k => panic!("row kind {}", k),
    }
}

fn build(t: &Words, o: &Opts) -> Result<Built, String> {
    let mut dag: LeanDag<'static> = LeanDag::new_export();
    let mut ptrs: Vec<ExprPtr<'static>> = Vec::new();
    let mut declars = new_fx_index_map();
    let mut nc = NameCache::default();
    {
        let mut b = Builder { base: None, dag: &mut dag, osnf: o.osnf };
        for c in t.lib.chunks_exact(9) {
            let w: Row = c[..7].try_into().unwrap();
            let e = build_row(&mut b, |i| ptrs[w[i] as usize].shift_up(u16::try_from(w[i + 1]).unwrap()), &w);
            ptrs.push(e)
        }
        let closed = |r: u32| -> CorePtr<'static> { let e = ptrs[r as usize]; assert!(e.is_closed(), "not closed"); e.core };
        for (d, w) in t.decl.chunks_exact(16).enumerate() {
            let name = named(&mut b, d as u64);
            let params: Vec<LevelPtr<'static>> = (0..w[1]).map(|i| {
                let n = named(&mut b, PARAM + i as u64);
                b.alloc_level(Level::Param(n, crate::hash64!(crate::level::PARAM_HASH, n)))
            }).collect();
            let uparams = b.alloc_levels(Arc::from(params));
            let info = DeclarInfo { name, uparams, ty: closed(w[2]) };
            if w[0] != 0 && w[4] == 1 { return Err(format!("declaration {}: a value, and no definition", d)) }
            let declar = match w[0] {
                0 if w[4] == 1 => Declar::Definition { info, val: closed(w[5]), hint: ReducibilityHint::Regular(0) },
                0 if (6..=8).contains(&w[7]) => Declar::Quot { info },
                0 => Declar::Axiom { info },
                1 => {
                    let of = t.decl.chunks_exact(16).position(|y| y[0] == 3 && y[9] == d as u32).unwrap_or(d);
                    let inductive_name = named(&mut b, of as u64);
                    Declar::Constructor(ConstructorData { info, inductive_name, ctor_idx: 0,
                        num_params: half(w[8], "parameters")?, num_fields: half(w[9], "fields")? })
                }
                2 => {
                    let mut rules: Vec<RecRule<'static>> = Vec::new();
                    for r in t.rule.chunks_exact(4).skip(w[13] as usize).take(w[14] as usize) {
                        let one = RecRule { ctor_name: named(&mut b, r[0] as u64), ctor_telescope_size_wo_params: half(r[1], "fields")?, val: closed(r[2]) };
                        rules.push(one);
                        if !o.open && matches!(t.decl[16 * r[0] as usize + 7], 2 | 3) {
                            rules.push(RecRule { ctor_name: named(&mut b, ALIAS + r[0] as u64), ..one })
                        }
                    }
                    Declar::Recursor(RecursorData { info, all_inductives: Arc::from(vec![]), num_params: half(w[8], "parameters")?,
                        num_motives: half(w[9], "motives")?, num_minors: half(w[10], "minors")?, num_indices: half(w[11], "indices")?,
                        rec_rules: Arc::from(rules), is_k: w[12] != 0 })
                }
                3 => {
                    let ctor = named(&mut b, w[9] as u64);
                    Declar::Inductive(InductiveData { info, is_recursive: !o.open, is_nested: false, num_params: half(w[8], "parameters")?,
                        num_indices: 0, all_ind_names: Arc::from(vec![name]), all_ctor_names: Arc::from(vec![ctor]) })
                }
                k => return Err(format!("declaration {}: kind {}", d, k)),
            };
            let alias = if o.open { name } else { named(&mut b, ALIAS + d as u64) };
            match w[7] {
                0 => {}
                1 => nc.nat = Some(name), 2 => nc.nat_zero = Some(alias), 3 => nc.nat_succ = Some(alias),
                4 => nc.bool_true = Some(name), 5 => nc.bool_false = Some(name),
                6 => nc.quot_mk = Some(name), 7 => nc.quot_lift = Some(name), 8 => nc.quot_ind = Some(name),
                9 => nc.nat_add = Some(name), 10 => nc.nat_sub = Some(name), 11 => nc.nat_mul = Some(name), 12 => nc.nat_div = Some(name),
                13 => nc.nat_mod = Some(name), 14 => nc.nat_beq = Some(name), 15 => nc.nat_ble = Some(name),
                r => return Err(format!("declaration {}: role {}", d, r)),
            }
            declars.insert(name, declar);
        }
    }
    let config = Config { nat_extension: true, string_extension: false, ..Config::default() };
    Ok(Built { ef: ExportFile { dag, declars, notations: new_fx_hash_map(), name_cache: nc, config, osnf: o.osnf }, ptrs })
}

// ---------------------------------------------------------------- from the Rust's terms to the read-out, and to rows

fn level_num<'t, 'p: 't>(c: &TcCtx<'t, 'p>, l: LevelPtr<'t>) -> u32 {
    match c.read_level(l) {
        Level::Zero => 0,
        Level::Succ(p, _) => level_num(c, p) + 1,
        Level::Max(a, b, _) => level_num(c, a).max(level_num(c, b)),
        Level::IMax(a, b, _) => { let b = level_num(c, b); if b == 0 { 0 } else { level_num(c, a).max(b) } }
        Level::Param(..) => panic!("a level parameter in an answer"),
    }
}
fn decl_num<'t, 'p: 't>(c: &TcCtx<'t, 'p>, n: NamePtr<'t>) -> u64 { match c.read_name(n) { Name::Num(_, d) => d, _ => panic!("a name in an answer") } }

/// `pend`: shifts still to be carried out, innermost last, each with its cutoff at this place.
fn read_out<'t, 'p: 't>(c: &TcCtx<'t, 'p>, e: ExprPtr<'t>, pend: &[(u64, u64)], s: &mut String) {
    if s.len() > LONGEST { return }
    let mut pend = pend.to_vec();
    if !e.is_closed() && e.shift > 0 { pend.push((e.shift as u64, 0)) }
    let under = || -> Vec<(u64, u64)> { pend.iter().map(|&(a, cut)| (a, cut + 1)).collect() };
    match c.read_expr(e.core) {
        Expr::Var { dbj_idx } => {
            let mut i = dbj_idx as u64;
            for &(a, cut) in pend.iter().rev() { if i >= cut { i += a } }
            s.push_str(&format!("v{}", i))
        }
        Expr::Sort { level } => s.push_str(&format!("s{}", level_num(c, level))),
        Expr::Const { name, levels } => {
            s.push_str(&format!("c{}", decl_num(c, name)));
            match c.read_levels(levels).len() { 0 => {}, n => s.push_str(&format!(".{}", n)) }
        }
        Expr::NatLit { ptr } => s.push_str(&format!("n{}", c.read_bignum(ptr).unwrap())),
        Expr::App { fun, arg } => { s.push_str("(@ "); read_out(c, fun, &pend, s); s.push(' '); read_out(c, arg, &pend, s); s.push(')') }
        Expr::Lambda { binder_type, body, .. } => { s.push_str("(lam "); read_out(c, binder_type, &pend, s); s.push(' '); read_out(c, body, &under(), s); s.push(')') }
        Expr::Pi { binder_type, body, .. } => { s.push_str("(pi "); read_out(c, binder_type, &pend, s); s.push(' '); read_out(c, body, &under(), s); s.push(')') }
        Expr::Let { binder_type, val, body, .. } => {
            s.push_str("(let "); read_out(c, binder_type, &pend, s); s.push(' '); read_out(c, val, &pend, s); s.push(' ');
            read_out(c, body, &under(), s); s.push(')')
        }
        Expr::Proj { ty_name, idx, structure } => { s.push_str(&format!("(proj {} {} ", decl_num(c, ty_name), idx)); read_out(c, structure, &pend, s); s.push(')') }
        Expr::StringLit { .. } | Expr::Local { .. } => panic!("a string or a local in an answer"),
    }
}

/// The term as rows, for `again`; a pointer is numbered from 0 here.
fn as_rows<'t, 'p: 't>(c: &TcCtx<'t, 'p>, e: ExprPtr<'t>, seen: &mut FxHashMap<CorePtr<'t>, u32>, rows: &mut Vec<Row>) -> Option<P> {
    let shift = if e.is_closed() { 0 } else { e.shift as u32 };
    if let Some(&r) = seen.get(&e.core) { return Some((r, shift)) }
    let mut go = |x: ExprPtr<'t>, rows: &mut Vec<Row>| as_rows(c, x, seen, rows);
    let row: Row = match c.read_expr(e.core) {
        Expr::Var { dbj_idx } => [0, dbj_idx as u32, 0, 0, 0, 0, 0],
        Expr::Sort { level } => [1, level_num(c, level), 0, 0, 0, 0, 0],
        Expr::Const { name, levels } => [2, decl_num(c, name) as u32, c.read_levels(levels).len() as u32, 0, 0, 0, 0],
        Expr::NatLit { ptr } => { let n = c.read_bignum(ptr).unwrap().to_u64()?; [8, n as u32, (n >> 32) as u32, 0, 0, 0, 0] }
        Expr::App { fun, arg } => { let (f, a) = (go(fun, rows)?, go(arg, rows)?); [3, f.0, f.1, a.0, a.1, 0, 0] }
        Expr::Lambda { binder_type, body, .. } => { let (t, b) = (go(binder_type, rows)?, go(body, rows)?); [4, t.0, t.1, b.0, b.1, 0, 0] }
        Expr::Pi { binder_type, body, .. } => { let (t, b) = (go(binder_type, rows)?, go(body, rows)?); [5, t.0, t.1, b.0, b.1, 0, 0] }
        Expr::Let { binder_type, val, body, .. } => { let (t, v, b) = (go(binder_type, rows)?, go(val, rows)?, go(body, rows)?); [6, t.0, t.1, v.0, v.1, b.0, b.1] }
        Expr::Proj { ty_name, idx, structure } => { let x = go(structure, rows)?; [7, x.0, x.1, decl_num(c, ty_name) as u32, idx, 0, 0] }
        Expr::StringLit { .. } | Expr::Local { .. } => return None,
    };
    rows.push(row);
    seen.insert(e.core, rows.len() as u32 - 1);
    Some((rows.len() as u32 - 1, shift))
}

// ---------------------------------------------------------------- one call

thread_local! { static LAST: std::cell::RefCell<String> = const { std::cell::RefCell::new(String::new()) }; }

enum Out { Reads(String, Option<(Vec<Row>, P)>), Panic(String) }

/// What is asked: a row of the library or the scratch, or the last answer.
#[derive(Clone)]
enum Asked { Row(P), Answer(Vec<Row>, P) }

const TERMS: [&[usize]; 9] = [&[], &[], &[], &[1, 3], &[1, 3], &[1, 3], &[1, 3, 5], &[1], &[]];

fn call(t: &Words, b: &Built, o: &Opts, infer: bool, asked: &Asked) -> Out {
    let r = std::panic::catch_unwind(std::panic::AssertUnwindSafe(|| {
        set_ticks(u64::MAX);
        let mut ctx = TcCtx::new(&b.ef);
        let env = b.ef.new_env(EnvLimit::PpUnlimited);
        let lib = b.ptrs.len();
        let records: Vec<&[u32]> = t.ctx.chunks_exact(5).take(t.depth as usize).collect();
        assert!(records.len() == t.depth as usize, "not posable: depth");
        // the scratch rows that are needed, from the highest down
        let rows: Vec<&[u32]> = t.scr.chunks_exact(9).take(t.mark as usize).collect();
        let mut need = vec![false; rows.len()];
        let mut want = |r: u32| if r as usize >= lib { assert!((r as usize) < lib + need.len(), "not posable: a row past the mark"); need[r as usize - lib] = true };
        for w in &records { want(w[0]); if w[4] == 1 { want(w[2]) } }
        if let Asked::Row(p) = asked { want(p.0) }
        for i in (0..rows.len()).rev() {
            if need[i] { for &j in TERMS[rows[i][0] as usize] { if rows[i][j] as usize >= lib { need[rows[i][j] as usize - lib] = true } } }
        }
        let mut ptrs: Vec<ExprPtr<'_>> = Vec::new();
        let blank = ExprPtr::closed(Ptr::from(DagMarker::ExportFile, 0));
        for (i, c) in rows.iter().enumerate() {
            if !need[i] { ptrs.push(blank); continue }
            let w: Row = c[..7].try_into().unwrap();
            let at = |i: usize| { let r = w[i] as usize; (if r < lib { b.ptrs[r] } else { ptrs[r - lib] }).shift_up(u16::try_from(w[i + 1]).unwrap()) };
            let e = build_row(&mut ctx.b(), at, &w);
            ptrs.push(e)
        }
        let at = |p: P| { let r = p.0 as usize; (if r < lib { b.ptrs[r] } else { ptrs[r - lib] }).shift_up(u16::try_from(p.1).unwrap()) };
        let e = match asked {
            Asked::Row(p) => at(*p),
            Asked::Answer(rows, p) => {
                let mut own: Vec<ExprPtr<'_>> = Vec::new();
                for w in rows { let e = build_row(&mut ctx.b(), |i| own[w[i] as usize].shift_up(w[i + 1] as u16), w); own.push(e) }
                own[p.0 as usize].shift_up(p.1 as u16)
            }
        };
        let r = if o.nanoda {
            assert!(t.depth == 0, "not posable: the locally nameless checker wants depth 0");
            let mut tc = NanodaTypeChecker::new(&mut ctx, &env, None);
            set_ticks(o.ticks);
            if infer { tc.infer(e, crate::nanoda_tc::InferFlag::InferOnly) } else { tc.whnf(e) }
        } else {
            let mut tc = TypeChecker::new(&mut ctx, &env, None);
            tc.tc_cache.on = o.cache;
            for w in &records {
                if w[4] == 1 { tc.tc_cache.push_local_let(at((w[0], w[1])), at((w[2], w[3]))) } else { tc.tc_cache.push_local(at((w[0], w[1]))) };
            }
            set_ticks(o.ticks);
            if infer { tc.infer(e, InferFlag::InferOnly) } else { tc.whnf(e) }
        };
        set_ticks(u64::MAX);
        let mut s = String::new();
        read_out(&ctx, r, &[], &mut s);
        if s.len() > LONGEST { s = "...".to_string() }
        let mut own = Vec::new();
        let p = as_rows(&ctx, r, &mut new_fx_hash_map(), &mut own);
        Out::Reads(s, p.map(|p| (own, p)))
    }));
    set_ticks(u64::MAX);
    r.unwrap_or_else(|_| LAST.with(|l| Out::Panic(l.borrow().clone())))
}

fn line_of(shut: &Out, open: Option<&Out>) -> String {
    match (shut, open) {
        (Out::Panic(w), _) if w.starts_with("ticks") => "endless".to_string(),
        (Out::Panic(w), _) if w.starts_with("not posable") => w.clone(),
        (Out::Panic(w), _) => format!("panic {}", w),
        (Out::Reads(a, _), Some(Out::Reads(b, _))) if a != b => format!("left out {}", a),
        (Out::Reads(a, _), Some(Out::Panic(_))) => format!("left out {}", a),
        (Out::Reads(a, _), _) => format!("reads {}", a),
    }
}

pub fn main_loop(input: impl Iterator<Item = String>, mut emit: impl FnMut(&str)) {
    std::panic::set_hook(Box::new(|i| {
        let m = if let Some(s) = i.payload().downcast_ref::<&str>() { s.to_string() } else if let Some(s) = i.payload().downcast_ref::<String>() { s.clone() } else { "?".to_string() };
        let at = i.location().map(|l| format!(" at {}:{}", l.file().rsplit('/').next().unwrap_or(""), l.line())).unwrap_or_default();
        LAST.with(|l| *l.borrow_mut() = format!("{}{}", m.replace('\n', " "), at));
    }));
    let mut t = Words::default();
    let mut o = Opts { osnf: Osnf::Shallow, cache: true, ticks: 2_000_000, nanoda: false, open: false };
    let mut only_open = false;
    let mut built: Option<Result<(Built, Built), String>> = None;
    let mut last: Option<(bool, Option<Asked>)> = None;
    for (no, line) in input.enumerate() {
        let mut words = line.split('#').next().unwrap().split_whitespace();
        let Some(key) = words.next() else { continue };
        if key == "opt" {
            let w: Vec<&str> = words.collect();
            match (w[0], w[1]) {
                ("osnf", v) => o.osnf = match v { "off" => Osnf::Off, "deep" => Osnf::Deep, _ => Osnf::Shallow },
                ("cache", v) => o.cache = v == "on",
                ("ticks", v) => o.ticks = v.parse().unwrap(),
                ("open", v) => only_open = v == "1",
                ("nanoda", v) => o.nanoda = v == "1",
                x => panic!("option {:?}", x),
            }
            built = None;
            continue
        }
        let Ok(n) = words.map(|w| w.parse::<u32>()).collect::<Result<Vec<u32>, _>>() else { emit(&format!("line {}: a number is wanted", no + 1)); return };
        match (key, n.len()) {
            ("lib", _) => { t.lib.extend(n); built = None }
            ("decl", _) => { t.decl.extend(n); built = None }
            ("rule", _) => { t.rule.extend(n); built = None }
            ("ctx", _) => t.ctx.extend(n),
            ("scr", _) => t.scr.extend(n),
            ("fill", 1) => t.scr.resize(t.scr.len() + n[0] as usize, u32::MAX),
            ("spare", 1) => t.ctx.resize(t.ctx.len() + n[0] as usize, u32::MAX),
            ("mark", 1) => t.mark = n[0],
            ("depth", 1) => t.depth = n[0],
            ("steps", 1) | ("nesting", 1) => {}
            ("reset", 0) => { t = Words::default(); built = None; last = None }
            ("whnf", 2) | ("infer", 2) | ("again", 0) => {
                let (infer, asked) = if key == "again" {
                    match last.take() {
                        None => { emit(&format!("line {}: nothing to do again", no + 1)); return }
                        Some((i, a)) => (i, a),
                    }
                } else { (key == "infer", Some(Asked::Row((n[0], n[1])))) };
                let b = built.get_or_insert_with(|| {
                    std::panic::catch_unwind(|| {
                        let shut = build(&t, &Opts { open: only_open, ..o })?;
                        Ok((shut, build(&t, &Opts { open: true, ..o })?))
                    }).unwrap_or_else(|_| LAST.with(|l| Err(l.borrow().clone())))
                });
                let (line, answer) = match (b, asked) {
                    (Err(e), _) => (format!("not posable {}", e), None),
                    (_, None) => ("not posable no answer to go on from".to_string(), None),
                    (Ok((shut, open)), Some(asked)) => {
                        let one = call(&t, shut, &Opts { open: only_open, ..o }, infer, &asked);
                        let two = if only_open || matches!(one, Out::Panic(_)) { None } else { Some(call(&t, open, &Opts { open: true, ..o }, infer, &asked)) };
                        let line = line_of(&one, two.as_ref());
                        (line, match one { Out::Reads(_, Some((rows, p))) => Some(Asked::Answer(rows, p)), _ => None })
                    }
                };
                emit(&line);
                last = Some((infer, answer));
            }
            _ => { emit(&format!("line {}: no statement", no + 1)); return }
        }
    }
}
