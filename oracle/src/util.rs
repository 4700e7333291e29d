//! RECONSTRUCTED support module (the original util.rs is not at hand).
//! Written only from the way tc.rs, expr.rs, level.rs, env.rs, quot.rs and nanoda_tc.rs use it.
use crate::env::{DeclarInfo, DeclarMap, Env, EnvLimit, NotationMap};
use crate::expr::{BinderStyle, Expr, FVarId};
use crate::level::{Level, IMAX_HASH, MAX_HASH, PARAM_HASH, SUCC_HASH};
use crate::nanoda_tc::NanodaTypeChecker;
use crate::name::Name;
use crate::tc::TypeChecker;
use num_bigint::BigUint;
use num_integer::Integer;
use num_traits::{ToPrimitive, Zero};
use std::hash::{BuildHasherDefault, Hash, Hasher};
use std::marker::PhantomData;
use std::sync::Arc;

#[macro_export]
macro_rules! hash64 {
    ( $( $x:expr ),* ) => {
        {
            use std::hash::{Hash, Hasher};
            let mut hasher = rustc_hash::FxHasher::default();
            $( ($x).hash(&mut hasher); )*
            hasher.finish()
        }
    };
}

/// Look a key up in the base table (bucket 0) or in the frame of depth `bucket`.
#[macro_export]
macro_rules! depth_get {
    ( ref $cache:expr, $bucket:expr, $key:expr, $base:ident, $field:ident ) => {
        if $bucket == 0 { $cache.$base.get($key) } else { $cache.frames.get($bucket - 1).and_then(|f| f.$field.get($key)) }
    };
}

#[macro_export]
macro_rules! depth_insert {
    ( $cache:expr, $bucket:expr, $key:expr, $val:expr, $base:ident, $field:ident ) => {
        if $bucket == 0 { $cache.$base.insert($key, $val); } else if let Some(f) = $cache.frames.get_mut($bucket - 1) { f.$field.insert($key, $val); }
    };
}

type FxBuild = BuildHasherDefault<rustc_hash::FxHasher>;
pub type FxHashMap<K, V> = std::collections::HashMap<K, V, FxBuild>;
pub type FxHashSet<K> = std::collections::HashSet<K, FxBuild>;
pub type FxIndexMap<K, V> = indexmap::IndexMap<K, V, FxBuild>;
pub type FxIndexSet<K> = indexmap::IndexSet<K, FxBuild>;
pub fn new_fx_hash_map<K, V>() -> FxHashMap<K, V> { FxHashMap::default() }
pub fn new_fx_hash_set<K>() -> FxHashSet<K> { FxHashSet::default() }
pub fn new_fx_index_map<K, V>() -> FxIndexMap<K, V> { FxIndexMap::default() }
pub fn reset_scratch_map<K, V>(m: &mut FxHashMap<K, V>) { m.clear() }

pub(crate) const INST_CACHE_SIZE: usize = 1 << 10;

// ---------------------------------------------------------------- pointers

#[derive(Debug, Clone, Copy, PartialEq, Eq, Hash)]
pub enum DagMarker { ExportFile, TcCtx }

/// An index into one of the two stores.
pub struct Ptr<'a, K> { idx: u32, marker: DagMarker, ph: PhantomData<&'a K> }
impl<'a, K> Clone for Ptr<'a, K> { fn clone(&self) -> Self { *self } }
impl<'a, K> Copy for Ptr<'a, K> {}
impl<'a, K> PartialEq for Ptr<'a, K> { fn eq(&self, o: &Self) -> bool { self.idx == o.idx && self.marker == o.marker } }
impl<'a, K> Eq for Ptr<'a, K> {}
impl<'a, K> Hash for Ptr<'a, K> { fn hash<H: Hasher>(&self, st: &mut H) { st.write_u64(self.get_hash()) } }
impl<'a, K> std::fmt::Debug for Ptr<'a, K> {
    fn fmt(&self, f: &mut std::fmt::Formatter<'_>) -> std::fmt::Result { write!(f, "{:?}@{}", self.marker, self.idx) }
}
impl<'a, K> Ptr<'a, K> {
    pub fn from(marker: DagMarker, idx: usize) -> Self { Ptr { idx: u32::try_from(idx).unwrap(), marker, ph: PhantomData } }
    pub fn idx(&self) -> usize { self.idx as usize }
    pub fn dag_marker(&self) -> DagMarker { self.marker }
    pub fn get_hash(&self) -> u64 {
        ((self.idx as u64) << 1) | (match self.marker { DagMarker::ExportFile => 0, DagMarker::TcCtx => 1 })
    }
}
pub enum NameK {}
pub enum LevelK {}
pub enum LevelsK {}
pub enum ExprK {}
pub enum StringK {}
pub enum BigUintK {}
pub type NamePtr<'a> = Ptr<'a, NameK>;
pub type LevelPtr<'a> = Ptr<'a, LevelK>;
pub type LevelsPtr<'a> = Ptr<'a, LevelsK>;
pub type CorePtr<'a> = Ptr<'a, ExprK>;
pub type StringPtr<'a> = Ptr<'a, StringK>;
pub type BigUintPtr<'a> = Ptr<'a, BigUintK>;

/// The shift recorded on a pointer to a core without loose variables.
pub const CLOSED_SHIFT: u16 = u16::MAX;

#[derive(Debug, Clone, Copy, PartialEq, Eq, Hash)]
pub struct ExprPtr<'a> { pub core: CorePtr<'a>, pub shift: u16 }
pub type AppArgs<'a> = smallvec::SmallVec<[ExprPtr<'a>; 8]>;

impl<'a> ExprPtr<'a> {
    pub fn new(core: CorePtr<'a>, shift: u16) -> Self { ExprPtr { core, shift } }
    pub fn closed(core: CorePtr<'a>) -> Self { ExprPtr { core, shift: CLOSED_SHIFT } }
    pub fn unshifted(core: CorePtr<'a>) -> Self { ExprPtr { core, shift: 0 } }
    pub fn from_nlbv(core: CorePtr<'a>, nlbv: u16) -> Self { if nlbv == 0 { Self::closed(core) } else { Self::unshifted(core) } }
    pub fn is_closed(&self) -> bool { self.shift == CLOSED_SHIFT }
    pub fn shift_up(self, k: u16) -> Self {
        if self.is_closed() { return self }
        let shift = self.shift.checked_add(k).expect("shift overflow");
        assert!(shift != CLOSED_SHIFT, "shift overflow");
        ExprPtr { core: self.core, shift }
    }
    pub fn get_hash(&self) -> u64 { self.core.get_hash() }
}

#[derive(Debug, Clone, Copy, PartialEq, Eq, Hash)]
pub struct SortedPair<'a>(CorePtr<'a>, CorePtr<'a>);
impl<'a> SortedPair<'a> {
    pub fn new(x: CorePtr<'a>, y: CorePtr<'a>) -> Self { if x.get_hash() <= y.get_hash() { SortedPair(x, y) } else { SortedPair(y, x) } }
}

// ---------------------------------------------------------------- numbers

pub fn nat_sub(x: BigUint, y: BigUint) -> BigUint { if y >= x { BigUint::zero() } else { x - y } }
pub fn nat_div(x: BigUint, y: BigUint) -> BigUint { if y.is_zero() { y } else { x / y } }
pub fn nat_mod(x: BigUint, y: BigUint) -> BigUint { if y.is_zero() { x } else { x % y } }
pub fn nat_gcd(x: &BigUint, y: &BigUint) -> BigUint { x.gcd(y) }
pub fn nat_land(x: BigUint, y: BigUint) -> BigUint { x & y }
pub fn nat_lor(x: BigUint, y: BigUint) -> BigUint { x | y }
pub fn nat_xor(x: &BigUint, y: &BigUint) -> BigUint { x ^ y }
pub fn nat_shl(x: BigUint, y: BigUint) -> BigUint { if x.is_zero() { x } else { x << y.to_usize().expect("shl") } }
pub fn nat_shr(x: BigUint, y: BigUint) -> BigUint { match y.to_usize() { Some(k) => x >> k, None => BigUint::zero() } }

// ---------------------------------------------------------------- the store

pub struct LeanDag<'a> {
    pub names: FxIndexSet<Name<'a>>,
    pub levels: FxIndexSet<Level<'a>>,
    pub uparams: FxIndexSet<Arc<[LevelPtr<'a>]>>,
    pub exprs: FxIndexSet<Expr<'a>>,
    pub expr_nlbv: Vec<u16>,
    pub strings: FxIndexSet<Arc<str>>,
    pub bignums: FxIndexSet<BigUint>,
}
impl<'a> LeanDag<'a> {
    pub fn empty() -> Self {
        LeanDag { names: Default::default(), levels: Default::default(), uparams: Default::default(), exprs: Default::default(),
            expr_nlbv: Vec::new(), strings: Default::default(), bignums: Default::default() }
    }
    /// The store of an export file: `Anon` and `Zero` at 0.
    pub fn new_export() -> Self {
        let mut d = Self::empty();
        d.names.insert(Name::Anon);
        d.levels.insert(Level::Zero);
        d
    }
}

/// Whether mk_* pulls a shift common to all open children out of the node (default) or stores
/// the children as they stand. `Deep` looks through a body that holds its own variable, so that every
/// core has a loose variable 0 or none. All three are the same term; the others are for cross-checks.
#[derive(Debug, Clone, Copy, PartialEq, Eq)]
pub enum Osnf { Off, Shallow, Deep }

/// Reading from a base store (if any) and a growing one; all node construction is here.
pub struct Builder<'b, 'a> { pub base: Option<&'b LeanDag<'a>>, pub dag: &'b mut LeanDag<'a>, pub osnf: Osnf }

macro_rules! alloc_fn {
    ($name:ident, $field:ident, $val:ty, $ptr:ty) => {
        pub fn $name(&mut self, v: $val) -> $ptr {
            if let Some(b) = self.base {
                if let Some(i) = b.$field.get_index_of(&v) { return Ptr::from(DagMarker::ExportFile, i) }
            }
            let m = if self.base.is_some() { DagMarker::TcCtx } else { DagMarker::ExportFile };
            Ptr::from(m, self.dag.$field.insert_full(v).0)
        }
    };
}

impl<'b, 'a> Builder<'b, 'a> {
    fn of(&self, m: DagMarker) -> &LeanDag<'a> {
        match (m, self.base) { (DagMarker::ExportFile, Some(b)) => b, _ => self.dag }
    }
    alloc_fn!(alloc_name, names, Name<'a>, NamePtr<'a>);
    alloc_fn!(alloc_level, levels, Level<'a>, LevelPtr<'a>);
    alloc_fn!(alloc_levels, uparams, Arc<[LevelPtr<'a>]>, LevelsPtr<'a>);
    alloc_fn!(alloc_string, strings, Arc<str>, StringPtr<'a>);
    alloc_fn!(alloc_bignum, bignums, BigUint, BigUintPtr<'a>);
    pub fn nlbv_core(&self, c: CorePtr<'a>) -> u16 { self.of(c.dag_marker()).expr_nlbv[c.idx()] }
    pub fn nlbv(&self, e: ExprPtr<'a>) -> u16 { if e.is_closed() { 0 } else { match self.nlbv_core(e.core) { 0 => 0, n => n + e.shift } } }
    pub fn alloc_expr(&mut self, e: Expr<'a>, nlbv: u16) -> CorePtr<'a> {
        if let Some(b) = self.base {
            if let Some(i) = b.exprs.get_index_of(&e) { return Ptr::from(DagMarker::ExportFile, i) }
        }
        let m = if self.base.is_some() { DagMarker::TcCtx } else { DagMarker::ExportFile };
        let (i, fresh) = self.dag.exprs.insert_full(e);
        if fresh { assert_eq!(i, self.dag.expr_nlbv.len()); self.dag.expr_nlbv.push(nlbv); }
        Ptr::from(m, i)
    }
    /// The pointer as the invariant wants it: no loose variables, then marked closed.
    fn norm(&self, e: ExprPtr<'a>) -> ExprPtr<'a> {
        if !e.is_closed() && self.nlbv_core(e.core) == 0 { ExprPtr::closed(e.core) } else { e }
    }
    /// A node from plain children and children under one binder.
    fn node(&mut self, plain: &mut [ExprPtr<'a>], body: Option<&mut ExprPtr<'a>>, mk: impl FnOnce(&[ExprPtr<'a>], Option<ExprPtr<'a>>) -> Expr<'a>) -> ExprPtr<'a> {
        tick();
        for p in plain.iter_mut() { *p = self.norm(*p); }
        let mut body_v = body.map(|b| self.norm(*b));
        // the least shift of all loose variables of the node that the pointers show
        let mut common: Option<u16> = None;
        let mut see = |s: u16| common = Some(common.map_or(s, |c: u16| c.min(s)));
        for p in plain.iter() { if !p.is_closed() { see(p.shift) } }
        if let Some(b) = body_v { if self.nlbv(b) > 1 {
            if self.osnf == Osnf::Deep { see(self.min_loose(b, 1).unwrap()) } else { see(b.shift.saturating_sub(1)) }
        } }
        let m = if self.osnf == Osnf::Off { 0 } else { common.unwrap_or(0) };
        if m > 0 {
            for p in plain.iter_mut() { if !p.is_closed() { p.shift -= m } }
            if let Some(b) = body_v { if self.nlbv(b) > 1 { body_v = Some(self.lower(b, m, 1)) } }
        }
        let mut n = 0;
        for p in plain.iter() { n = n.max(self.nlbv(*p)) }
        if let Some(b) = body_v { n = n.max(self.nlbv(b).saturating_sub(1)) }
        let core = self.alloc_expr(mk(plain, body_v), n);
        if n == 0 { ExprPtr::closed(core) } else { ExprPtr::new(core, m) }
    }
    fn read(&self, c: CorePtr<'a>) -> Expr<'a> { *self.of(c.dag_marker()).exprs.get_index(c.idx()).unwrap() }
    /// `Deep` only: the least loose index not below `c`, less `c`.
    fn min_loose(&self, e: ExprPtr<'a>, c: u16) -> Option<u16> {
        if self.nlbv(e) <= c { return None }
        if e.shift >= c { return Some(e.shift - c) }
        let c = c - e.shift;
        match self.read(e.core) {
            Expr::App { fun, arg } => [self.min_loose(fun, c), self.min_loose(arg, c)].into_iter().flatten().min(),
            Expr::Proj { structure, .. } => self.min_loose(structure, c),
            Expr::Pi { binder_type, body, .. } | Expr::Lambda { binder_type, body, .. } => [self.min_loose(binder_type, c), self.min_loose(body, c + 1)].into_iter().flatten().min(),
            Expr::Let { binder_type, val, body, .. } => [self.min_loose(binder_type, c), self.min_loose(val, c), self.min_loose(body, c + 1)].into_iter().flatten().min(),
            _ => None,
        }
    }
    /// Indexes from `c` on, all at least `c + m`, less `m`.
    fn lower(&mut self, e: ExprPtr<'a>, m: u16, c: u16) -> ExprPtr<'a> {
        if self.nlbv(e) <= c { return e }
        if e.shift >= c { return ExprPtr::new(e.core, e.shift - m) }
        let (s, c) = (e.shift, c - e.shift);
        match self.read(e.core) {
            Expr::App { fun, arg } => { let (f, a) = (self.lower(fun, m, c), self.lower(arg, m, c)); self.mk_app(f, a) }
            Expr::Proj { ty_name, idx, structure } => { let x = self.lower(structure, m, c); self.mk_proj(ty_name, idx, x) }
            Expr::Pi { binder_name, binder_style, binder_type, body } => { let (t, b) = (self.lower(binder_type, m, c), self.lower(body, m, c + 1)); self.mk_pi(binder_name, binder_style, t, b) }
            Expr::Lambda { binder_name, binder_style, binder_type, body } => { let (t, b) = (self.lower(binder_type, m, c), self.lower(body, m, c + 1)); self.mk_lambda(binder_name, binder_style, t, b) }
            Expr::Let { binder_name, binder_type, val, body, nondep } => { let (t, v, b) = (self.lower(binder_type, m, c), self.lower(val, m, c), self.lower(body, m, c + 1)); self.mk_let(binder_name, t, v, b, nondep) }
            _ => unreachable!(),
        }.shift_up(s)
    }
    pub fn mk_var(&mut self, k: u16) -> ExprPtr<'a> { ExprPtr::new(self.alloc_expr(Expr::Var { dbj_idx: 0 }, 1), k) }
    pub fn mk_sort(&mut self, level: LevelPtr<'a>) -> ExprPtr<'a> { ExprPtr::closed(self.alloc_expr(Expr::Sort { level }, 0)) }
    pub fn mk_const(&mut self, name: NamePtr<'a>, levels: LevelsPtr<'a>) -> ExprPtr<'a> { ExprPtr::closed(self.alloc_expr(Expr::Const { name, levels }, 0)) }
    pub fn mk_nat_lit(&mut self, ptr: BigUintPtr<'a>) -> ExprPtr<'a> { ExprPtr::closed(self.alloc_expr(Expr::NatLit { ptr }, 0)) }
    pub fn mk_app(&mut self, f: ExprPtr<'a>, a: ExprPtr<'a>) -> ExprPtr<'a> {
        self.node(&mut [f, a], None, |p, _| Expr::App { fun: p[0], arg: p[1] })
    }
    pub fn mk_lambda(&mut self, binder_name: NamePtr<'a>, binder_style: BinderStyle, t: ExprPtr<'a>, mut b: ExprPtr<'a>) -> ExprPtr<'a> {
        self.node(&mut [t], Some(&mut b), |p, b| Expr::Lambda { binder_name, binder_style, binder_type: p[0], body: b.unwrap() })
    }
    pub fn mk_pi(&mut self, binder_name: NamePtr<'a>, binder_style: BinderStyle, t: ExprPtr<'a>, mut b: ExprPtr<'a>) -> ExprPtr<'a> {
        self.node(&mut [t], Some(&mut b), |p, b| Expr::Pi { binder_name, binder_style, binder_type: p[0], body: b.unwrap() })
    }
    pub fn mk_let(&mut self, binder_name: NamePtr<'a>, t: ExprPtr<'a>, v: ExprPtr<'a>, mut b: ExprPtr<'a>, nondep: bool) -> ExprPtr<'a> {
        self.node(&mut [t, v], Some(&mut b), |p, b| Expr::Let { binder_name, binder_type: p[0], val: p[1], body: b.unwrap(), nondep })
    }
    pub fn mk_proj(&mut self, ty_name: NamePtr<'a>, idx: u32, s: ExprPtr<'a>) -> ExprPtr<'a> {
        self.node(&mut [s], None, |p, _| Expr::Proj { ty_name, idx, structure: p[0] })
    }
    pub fn level_succ(&mut self, l: LevelPtr<'a>) -> LevelPtr<'a> { self.alloc_level(Level::Succ(l, hash64!(SUCC_HASH, l))) }
}

// ---------------------------------------------------------------- export file

#[derive(Debug, Clone, Default)]
pub struct Config {
    pub use_nanoda_tc: bool,
    pub declaration_filter: Option<String>,
    pub max_declarations: usize,
    pub skip_declarations: usize,
    pub declaration_timeout_secs: u64,
    pub num_threads: usize,
    pub nat_extension: bool,
    pub string_extension: bool,
    pub verify_defeq_cache: bool,
}

#[derive(Debug, Clone, Default)]
pub struct NameCache<'p> {
    pub nat: Option<NamePtr<'p>>,
    pub nat_zero: Option<NamePtr<'p>>,
    pub nat_succ: Option<NamePtr<'p>>,
    pub nat_add: Option<NamePtr<'p>>,
    pub nat_sub: Option<NamePtr<'p>>,
    pub nat_mul: Option<NamePtr<'p>>,
    pub nat_pow: Option<NamePtr<'p>>,
    pub nat_mod: Option<NamePtr<'p>>,
    pub nat_div: Option<NamePtr<'p>>,
    pub nat_beq: Option<NamePtr<'p>>,
    pub nat_ble: Option<NamePtr<'p>>,
    pub nat_gcd: Option<NamePtr<'p>>,
    pub nat_land: Option<NamePtr<'p>>,
    pub nat_lor: Option<NamePtr<'p>>,
    pub nat_xor: Option<NamePtr<'p>>,
    pub nat_shl: Option<NamePtr<'p>>,
    pub nat_shr: Option<NamePtr<'p>>,
    pub bool_true: Option<NamePtr<'p>>,
    pub bool_false: Option<NamePtr<'p>>,
    pub quot: Option<NamePtr<'p>>,
    pub quot_mk: Option<NamePtr<'p>>,
    pub quot_lift: Option<NamePtr<'p>>,
    pub quot_ind: Option<NamePtr<'p>>,
    pub string: Option<NamePtr<'p>>,
    pub string_of_list: Option<NamePtr<'p>>,
    pub char: Option<NamePtr<'p>>,
    pub char_of_nat: Option<NamePtr<'p>>,
    pub list_nil: Option<NamePtr<'p>>,
    pub list_cons: Option<NamePtr<'p>>,
    pub eager_reduce: Option<NamePtr<'p>>,
}

/// A place holder: this reconstruction allocates a fresh store every time.
pub struct ReusableDag;
impl ReusableDag { pub fn new(_: &Config) -> Self { ReusableDag } }

pub struct ExportFile<'p> {
    pub dag: LeanDag<'p>,
    pub declars: DeclarMap<'p>,
    pub notations: NotationMap<'p>,
    pub name_cache: NameCache<'p>,
    pub config: Config,
    pub osnf: Osnf,
}

impl<'p> ExportFile<'p> {
    pub fn new_env<'x>(&'x self, limit: EnvLimit<'x>) -> Env<'x, 'x> { Env::new(&self.declars, &self.notations, limit) }
    pub fn with_ctx<F, A>(&self, f: F) -> A
    where F: FnOnce(&mut TcCtx<'_, 'p>) -> A {
        let mut ctx = TcCtx::new(self);
        f(&mut ctx)
    }
    pub fn with_tc_and_declar_reusing<F, A>(&self, info: DeclarInfo<'p>, dag: ReusableDag, f: F) -> ((A, TcTrace), ReusableDag)
    where F: FnOnce(&mut TypeChecker<'_, '_, 'p>) -> A {
        let mut ctx = TcCtx::new(self);
        let env = self.new_env(EnvLimit::ByName(info.name));
        let r = { let mut tc = TypeChecker::new(&mut ctx, &env, Some(info)); f(&mut tc) };
        ((r, ctx.trace.clone()), dag)
    }
    pub fn with_nanoda_tc_and_declar_reusing<F, A>(&self, info: DeclarInfo<'p>, dag: ReusableDag, f: F) -> ((A, TcTrace), ReusableDag)
    where F: FnOnce(&mut NanodaTypeChecker<'_, '_, 'p>) -> A {
        let mut ctx = TcCtx::new(self);
        let env = self.new_env(EnvLimit::ByName(info.name));
        let r = { let mut tc = NanodaTypeChecker::new(&mut ctx, &env, Some(info)); f(&mut tc) };
        ((r, ctx.trace.clone()), dag)
    }
}

// ---------------------------------------------------------------- context of one run

macro_rules! trace_struct {
    ($($f:ident),* $(,)?) => {
        #[derive(Debug, Clone, Default)]
        pub struct TcTrace { pub trace_defeq: bool, $(pub $f: u64),* }
        impl std::fmt::Display for TcTrace {
            fn fmt(&self, f: &mut std::fmt::Formatter<'_>) -> std::fmt::Result { $( if self.$f != 0 { write!(f, "{}={} ", stringify!($f), self.$f)?; } )* Ok(()) }
        }
    };
}
trace_struct!(alpha_eq_hit, alpha_eq_steps, alpha_eq_tried, def_eq_calls, def_eq_deep_calls, def_eq_inner_calls,
    defeq_cache_hits_audited, defeq_cache_hits_unconfirmed, defeq_open_neg_hits, defeq_open_pos_hits, defeq_peel_calls,
    dsubst_cache_hit, dsubst_cache_miss, eq_cache_hits, frame_new, frame_reuse, infer_cache_hits, infer_calls, infer_shift_peel,
    inst_aux_cache_hits, inst_aux_calls, inst_aux_elided, inst_aux_shift_skip_clean, inst_aux_shift_skip_wrap,
    inst_aux_shifted_path, inst_calls, shift_peel_frames_total, spec_app2_hit, spec_app2_tried, spec_app_hit, spec_app_tried,
    subst_cache_hit, subst_cache_miss, whnf_beta_reductions, whnf_cache_hits, whnf_calls, whnf_let_reductions, whnf_shift_peel,
    wnu_cache_hits, wnu_calls, wnu_shift_peel, zeta_reductions);

pub struct ExprCache<'t> {
    pub inst_cache: Vec<(u64, u64, CorePtr<'t>, ExprPtr<'t>)>,
    pub inst_substs_id: u64,
    pub shift_cache: FxHashMap<(CorePtr<'t>, u16, u16), ExprPtr<'t>>,
    pub abstr_cache: FxHashMap<(CorePtr<'t>, u16), ExprPtr<'t>>,
    pub abstr_cache_levels: FxHashMap<(CorePtr<'t>, u16, u16), ExprPtr<'t>>,
    pub subst_cache: FxHashMap<(CorePtr<'t>, LevelsPtr<'t>, LevelsPtr<'t>), ExprPtr<'t>>,
    pub dsubst_cache: FxHashMap<(CorePtr<'t>, LevelsPtr<'t>, LevelsPtr<'t>), ExprPtr<'t>>,
    pub has_fvars_cache: FxHashMap<CorePtr<'t>, bool>,
    pub alpha_eq_todo: Vec<(ExprPtr<'t>, ExprPtr<'t>)>,
    pub alpha_eq_visited: FxHashSet<(ExprPtr<'t>, ExprPtr<'t>)>,
}
impl<'t> ExprCache<'t> {
    fn new() -> Self {
        ExprCache { inst_cache: Vec::new(), inst_substs_id: 0, shift_cache: new_fx_hash_map(), abstr_cache: new_fx_hash_map(),
            abstr_cache_levels: new_fx_hash_map(), subst_cache: new_fx_hash_map(), dsubst_cache: new_fx_hash_map(),
            has_fvars_cache: new_fx_hash_map(), alpha_eq_todo: Vec::new(), alpha_eq_visited: new_fx_hash_set() }
    }
}

thread_local! { static TICKS: std::cell::Cell<u64> = const { std::cell::Cell::new(u64::MAX) }; }
/// The harness's bound on endless runs; a panic with this text is "no answer in time".
pub fn set_ticks(n: u64) { TICKS.with(|t| t.set(n)) }
fn tick() {
    TICKS.with(|t| {
        let n = t.get();
        if n == 0 { panic!("ticks") }
        t.set(n - 1)
    })
}

pub struct TcCtx<'t, 'p> {
    pub export_file: &'t ExportFile<'p>,
    pub dag: LeanDag<'t>,
    pub trace: TcTrace,
    pub(crate) expr_cache: ExprCache<'t>,
    pub eager_mode: bool,
    pub dbj_level_counter: u16,
    unique_counter: u32,
}

impl<'t, 'p: 't> TcCtx<'t, 'p> {
    pub fn new(export_file: &'t ExportFile<'p>) -> Self {
        TcCtx { export_file, dag: LeanDag::empty(), trace: TcTrace::default(), expr_cache: ExprCache::new(), eager_mode: false,
            dbj_level_counter: 0, unique_counter: 0 }
    }
    pub fn b(&mut self) -> Builder<'_, 't> {
        let base: &'t LeanDag<'t> = &self.export_file.dag;
        Builder { base: Some(base), dag: &mut self.dag, osnf: self.export_file.osnf }
    }
    pub fn check_heartbeat(&mut self) { tick() }

    // reading
    #[inline] fn of(&self, m: DagMarker) -> &LeanDag<'t> { match m { DagMarker::ExportFile => &self.export_file.dag, DagMarker::TcCtx => &self.dag } }
    pub fn read_name(&self, p: NamePtr<'t>) -> Name<'t> { *self.of(p.dag_marker()).names.get_index(p.idx()).unwrap() }
    pub fn read_level(&self, p: LevelPtr<'t>) -> Level<'t> { *self.of(p.dag_marker()).levels.get_index(p.idx()).unwrap() }
    pub fn read_level_pair(&self, p: LevelPtr<'t>, q: LevelPtr<'t>) -> (Level<'t>, Level<'t>) { (self.read_level(p), self.read_level(q)) }
    pub fn read_levels(&self, p: LevelsPtr<'t>) -> &Arc<[LevelPtr<'t>]> { self.of(p.dag_marker()).uparams.get_index(p.idx()).unwrap() }
    pub fn read_expr(&self, p: CorePtr<'t>) -> Expr<'t> { *self.of(p.dag_marker()).exprs.get_index(p.idx()).unwrap() }
    pub fn read_string(&self, p: StringPtr<'t>) -> &Arc<str> { self.of(p.dag_marker()).strings.get_index(p.idx()).unwrap() }
    pub fn read_bignum(&self, p: BigUintPtr<'t>) -> Option<&BigUint> { self.of(p.dag_marker()).bignums.get_index(p.idx()) }
    pub fn nlbv(&self, e: ExprPtr<'t>) -> u16 { if e.is_closed() { 0 } else { match self.num_loose_bvars(e.core) { 0 => 0, n => n + e.shift } } }

    /// The node with the pointer's shift carried one layer down.
    pub fn view_expr(&mut self, e: ExprPtr<'t>) -> Expr<'t> {
        let node = self.read_expr(e.core);
        if e.shift == 0 || e.is_closed() { return node }
        let s = e.shift;
        match node {
            Expr::Var { dbj_idx } => Expr::Var { dbj_idx: dbj_idx + s },
            Expr::App { fun, arg } => Expr::App { fun: fun.shift_up(s), arg: arg.shift_up(s) },
            Expr::Proj { ty_name, idx, structure } => Expr::Proj { ty_name, idx, structure: structure.shift_up(s) },
            Expr::Pi { binder_name, binder_style, binder_type, body } =>
                Expr::Pi { binder_name, binder_style, binder_type: binder_type.shift_up(s), body: self.shift_body(body, s) },
            Expr::Lambda { binder_name, binder_style, binder_type, body } =>
                Expr::Lambda { binder_name, binder_style, binder_type: binder_type.shift_up(s), body: self.shift_body(body, s) },
            Expr::Let { binder_name, binder_type, val, body, nondep } =>
                Expr::Let { binder_name, binder_type: binder_type.shift_up(s), val: val.shift_up(s), body: self.shift_body(body, s), nondep },
            closed => closed,
        }
    }
    /// A binder's body when the binder itself is shifted: the four cases of `inst_forall_params` in expr.rs.
    fn shift_body(&mut self, body: ExprPtr<'t>, s: u16) -> ExprPtr<'t> {
        if body.is_closed() { body }
        else if body.shift >= 1 { body.shift_up(s) }
        else { self.shift_expr(body.core, s, 1) }
    }
    pub fn view_expr_pair(&mut self, x: ExprPtr<'t>, y: ExprPtr<'t>) -> (Expr<'t>, Expr<'t>) { (self.view_expr(x), self.view_expr(y)) }
    pub fn view_app(&mut self, e: ExprPtr<'t>) -> Option<(ExprPtr<'t>, ExprPtr<'t>)> {
        match self.view_expr(e) { Expr::App { fun, arg } => Some((fun, arg)), _ => None }
    }
    pub fn view_pi_head(&mut self, e: ExprPtr<'t>) -> Option<(NamePtr<'t>, BinderStyle, ExprPtr<'t>)> {
        match self.view_expr(e) { Expr::Pi { binder_name, binder_style, binder_type, .. } => Some((binder_name, binder_style, binder_type)), _ => None }
    }
    pub fn unfold_pi_step(&mut self, e: ExprPtr<'t>) -> Option<(NamePtr<'t>, BinderStyle, ExprPtr<'t>, ExprPtr<'t>)> {
        match self.view_expr(e) { Expr::Pi { binder_name, binder_style, binder_type, body } => Some((binder_name, binder_style, binder_type, body)), _ => None }
    }
    pub fn unfold_lambda_step(&mut self, e: ExprPtr<'t>) -> Option<(NamePtr<'t>, BinderStyle, ExprPtr<'t>, ExprPtr<'t>)> {
        match self.view_expr(e) { Expr::Lambda { binder_name, binder_style, binder_type, body } => Some((binder_name, binder_style, binder_type, body)), _ => None }
    }
    pub fn is_app(&self, e: ExprPtr<'t>) -> bool { matches!(self.read_expr(e.core), Expr::App { .. }) }
    pub fn is_pi(&self, e: ExprPtr<'t>) -> bool { matches!(self.read_expr(e.core), Expr::Pi { .. }) }
    pub fn is_lambda(&self, e: ExprPtr<'t>) -> bool { matches!(self.read_expr(e.core), Expr::Lambda { .. }) }
    pub fn is_proj(&self, e: ExprPtr<'t>) -> bool { matches!(self.read_expr(e.core), Expr::Proj { .. }) }

    // making
    pub fn mk_var(&mut self, k: u16) -> ExprPtr<'t> { self.b().mk_var(k) }
    pub fn mk_sort(&mut self, l: LevelPtr<'t>) -> ExprPtr<'t> { self.b().mk_sort(l) }
    pub fn mk_const(&mut self, n: NamePtr<'t>, ls: LevelsPtr<'t>) -> ExprPtr<'t> { self.b().mk_const(n, ls) }
    pub fn mk_app(&mut self, f: ExprPtr<'t>, a: ExprPtr<'t>) -> ExprPtr<'t> { self.b().mk_app(f, a) }
    pub fn mk_lambda(&mut self, n: NamePtr<'t>, s: BinderStyle, t: ExprPtr<'t>, b: ExprPtr<'t>) -> ExprPtr<'t> { self.b().mk_lambda(n, s, t, b) }
    pub fn mk_pi(&mut self, n: NamePtr<'t>, s: BinderStyle, t: ExprPtr<'t>, b: ExprPtr<'t>) -> ExprPtr<'t> { self.b().mk_pi(n, s, t, b) }
    pub fn mk_let(&mut self, n: NamePtr<'t>, t: ExprPtr<'t>, v: ExprPtr<'t>, b: ExprPtr<'t>, nondep: bool) -> ExprPtr<'t> { self.b().mk_let(n, t, v, b, nondep) }
    pub fn mk_proj(&mut self, n: NamePtr<'t>, idx: u32, s: ExprPtr<'t>) -> ExprPtr<'t> { self.b().mk_proj(n, idx, s) }
    pub fn mk_nat_lit(&mut self, p: BigUintPtr<'t>) -> Option<ExprPtr<'t>> { if self.export_file.config.nat_extension { Some(self.b().mk_nat_lit(p)) } else { None } }
    pub fn mk_nat_lit_quick(&mut self, n: BigUint) -> Option<ExprPtr<'t>> { let p = self.alloc_bignum(n)?; self.mk_nat_lit(p) }
    pub fn alloc_bignum(&mut self, n: BigUint) -> Option<BigUintPtr<'t>> { if self.export_file.config.nat_extension { Some(self.b().alloc_bignum(n)) } else { None } }
    /// A core shifted by a pointer, nothing rebuilt.
    pub fn mk_shift(&mut self, e: CorePtr<'t>, amount: u16) -> ExprPtr<'t> { ExprPtr::from_nlbv(e, self.num_loose_bvars(e)).shift_up(amount) }
    /// Asked for only where `fvar_lb(core) >= offset + n_substs`, which is never: `fvar_lb` is 0.
    pub fn push_shift_down_cutoff(&mut self, _e: CorePtr<'t>, _amount: u16, _cutoff: u16) -> CorePtr<'t> { unreachable!("push_shift_down_cutoff") }

    // levels and names
    pub fn zero(&self) -> LevelPtr<'t> { Ptr::from(DagMarker::ExportFile, 0) }
    pub fn succ(&mut self, l: LevelPtr<'t>) -> LevelPtr<'t> { self.b().level_succ(l) }
    pub fn max(&mut self, l: LevelPtr<'t>, r: LevelPtr<'t>) -> LevelPtr<'t> { self.b().alloc_level(Level::Max(l, r, hash64!(MAX_HASH, l, r))) }
    pub fn imax(&mut self, l: LevelPtr<'t>, r: LevelPtr<'t>) -> LevelPtr<'t> { self.b().alloc_level(Level::IMax(l, r, hash64!(IMAX_HASH, l, r))) }
    pub fn param(&mut self, n: NamePtr<'t>) -> LevelPtr<'t> { self.b().alloc_level(Level::Param(n, hash64!(PARAM_HASH, n))) }
    pub fn alloc_levels(&mut self, ls: Arc<[LevelPtr<'t>]>) -> LevelsPtr<'t> { self.b().alloc_levels(ls) }
    pub fn alloc_levels_slice(&mut self, ls: &[LevelPtr<'t>]) -> LevelsPtr<'t> { self.b().alloc_levels(Arc::from(ls)) }
    pub fn anonymous(&self) -> NamePtr<'t> { Ptr::from(DagMarker::ExportFile, 0) }
    pub fn str1(&mut self, s: &'static str) -> NamePtr<'t> { let a = self.anonymous(); let s = self.b().alloc_string(Arc::from(s)); self.b().alloc_name(Name::Str(a, s)) }
    pub fn str2(&mut self, s: &'static str, t: &'static str) -> NamePtr<'t> { let p = self.str1(s); let t = self.b().alloc_string(Arc::from(t)); self.b().alloc_name(Name::Str(p, t)) }

    // locals: used by quot.rs (checking) and nanoda_tc.rs only
    fn mk_local(&mut self, binder_name: NamePtr<'t>, binder_style: BinderStyle, binder_type: CorePtr<'t>, id: FVarId) -> ExprPtr<'t> {
        ExprPtr::closed(self.b().alloc_expr(Expr::Local { binder_name, binder_style, binder_type, id }, 0))
    }
    pub fn mk_unique(&mut self, n: NamePtr<'t>, s: BinderStyle, t: CorePtr<'t>) -> ExprPtr<'t> {
        self.unique_counter += 1;
        let id = FVarId::Unique(self.unique_counter);
        self.mk_local(n, s, t, id)
    }
    pub fn mk_dbj_level(&mut self, n: NamePtr<'t>, s: BinderStyle, t: CorePtr<'t>) -> ExprPtr<'t> {
        let id = FVarId::DbjLevel(self.dbj_level_counter);
        self.dbj_level_counter += 1;
        self.mk_local(n, s, t, id)
    }
    pub fn replace_dbj_level(&mut self, e: ExprPtr<'t>) {
        match self.read_expr(e.core) {
            Expr::Local { id: FVarId::DbjLevel(l), .. } => { assert_eq!(l + 1, self.dbj_level_counter); self.dbj_level_counter -= 1 }
            _ => panic!("replace_dbj_level"),
        }
    }
    pub fn fvar_to_bvar(&mut self, num_open_binders: u16, level: u16) -> ExprPtr<'t> { self.mk_var(num_open_binders - level - 1) }
}

// ---------------------------------------------------------------- local context and caches

pub struct DepthFrame<'t> {
    ty: ExprPtr<'t>,
    val: Option<ExprPtr<'t>>,
    t: Tables<'t>,
    pub(crate) defeq_neg: NegMap<'t>,
}
type NegMap<'t> = FxHashMap<((ExprPtr<'t>, ExprPtr<'t>), bool, bool), (ExprPtr<'t>, ExprPtr<'t>, u16)>;
#[derive(Default)]
struct Tables<'t> {
    whnf: FxHashMap<CorePtr<'t>, ExprPtr<'t>>,
    wnu: FxHashMap<CorePtr<'t>, ExprPtr<'t>>,
    infer_check: FxHashMap<CorePtr<'t>, ExprPtr<'t>>,
    infer_no_check: FxHashMap<CorePtr<'t>, ExprPtr<'t>>,
    defeq_pos: FxHashSet<(ExprPtr<'t>, ExprPtr<'t>)>,
}

/// The records of the local context, oldest first, each with the caches of the terms anchored at it.
pub struct TcCache<'t> {
    pub(crate) frames: Vec<DepthFrame<'t>>,
    base: Tables<'t>,
    pub(crate) defeq_neg_base: NegMap<'t>,
    /// false: every lookup misses (for cross-checks)
    pub on: bool,
}

macro_rules! cache_fns {
    ($get:ident, $ins:ident, $field:ident) => {
        pub fn $get(&self, bucket: usize, k: &CorePtr<'t>) -> Option<ExprPtr<'t>> {
            tick();
            if !self.on { return None }
            if bucket == 0 { self.base.$field.get(k).copied() } else { self.frames[bucket - 1].t.$field.get(k).copied() }
        }
        pub fn $ins(&mut self, bucket: usize, k: CorePtr<'t>, v: ExprPtr<'t>) {
            if !self.on { return }
            if bucket == 0 { self.base.$field.insert(k, v); } else { self.frames[bucket - 1].t.$field.insert(k, v); }
        }
    };
}

impl<'t> TcCache<'t> {
    pub fn new() -> Self { TcCache { frames: Vec::new(), base: Tables::default(), defeq_neg_base: new_fx_hash_map(), on: true } }
    pub fn depth(&self) -> usize { self.frames.len() }
    fn frame(ty: ExprPtr<'t>, val: Option<ExprPtr<'t>>) -> DepthFrame<'t> { DepthFrame { ty, val, t: Tables::default(), defeq_neg: new_fx_hash_map() } }
    /// Answers whether an old frame's caches were taken over; here never.
    pub fn push_local(&mut self, ty: ExprPtr<'t>) -> bool { self.frames.push(Self::frame(ty, None)); false }
    pub fn push_local_let(&mut self, ty: ExprPtr<'t>, val: ExprPtr<'t>) -> bool { self.frames.push(Self::frame(ty, Some(val))); false }
    pub fn pop_local(&mut self) { self.frames.pop().expect("pop_local"); }
    pub fn restore_depth(&mut self, d: usize) { assert!(d <= self.frames.len()); self.frames.truncate(d) }
    pub fn split_off(&mut self, d: usize) -> Vec<DepthFrame<'t>> { self.frames.split_off(d) }
    pub fn extend(&mut self, saved: Vec<DepthFrame<'t>>) { self.frames.extend(saved) }
    fn at(&self, i: u16) -> &DepthFrame<'t> { let n = self.frames.len(); &self.frames[n.checked_sub(1 + i as usize).expect("variable out of scope")] }
    pub fn local_type(&self, i: u16) -> ExprPtr<'t> { self.at(i).ty }
    pub fn local_value(&self, i: u16) -> Option<ExprPtr<'t>> { self.at(i).val }
    cache_fns!(whnf_get, whnf_insert, whnf);
    cache_fns!(wnu_get, wnu_insert, wnu);
    cache_fns!(infer_check_get, infer_check_insert, infer_check);
    cache_fns!(infer_no_check_get, infer_no_check_insert, infer_no_check);
    pub fn defeq_pos_get(&self, bucket: usize, k: &(ExprPtr<'t>, ExprPtr<'t>)) -> bool {
        self.on && if bucket == 0 { self.base.defeq_pos.contains(k) } else { self.frames[bucket - 1].t.defeq_pos.contains(k) }
    }
    pub fn defeq_pos_insert(&mut self, bucket: usize, k: (ExprPtr<'t>, ExprPtr<'t>)) {
        if bucket == 0 { self.base.defeq_pos.insert(k); } else { self.frames[bucket - 1].t.defeq_pos.insert(k); }
    }
}
