//! The archive's functions as C has them. They are declared here anew, and not taken from the crate `ewebasket`, which shows its
//! callers neither a report nor what is around an output.

use crate::call::{Call, Seen, What};
use oracle::inputs::{Pert, Sampler, DEFAULT_SHAPE};

// What each sampler is lent after its own parameters stands here once.
macro_rules! samplers {
    ($($name:ident($($parameter:ident: $type:ty),+);)+) => {
        extern "C" {
            $(fn $name(
                $($parameter: $type,)+
                uniforms: *const f64,
                uniforms_len: usize,
                normals: *const f64,
                normals_len: usize,
                exponentials: *const f64,
                exponentials_len: usize,
                out: *mut f64,
                out_len: usize,
                report: *mut usize,
                report_len: usize,
            ) -> usize;)+
        }
    };
}

samplers! {
    eweb_gamma_sample(shape: f64, scale: f64);
    eweb_gamma_fill(shape: f64, scale: f64);
    eweb_beta_sample(alpha: f64, beta: f64);
    eweb_beta_fill(alpha: f64, beta: f64);
    eweb_chi_squared_sample(k: f64);
    eweb_chi_squared_fill(k: f64);
    eweb_fisher_f_sample(m: f64, n: f64);
    eweb_fisher_f_fill(m: f64, n: f64);
    eweb_student_t_sample(nu: f64);
    eweb_student_t_fill(nu: f64);
    eweb_pert_mode_sample(min: f64, max: f64, shape: f64, mode: f64);
    eweb_pert_mode_fill(min: f64, max: f64, shape: f64, mode: f64);
    eweb_pert_mean_sample(min: f64, max: f64, shape: f64, mean: f64);
    eweb_pert_mean_fill(min: f64, max: f64, shape: f64, mean: f64);
    eweb_dirichlet(alpha: *const f64, alpha_len: usize);
}

/// Cells lent, between others that no call may write to.
pub struct Guarded<T> {
    cells: Vec<T>,
    guard: T,
}

const AROUND: usize = 3;

impl<T: Copy + PartialEq> Guarded<T> {
    pub fn new(lent: &[T], guard: T) -> Self {
        let around = [guard; AROUND];
        let cells = [&around, lent, &around].concat();
        Guarded { cells, guard }
    }

    pub fn lent(&mut self) -> &mut [T] {
        let end = self.cells.len() - AROUND;
        &mut self.cells[AROUND..end]
    }

    /// The cells, where those around them are as they were.
    pub fn taken(mut self) -> Option<Vec<T>> {
        let cells = self.lent().to_vec();
        let again = Guarded::new(&cells, self.guard);
        (self.cells == again.cells).then_some(cells)
    }
}

/// A C function is always given a shape.
pub fn parameters(pert: &Pert) -> (f64, f64, f64, f64) {
    let shape = pert.shape.unwrap_or(DEFAULT_SHAPE);
    (pert.min, pert.max, shape, pert.middle)
}

/// What there is after the call; nothing where a cell around those lent was written to.
pub fn seen(call: &Call, guard: u64) -> Option<Seen> {
    let mut guarded_out = Guarded::new(&call.out, guard);
    let mut guarded_report = Guarded::new(&call.report, guard as usize);
    let (out, report) = (guarded_out.lent(), guarded_report.lent());
    let draws = call.draws.lent();

    macro_rules! asked {
        ($sample:ident, $fill:ident($($argument:expr),+)) => {{
            let function = match call.what {
                What::Sample => $sample,
                What::Fill => $fill,
            };
            // SAFETY: pointers and lengths are of slices; out and report are borrowed mutably, and overlap nothing. A float's
            // cell is as large as its word, and has the same alignment.
            unsafe {
                function(
                    $($argument,)+
                    draws.uniforms.as_ptr(),
                    draws.uniforms.len(),
                    draws.normals.as_ptr(),
                    draws.normals.len(),
                    draws.exponentials.as_ptr(),
                    draws.exponentials.len(),
                    out.as_mut_ptr().cast(),
                    out.len(),
                    report.as_mut_ptr(),
                    report.len(),
                )
            }
        }};
    }

    let number = match &call.sampler {
        Sampler::Gamma(shape, scale) => asked!(eweb_gamma_sample, eweb_gamma_fill(*shape, *scale)),
        Sampler::Beta(alpha, beta) => asked!(eweb_beta_sample, eweb_beta_fill(*alpha, *beta)),
        Sampler::ChiSquared(k) => asked!(eweb_chi_squared_sample, eweb_chi_squared_fill(*k)),
        Sampler::FisherF(m, n) => asked!(eweb_fisher_f_sample, eweb_fisher_f_fill(*m, *n)),
        Sampler::StudentT(nu) => asked!(eweb_student_t_sample, eweb_student_t_fill(*nu)),
        Sampler::PertMode(pert) => {
            let (min, max, shape, middle) = parameters(pert);
            asked!(
                eweb_pert_mode_sample,
                eweb_pert_mode_fill(min, max, shape, middle)
            )
        }
        Sampler::PertMean(pert) => {
            let (min, max, shape, middle) = parameters(pert);
            asked!(
                eweb_pert_mean_sample,
                eweb_pert_mean_fill(min, max, shape, middle)
            )
        }
        Sampler::Dirichlet(alpha) => {
            asked!(eweb_dirichlet, eweb_dirichlet(alpha.as_ptr(), alpha.len()))
        }
    };
    Some(Seen {
        number,
        out: guarded_out.taken()?,
        report: guarded_report.taken()?,
    })
}
