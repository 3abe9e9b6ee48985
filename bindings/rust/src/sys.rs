//! The archive's functions, and the only unsafe code of this crate. `bindings/c/eweb.h` says what each asks and answers.
#![allow(unsafe_code)]

use crate::{Draws, Positions, Refusal};

// Declares each function under its C name, and makes a safe one of the same name.
macro_rules! kernels {
    ($($name:ident($($parameter:ident),+);)+) => {
        mod kernels {
            extern "C" {
                $(pub fn $name($($parameter: f64),+) -> f64;)+
            }
        }

        $(pub(crate) fn $name($($parameter: f64),+) -> f64 {
            // SAFETY: any numbers may be passed.
            unsafe { kernels::$name($($parameter),+) }
        })+
    };
}

kernels! {
    eweb_ln(x);
    eweb_exp(x);
    eweb_powf(u, y);
    eweb_sqrt(x);
}

// The same for samplers whose parameters are numbers.
macro_rules! samplers {
    ($($name:ident($($parameter:ident),+);)+) => {
        mod samplers {
            extern "C" {
                $(pub fn $name(
                    $($parameter: f64,)+
                    uniforms: *const f64,
                    uniforms_len: usize,
                    normals: *const f64,
                    normals_len: usize,
                    exponentials: *const f64,
                    exponentials_len: usize,
                    out: *mut f64,
                    out_len: usize,
                    report: *mut usize,
                    report_len: usize,
                ) -> usize;)+
            }
        }

        $(pub(crate) fn $name(
            $($parameter: f64,)+
            draws: &Draws,
            at: Positions,
            out: &mut [f64],
        ) -> Result<Positions, Refusal> {
            let mut report = lent(at);
            // SAFETY: each pointer and the length after it are one slice's: the pointer is not null, and what is behind it may be
            // read, or written where the slice is borrowed mutably. Such a slice overlaps no other.
            let number = unsafe {
                samplers::$name(
                    $($parameter,)+
                    draws.uniforms.as_ptr(),
                    draws.uniforms.len(),
                    draws.normals.as_ptr(),
                    draws.normals.len(),
                    draws.exponentials.as_ptr(),
                    draws.exponentials.len(),
                    out.as_mut_ptr(),
                    out.len(),
                    report.as_mut_ptr(),
                    report.len(),
                )
            };
            told(number, report)
        })+
    };
}

samplers! {
    eweb_gamma_sample(shape, scale);
    eweb_gamma_fill(shape, scale);
    eweb_beta_sample(alpha, beta);
    eweb_beta_fill(alpha, beta);
    eweb_chi_squared_sample(k);
    eweb_chi_squared_fill(k);
    eweb_fisher_f_sample(m, n);
    eweb_fisher_f_fill(m, n);
    eweb_student_t_sample(nu);
    eweb_student_t_fill(nu);
    eweb_pert_mode_sample(min, max, shape, mode);
    eweb_pert_mode_fill(min, max, shape, mode);
    eweb_pert_mean_sample(min, max, shape, mean);
    eweb_pert_mean_fill(min, max, shape, mean);
}

// The same for constructors that show what they made: so many kinds, and so many fields.
macro_rules! constructors {
    ($($name:ident($($parameter:ident),+) -> ($kinds:literal, $fields:literal);)+) => {
        mod constructors {
            extern "C" {
                $(pub fn $name(
                    $($parameter: f64,)+
                    kinds: *mut usize,
                    kinds_len: usize,
                    fields: *mut f64,
                    fields_len: usize,
                ) -> usize;)+
            }
        }

        $(pub(crate) fn $name($($parameter: f64),+) -> ([usize; $kinds], [f64; $fields]) {
            let mut kinds = [0; $kinds];
            let mut fields = [0.0; $fields];
            // SAFETY: each pointer and the length after it are one array's, which is borrowed mutably.
            let number = unsafe {
                constructors::$name(
                    $($parameter,)+
                    kinds.as_mut_ptr(),
                    kinds.len(),
                    fields.as_mut_ptr(),
                    fields.len(),
                )
            };
            assert_eq!(number, 0, "these parameters were not refused before, and the cells are enough");
            (kinds, fields)
        })+
    };
}

constructors! {
    eweb_gamma_made(shape, scale) -> (1, 5);
    eweb_beta_made(alpha, beta) -> (2, 7);
    eweb_fisher_f_made(m, n) -> (2, 11);
    eweb_pert_mode_made(min, max, shape, mode) -> (2, 9);
    eweb_pert_mean_made(min, max, shape, mean) -> (2, 9);
}

mod vectors {
    extern "C" {
        pub fn eweb_dirichlet(
            alpha: *const f64,
            alpha_len: usize,
            uniforms: *const f64,
            uniforms_len: usize,
            normals: *const f64,
            normals_len: usize,
            exponentials: *const f64,
            exponentials_len: usize,
            out: *mut f64,
            out_len: usize,
            report: *mut usize,
            report_len: usize,
        ) -> usize;
    }
}

pub(crate) fn eweb_dirichlet(
    alpha: &[f64],
    draws: &Draws,
    at: Positions,
    out: &mut [f64],
) -> Result<Positions, Refusal> {
    let mut report = lent(at);
    // SAFETY: as of the samplers above; alpha is a slice too.
    let number = unsafe {
        vectors::eweb_dirichlet(
            alpha.as_ptr(),
            alpha.len(),
            draws.uniforms.as_ptr(),
            draws.uniforms.len(),
            draws.normals.as_ptr(),
            draws.normals.len(),
            draws.exponentials.as_ptr(),
            draws.exponentials.len(),
            out.as_mut_ptr(),
            out.len(),
            report.as_mut_ptr(),
            report.len(),
        )
    };
    told(number, report)
}

// The report that a call is lent: where to start from.
fn lent(at: Positions) -> [usize; 6] {
    [0, 0, 0, at.uniforms, at.normals, at.exponentials]
}

// What a call answered, and wrote to its report.
fn told(number: usize, report: [usize; 6]) -> Result<Positions, Refusal> {
    let [_, kind, index, uniforms, normals, exponentials] = report;
    let positions = Positions {
        uniforms,
        normals,
        exponentials,
    };
    match number {
        0 => Ok(positions),
        255 => unreachable!("the report has six cells, and a single sample an output of one"),
        _ => Err(Refusal::told([number, kind, index], positions)),
    }
}
