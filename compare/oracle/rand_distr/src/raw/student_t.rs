//! StudentT's fields, put in and taken out: a child module of the unchanged `student_t`.

use super::{ChiSquared, Distribution, Exp1, Float, Open01, StandardNormal, StudentT};

plain_fields!(StudentT {
    chi: ChiSquared<F>,
    dof: F,
});
