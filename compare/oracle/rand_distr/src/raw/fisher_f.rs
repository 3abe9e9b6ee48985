//! FisherF's fields, put in and taken out: a child module of the unchanged `fisher_f`.

use super::{ChiSquared, Distribution, Exp1, FisherF, Float, Open01, StandardNormal};

plain_fields!(FisherF {
    numer: ChiSquared<F>,
    denom: ChiSquared<F>,
    dof_ratio: F,
});
