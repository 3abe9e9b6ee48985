//! Pert's fields, put in and taken out: a child module of the unchanged `pert`.

use super::{Beta, Distribution, Exp1, Float, Open01, Pert, StandardNormal};

plain_fields!(Pert {
    min: F,
    range: F,
    beta: Beta<F>,
});
