//! Stand-in for path.rs: the place that a path is printed for.

pub enum PathKind {
    Expr,
}
