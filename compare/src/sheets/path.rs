//! The ways through the rules of a sheet, which the files of questions are sorted by.

/// The branch that a question took.
#[derive(Clone, Copy, PartialEq, Eq, Hash, PartialOrd, Ord, Debug)]
pub enum Branch {
    /// A sum that is not infinite.
    Sum,
    SumInfinite,
    SumEdge,
    /// NaN on line 1 ends the sheet, of a product too.
    SumNan,
    ProductInfinite,
    ProductEdge,
    ProductZero,
    Tiny,
    Middle,
    Otherwise,
    ProductNan,
}

/// The branch, and the choices on the way.
#[derive(Clone, Copy, PartialEq, Eq, Hash, PartialOrd, Ord, Debug)]
pub struct Path {
    pub branch: Branch,
    pub swapped: bool,
    pub recomposed: bool,
    /// First of a tiny product, or second of a middle one, went down by u.
    pub lowered: bool,
    pub zero_finished: bool,
}

impl Path {
    /// Before any choice.
    pub const BEGUN: Path = Path {
        branch: Branch::Otherwise,
        swapped: false,
        recomposed: false,
        lowered: false,
        zero_finished: false,
    };
}
