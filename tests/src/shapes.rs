//! The shapes of generated files.

/// The largest numbers of a generated pair of files.
#[derive(Clone, Copy, Debug)]
pub struct Shape {
    pub name: &'static str,
    pub controls: u8,
    pub inner_two: u8,
    pub inner_one: u8,
    pub symbols: u8,
    pub rules: usize,
    /// Rules take their codes from this list.
    pub codes: &'static [u8],
    /// The chance, in percent, of a rule to lead to the next control.
    pub onward: usize,
    /// Whether the target is made to hold a configuration that the first start
    /// reaches.
    pub planted: bool,
    /// Edges of each inner order-2 state, and entries of each control.
    pub edges: usize,
    /// Moves of each order-1 state.
    pub moves: usize,
    /// The chance, in percent, of a state to be a member of a set.
    pub members: usize,
    /// The chance, in percent, of a control and of an entry to be final, and of a
    /// walk's end where no rule applies to be planted. Half of it is the chance of
    /// a start, and of a part of a stack, to be empty on purpose.
    pub finished: usize,
    pub starts: usize,
    pub cells: usize,
}

const SMALL: Shape = Shape {
    name: "small",
    controls: 3,
    inner_two: 2,
    inner_one: 2,
    symbols: 2,
    rules: 10,
    codes: &[1, 2, 3, 4, 5, 6, 7, 8],
    onward: 50,
    planted: false,
    edges: 1,
    moves: 2,
    members: 30,
    finished: 15,
    starts: 4,
    cells: 12,
};

/// The shapes of generated files: all operations; mostly pushes with their
/// collapses; mostly copies; alternation, by larger sets and more edges; longer
/// runs to a planted target; moves with several derivations; many final controls
/// and entries; runs to a planted target where no rule applies; and more of
/// everything.
pub const SHAPES: [Shape; 9] = [
    SMALL,
    Shape {
        name: "pushes",
        controls: 4,
        rules: 14,
        codes: &[1, 2, 2, 3, 3, 5, 7, 7, 8, 8],
        ..SMALL
    },
    Shape {
        name: "copies",
        controls: 4,
        rules: 12,
        codes: &[1, 4, 4, 4, 5, 6, 6, 2, 3],
        ..SMALL
    },
    Shape {
        name: "alternation",
        inner_two: 3,
        inner_one: 4,
        edges: 2,
        moves: 3,
        members: 50,
        ..SMALL
    },
    Shape {
        name: "planted",
        controls: 6,
        inner_two: 3,
        inner_one: 3,
        symbols: 6,
        rules: 12,
        codes: &[1, 2, 3, 4, 5, 6, 7, 8],
        onward: 30,
        planted: true,
        edges: 2,
        moves: 5,
        starts: 3,
        cells: 40,
        ..SMALL
    },
    Shape {
        name: "choices",
        controls: 4,
        inner_two: 1,
        inner_one: 1,
        rules: 10,
        codes: &[1, 2, 3, 4, 4, 4, 5, 6, 6, 8],
        onward: 20,
        planted: true,
        cells: 20,
        ..SMALL
    },
    Shape {
        name: "finished",
        controls: 3,
        inner_two: 3,
        symbols: 4,
        rules: 16,
        codes: &[1, 2, 3, 4, 5, 5, 6, 6, 7, 7, 7, 8, 8],
        edges: 4,
        finished: 50,
        starts: 16,
        cells: 24,
        ..SMALL
    },
    Shape {
        name: "emptied",
        controls: 4,
        symbols: 4,
        codes: &[1, 2, 3, 4, 5, 6, 7, 7, 7, 8, 8, 8],
        onward: 20,
        planted: true,
        finished: 60,
        starts: 8,
        cells: 24,
        ..SMALL
    },
    Shape {
        name: "larger",
        controls: 5,
        inner_two: 4,
        inner_one: 6,
        symbols: 4,
        rules: 16,
        edges: 2,
        moves: 4,
        members: 20,
        starts: 8,
        cells: 40,
        ..SMALL
    },
];

/// Starts whose parts are accepted in different rounds. It is no part of
/// `SHAPES`: there are many starts for tests that walk from each.
pub const LATE: Shape = Shape {
    name: "late",
    controls: 4,
    inner_two: 1,
    inner_one: 1,
    symbols: 12,
    rules: 90,
    codes: &[1, 1, 1, 1, 5, 6, 7, 8],
    onward: 30,
    finished: 5,
    starts: 32,
    cells: 60,
    ..SMALL
};

/// The numbers of the pairs that `src/gather.rs` makes; their rules are not chosen
/// by the shape.
pub const GATHERED: Shape = Shape {
    name: "gathered",
    controls: 8,
    inner_two: 0,
    inner_one: 3,
    symbols: 9,
    moves: 4,
    members: 40,
    finished: 10,
    starts: 32,
    cells: 60,
    ..SMALL
};

/// The numbers of the pairs that `src/early.rs` makes, and the codes of their short ways;
/// their cells are not chosen by the shape.
pub const EARLY: Shape = Shape {
    name: "early",
    controls: 4,
    inner_two: 0,
    inner_one: 1,
    symbols: 7,
    codes: &[2, 3, 4, 5, 6, 6, 6, 6, 6, 8, 8],
    members: 20,
    finished: 10,
    starts: 16,
    cells: 40,
    ..SMALL
};

/// The numbers of the pairs that `src/sparse.rs` makes, before parts are left out.
pub const SPARSE: Shape = Shape {
    name: "sparse",
    inner_one: 3,
    symbols: 4,
    edges: 3,
    moves: 5,
    ..SMALL
};

/// The numbers of the pairs that `src/rich.rs` makes; their cells are not chosen by
/// the shape.
pub const RICH: Shape = Shape {
    name: "rich",
    symbols: 32,
    starts: 64,
    cells: 256,
    ..SMALL
};

/// Files near the limits of document 01, with runs to a planted target. It is no
/// part of `SHAPES`: a pair takes longer.
pub const WIDE: Shape = Shape {
    name: "wide",
    controls: 8,
    inner_two: 8,
    inner_one: 16,
    symbols: 24,
    rules: 60,
    codes: &[1, 2, 2, 3, 3, 4, 5, 6, 7, 7, 8, 8],
    onward: 20,
    planted: true,
    edges: 2,
    moves: 8,
    members: 10,
    finished: 5,
    starts: 64,
    cells: 256,
};
