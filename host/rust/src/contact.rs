//! Rows of the tables as records, with document 01's names. Here alone stands which float is where.
use crate::{BODY_WIDTH, FLOATS_WIDTH, NUMBERS_WIDTH};

#[derive(Clone, Copy, Debug, Default, PartialEq)]
pub struct Vec2 {
    pub x: f32,
    pub y: f32,
}

/// A body's velocity: x, y and angular w.
#[derive(Clone, Copy, Debug, Default, PartialEq)]
pub struct Body {
    pub x: f32,
    pub y: f32,
    pub w: f32,
}

/// A point's part along the contact's dir. Its `impulse` is the point's load.
#[derive(Clone, Copy, Debug, Default, PartialEq)]
pub struct NormalPart {
    pub torque1: f32,
    pub torque2: f32,
    pub ii1: f32,
    pub ii2: f32,
    pub rhs: f32,
    pub impulse: f32,
    pub accumulator: f32,
    pub r: f32,
    pub cfm: f32,
    pub seed: f32,
}

/// A point's part along the tangent, (−dir.y, dir.x).
#[derive(Clone, Copy, Debug, Default, PartialEq)]
pub struct TangentPart {
    pub torque1: f32,
    pub torque2: f32,
    pub ii1: f32,
    pub ii2: f32,
    pub rhs: f32,
    pub impulse: f32,
    pub accumulator: f32,
    pub r: f32,
}

#[derive(Clone, Copy, Debug, Default, PartialEq)]
pub struct Point {
    pub normal: NormalPart,
    pub tangent: TangentPart,
}

/// A contact of two bodies, or of one and the floor. The default is all zeros, and so has no points: its steps are
/// refused with 5 or 6 until its numbers are set.
#[derive(Clone, Copy, Debug, Default, PartialEq)]
pub struct Contact {
    pub body1: u16,
    pub body2: u16,
    /// How many of the points there are: 1, which is a alone, or 2.
    pub count: u16,
    pub dir: Vec2,
    pub im1: Vec2,
    pub im2: Vec2,
    pub friction: f32,
    pub k12: f32,
    pub flag: f32,
    pub a: Point,
    pub b: Point,
}

impl Body {
    pub fn row(&self) -> [f32; BODY_WIDTH] {
        [self.x, self.y, self.w]
    }

    pub fn of_row(row: [f32; BODY_WIDTH]) -> Self {
        let [x, y, w] = row;
        Body { x, y, w }
    }
}

impl NormalPart {
    fn row(&self) -> [f32; 10] {
        let p = self;
        [
            p.torque1,
            p.torque2,
            p.ii1,
            p.ii2,
            p.rhs,
            p.impulse,
            p.accumulator,
            p.r,
            p.cfm,
            p.seed,
        ]
    }

    fn of_row(row: &[f32]) -> Self {
        NormalPart {
            torque1: row[0],
            torque2: row[1],
            ii1: row[2],
            ii2: row[3],
            rhs: row[4],
            impulse: row[5],
            accumulator: row[6],
            r: row[7],
            cfm: row[8],
            seed: row[9],
        }
    }
}

impl TangentPart {
    fn row(&self) -> [f32; 8] {
        let p = self;
        [
            p.torque1,
            p.torque2,
            p.ii1,
            p.ii2,
            p.rhs,
            p.impulse,
            p.accumulator,
            p.r,
        ]
    }

    fn of_row(row: &[f32]) -> Self {
        TangentPart {
            torque1: row[0],
            torque2: row[1],
            ii1: row[2],
            ii2: row[3],
            rhs: row[4],
            impulse: row[5],
            accumulator: row[6],
            r: row[7],
        }
    }
}

impl Point {
    fn of_row(row: &[f32]) -> Self {
        Point {
            normal: NormalPart::of_row(&row[0..10]),
            tangent: TangentPart::of_row(&row[10..18]),
        }
    }
}

impl Contact {
    pub fn numbers(&self) -> [u16; NUMBERS_WIDTH] {
        [self.body1, self.body2, self.count]
    }

    pub fn floats(&self) -> [f32; FLOATS_WIDTH] {
        let mut row = [0.0; FLOATS_WIDTH];
        let (dir, im1, im2) = (self.dir, self.im1, self.im2);
        row[0..6].copy_from_slice(&[dir.x, dir.y, im1.x, im1.y, im2.x, im2.y]);
        row[6..9].copy_from_slice(&[self.friction, self.k12, self.flag]);
        row[9..19].copy_from_slice(&self.a.normal.row());
        row[19..27].copy_from_slice(&self.a.tangent.row());
        row[27..37].copy_from_slice(&self.b.normal.row());
        row[37..45].copy_from_slice(&self.b.tangent.row());
        row
    }

    pub fn of_rows(numbers: [u16; NUMBERS_WIDTH], floats: [f32; FLOATS_WIDTH]) -> Self {
        let [body1, body2, count] = numbers;
        let pair = |i: usize| Vec2 {
            x: floats[i],
            y: floats[i + 1],
        };
        Contact {
            body1,
            body2,
            count,
            dir: pair(0),
            im1: pair(2),
            im2: pair(4),
            friction: floats[6],
            k12: floats[7],
            flag: floats[8],
            a: Point::of_row(&floats[9..27]),
            b: Point::of_row(&floats[27..45]),
        }
    }
}
