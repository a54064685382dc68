//! Elements to try: the worked cases A to G of 01, and random ones.

/// 24 coordinates: x, y, z of nodes 1 to 8.
pub type Points = [i64; 24];

/// Eight nodes laid end to end.
pub fn from_nodes(nodes: [[i64; 3]; 8]) -> Points {
    let mut points = [0; 24];
    for (place, node) in nodes.iter().enumerate() {
        points[3 * place..3 * place + 3].copy_from_slice(node);
    }
    points
}

/// A cube with edges along the axes, from `low` to `high` on each.
pub fn cube(low: i64, high: i64) -> Points {
    let (l, h) = (low, high);
    from_nodes([
        [l, l, l],
        [h, l, l],
        [h, h, l],
        [l, h, l],
        [l, l, h],
        [h, l, h],
        [h, h, h],
        [l, h, h],
    ])
}

/// Nodes 1-4 exchanged with 5-8.
pub fn rings_exchanged(points: &Points) -> Points {
    let mut exchanged = *points;
    exchanged.rotate_left(12);
    exchanged
}

/// A square of half side `half` at height 0 under a square ring at `height`
/// whose node 5 stands at (p, q), the others a quarter turn further each.
/// With half 1 and height 1, (p, q) = (1, -1), (1, 1) and (2, 2) are the cases
/// D, E and F of 01.
pub fn twisted(half: i64, height: i64, p: i64, q: i64) -> Points {
    let h = half;
    from_nodes([
        [-h, -h, 0],
        [h, -h, 0],
        [h, h, 0],
        [-h, h, 0],
        [p, q, height],
        [-q, p, height],
        [-p, -q, height],
        [q, -p, height],
    ])
}

/// The worked cases A to G.
pub fn worked() -> [(char, Points); 7] {
    let mut g = cube(0, 3);
    g[..3].copy_from_slice(&[1, 1, 1]);
    [
        ('A', cube(0, 1)),
        ('B', from_nodes([[2, -3, 5]; 8])),
        ('C', rings_exchanged(&cube(0, 1))),
        ('D', twisted(1, 1, 1, -1)),
        ('E', twisted(1, 1, 1, 1)),
        ('F', twisted(1, 1, 2, 2)),
        ('G', g),
    ]
}

/// A small generator of the xorshift kind.
pub struct Shaker {
    state: u64,
}

impl Shaker {
    pub fn new(seed: u64) -> Shaker {
        // the state must not be 0
        let state = if seed == 0 { 0x9E37_79B9_7F4A_7C15 } else { seed };
        let mut shaker = Shaker { state };
        for _ in 0..16 {
            shaker.draw();
        }
        shaker
    }

    pub fn draw(&mut self) -> u64 {
        self.state ^= self.state >> 12;
        self.state ^= self.state << 25;
        self.state ^= self.state >> 27;
        self.state.wrapping_mul(0x2545_F491_4F6C_DD1D)
    }

    /// A whole number in low..=high; low if there is none.
    pub fn between(&mut self, low: i64, high: i64) -> i64 {
        let span = i128::from(high) - i128::from(low) + 1;
        if span <= 0 {
            return low;
        }
        (i128::from(low) + i128::from(self.draw() >> 8) % span) as i64
    }

    fn shake(&mut self, points: &mut Points, by: i64) {
        for x in points.iter_mut() {
            *x += self.between(-by, by);
        }
    }

    /// Coordinates in -3..3, so that zeros are common.
    pub fn small(&mut self) -> Points {
        let mut points = [0; 24];
        self.shake(&mut points, 3);
        points
    }

    /// A cube whose nodes are moved by up to about half its side.
    pub fn shaken_cube(&mut self) -> Points {
        let side = self.between(1, 400);
        let mut points = cube(0, side);
        let by = self.between(0, side * 6 / 10);
        self.shake(&mut points, by);
        points
    }

    /// Twisted, often exactly, else a little shaken; flat ones among them.
    pub fn twisted(&mut self) -> Points {
        let half = self.between(1, 12);
        let height = self.between(0, 12);
        let (p, q) = (self.between(-24, 24), self.between(-24, 24));
        let mut points = twisted(half, height, p, q);
        if self.between(0, 1) == 1 {
            for x in points.iter_mut() {
                *x *= 40;
            }
            let by = self.between(0, 60);
            self.shake(&mut points, by);
        }
        points
    }

    /// The twists of the cases D to F and their like: small whole numbers.
    pub fn plain_twist(&mut self) -> Points {
        let (half, height) = (self.between(1, 2), self.between(1, 2));
        let (p, q) = (self.between(-3, 3), self.between(-3, 3));
        twisted(half, height, p, q)
    }

    /// Over a whole range, its ends included.
    pub fn wide(&mut self, range: i64) -> Points {
        let ends = [-range, range];
        let mut points = cube(-range, range);
        for x in points.iter_mut() {
            match self.between(0, 5) {
                0 => *x = self.between(-range, range),
                1 => *x = ends[self.between(0, 1) as usize],
                _ => {}
            }
        }
        points
    }

    /// A cube a little shaken, with one node laid on another.
    pub fn collapsed(&mut self) -> Points {
        let mut points = cube(0, 20);
        let by = self.between(0, 6);
        self.shake(&mut points, by);
        let (from, to) = (self.between(0, 7) as usize, self.between(0, 7) as usize);
        points.copy_within(3 * from..3 * from + 3, 3 * to);
        points
    }

    /// One of the kinds above, mirrored in one axis or with its rings
    /// exchanged.
    pub fn mirrored(&mut self) -> Points {
        let points = match self.between(0, 2) {
            0 => self.shaken_cube(),
            1 => self.twisted(),
            _ => self.collapsed(),
        };
        if self.between(0, 1) == 0 {
            return rings_exchanged(&points);
        }
        let axis = self.between(0, 2) as usize;
        let mut mirrored = points;
        for node in mirrored.chunks_exact_mut(3) {
            node[axis] = -node[axis];
        }
        mirrored
    }

    /// A ring turned by about a quarter to a half against its square, tilted
    /// and shaken: corners good, J small somewhere between them.
    pub fn strained(&mut self) -> Points {
        let half = self.between(6, 10);
        let (p, q) = (self.between(2, 24), self.between(-10, 24));
        let mut points = twisted(half, 10, p, q);
        for x in points.iter_mut() {
            *x *= 100;
        }
        let by = self.between(1, 900);
        self.shake(&mut points, by);
        points
    }

    /// Mostly an element that is undecided at depth 0 or at depth 1 as well.
    pub fn needs_cutting(&mut self) -> Points {
        let depth = self.between(0, 1) as u32;
        let mut points = self.strained();
        for _ in 0..100 {
            if crate::record(&points, 0)[0] == 2 && crate::record(&points, depth)[0] == 2 {
                return points;
            }
            points = if self.between(0, 4) == 0 { self.shaken_cube() } else { self.strained() };
        }
        points
    }

    /// The same element seen from another side: its nodes renumbered by a
    /// symmetry of the reference cube.  Where that would change the sign of J,
    /// x is mirrored as well.
    pub fn turned(&mut self, points: &Points) -> Points {
        let mut order = [0usize, 1, 2];
        let mut odd = false;
        for i in (1..3).rev() {
            let other = self.between(0, i as i64) as usize;
            order.swap(i, other);
            odd ^= i != other;
        }
        let flips = [0; 3].map(|_| self.between(0, 1) as u32);
        odd ^= flips.iter().sum::<u32>() % 2 == 1;
        let mut turned = [0; 24];
        for (n, place) in crate::CORNERS.iter().enumerate() {
            let source = order.map(|axis| place[axis] ^ flips[axis]);
            let from = crate::CORNERS.iter().position(|c| *c == source).unwrap_or(n);
            turned[3 * n..3 * n + 3].copy_from_slice(&points[3 * from..3 * from + 3]);
            if odd {
                turned[3 * n] = -turned[3 * n];
            }
        }
        turned
    }

    /// An element of a random kind; every coordinate is within the old range, -4,096..4,096.
    pub fn element(&mut self) -> Points {
        let points = match self.between(0, 11) {
            0 | 1 => self.small(),
            2 | 3 => self.shaken_cube(),
            4 | 5 => self.twisted(),
            6 => self.plain_twist(),
            7 => self.mirrored(),
            8 => self.wide(4096),
            9 => self.collapsed(),
            _ => self.needs_cutting(),
        };
        if self.between(0, 3) == 0 {
            points
        } else {
            self.turned(&points)
        }
    }
}
