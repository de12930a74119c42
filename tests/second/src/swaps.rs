//! The second kind of mesh: the triangles of the first with sides swapped, so that they are fatter.
//! Document 02, "Fatter triangles".

/// 'A side may be swapped when the far corner of one triangle lies strictly inside the circle through the
/// other's corners, tested in whole numbers; ties stay. Always take the lowest such side, by (lower,
/// higher) station, until none is left.' All sides are looked at anew for every swap. Two stations that a
/// swap parts are never joined again, so there are no more swaps than pairs of stations.
pub fn fatter(x: &[u32], y: &[u32], swept: &[[usize; 3]]) -> Vec<[usize; 3]> {
    let mut mesh = Mesh::of(x, y, swept);
    let mut unparted = x.len() * (x.len() - 1) / 2;
    while let Some(lowest) = mesh.lowest() {
        assert!(unparted > 0, "more swaps than pairs of stations");
        unparted -= 1;
        mesh.swap(lowest);
    }
    mesh.listed()
}

/// A side by (lower, higher) station; pairs compare first by the lower, then by the higher.
type Side = (usize, usize);

/// A mesh while its sides are swapped: for each station the ways along its sides, by the station they go to,
/// each with the far corner of the triangle to the left. A hull side has a triangle on one hand only.
struct Mesh<'a> {
    x: &'a [u32],
    y: &'a [u32],
    ways: Vec<Vec<(usize, usize)>>,
}

impl<'a> Mesh<'a> {
    fn of(x: &'a [u32], y: &'a [u32], triangles: &[[usize; 3]]) -> Mesh<'a> {
        let ways = vec![Vec::new(); x.len()];
        let mut mesh = Mesh { x, y, ways };
        for &[a, b, c] in triangles {
            mesh.put(a, b, c);
        }
        mesh
    }

    /// Where the way from a to b stands among those of a, or would stand.
    fn place(&self, a: usize, b: usize) -> Result<usize, usize> {
        self.ways[a].binary_search_by_key(&b, |&(to, _)| to)
    }

    /// The far corner of the triangle to the left of the way from a to b, if there is one.
    fn far(&self, a: usize, b: usize) -> Option<usize> {
        self.place(a, b).ok().map(|at| self.ways[a][at].1)
    }

    /// Puts a triangle, its corners counterclockwise, on the left of its three sides.
    fn put(&mut self, a: usize, b: usize, c: usize) {
        for [a, b, c] in [[a, b, c], [b, c, a], [c, a, b]] {
            match self.place(a, b) {
                Ok(at) => self.ways[a][at] = (b, c),
                Err(at) => self.ways[a].insert(at, (b, c)),
            }
        }
    }

    /// Takes the way from a to b out, and answers the far corner of its triangle.
    fn take(&mut self, a: usize, b: usize) -> usize {
        let at = self.place(a, b).expect("a way that is there");
        self.ways[a].remove(at).1
    }

    /// The sides in their order, but for hull sides that have no triangle to the left of the way from the
    /// lower to the higher station: no hull side is swapped.
    fn sides(&self) -> impl DoubleEndedIterator<Item = Side> + '_ {
        let upward = |a: usize| self.ways[a].iter().map(move |&(b, _)| (a, b));
        (0..self.ways.len()).flat_map(upward).filter(|(a, b)| a < b)
    }

    /// 'the lowest such side', if one is left.
    fn lowest(&self) -> Option<Side> {
        self.sides().find(|&side| self.may_be_swapped(side))
    }

    /// Whether the far corner of the right triangle lies strictly inside the circle of the left one. That
    /// is so exactly if the far corner of the left one lies strictly inside the circle of the right one.
    /// A hull side has no second triangle and stays.
    fn may_be_swapped(&self, (a, b): Side) -> bool {
        match (self.far(a, b), self.far(b, a)) {
            (Some(left), Some(right)) => self.in_circle(a, b, left, right) > 0,
            _ => false,
        }
    }

    /// The two triangles of a side and their far corners make a quadrilateral; the side gives way to the
    /// one between the far corners.
    fn swap(&mut self, (a, b): Side) {
        let (left, right) = (self.take(a, b), self.take(b, a));
        self.put(a, right, left);
        self.put(b, left, right);
    }

    /// Positive if d lies inside the circle through a, b, c, which go counterclockwise; 0 on the circle. It
    /// is the determinant of the rows x, y, x² + y² of the three, as seen from d: whole numbers under 2^56.
    fn in_circle(&self, a: usize, b: usize, c: usize, d: usize) -> i64 {
        let row = |station: usize| {
            let dx = i64::from(self.x[station]) - i64::from(self.x[d]);
            let dy = i64::from(self.y[station]) - i64::from(self.y[d]);
            (dx, dy, dx * dx + dy * dy)
        };
        let ((x1, y1, s1), (x2, y2, s2), (x3, y3, s3)) = (row(a), row(b), row(c));
        s1 * (x2 * y3 - y2 * x3) + s2 * (x3 * y1 - y3 * x1) + s3 * (x1 * y2 - y1 * x2)
    }

    /// 'Triangles are then listed by their three numbers, lowest first': as they are written, from the
    /// lowest station counterclockwise, and the first numbers compare first.
    fn listed(&self) -> Vec<[usize; 3]> {
        let from = |a: usize| self.ways[a].iter().map(move |&(b, c)| [a, b, c]);
        let around = (0..self.ways.len()).flat_map(from);
        let mut triangles: Vec<[usize; 3]> = around.filter(|[a, b, c]| a < b && a < c).collect();
        triangles.sort();
        triangles
    }
}
