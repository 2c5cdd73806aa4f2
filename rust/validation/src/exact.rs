//! The exact solution of a dam break over a flat bed (Stoker 1948; formula (27) of report 4529), in metres and seconds, the dam at 0.

/// The library's gravity.
pub const GRAVITY: f64 = 9.80665;

/// From left to right: still water, a rarefaction, an even middle, a shock, still water. The pollutant's jump moves with the middle.
#[derive(Clone, Copy, Debug)]
pub struct DamBreak {
    pub left_depth: f64,
    pub right_depth: f64,
    pub middle_depth: f64,
    pub middle_velocity: f64,
    pub shock_velocity: f64,
}

fn celerity(depth: f64) -> f64 {
    (GRAVITY * depth).sqrt()
}

impl DamBreak {
    /// Needs `left_depth > right_depth > 0`.
    pub fn new(left_depth: f64, right_depth: f64) -> DamBreak {
        let (cl, cr) = (celerity(left_depth), celerity(right_depth));
        // formula (27), the middle's celerity c = cl - u/2 put in: positive at u = 0, negative where c comes down to cr
        let formula_27 = |u: f64| {
            let (c2, r2) = ((cl - u / 2.0).powi(2), cr * cr);
            -2.0 * u * u * c2 * r2 + (c2 - r2) * (c2 * c2 - r2 * r2)
        };
        let (mut low, mut high) = (0.0, 2.0 * (cl - cr));
        for _ in 0..200 {
            let half = (low + high) / 2.0;
            if formula_27(half) > 0.0 {
                low = half;
            } else {
                high = half;
            }
        }
        let middle_depth = (cl - low / 2.0).powi(2) / GRAVITY;
        DamBreak {
            left_depth,
            right_depth,
            middle_depth,
            middle_velocity: low,
            // what the shock sweeps up is what the middle brings
            shock_velocity: middle_depth * low / (middle_depth - right_depth),
        }
    }

    /// Froude number of the middle, and so of the pollutant's jump.
    pub fn froude(&self) -> f64 {
        self.middle_velocity / celerity(self.middle_depth)
    }

    /// Depth and velocity at place x and time t > 0.
    pub fn state(&self, x: f64, t: f64) -> (f64, f64) {
        let (cl, speed) = (celerity(self.left_depth), x / t);
        if speed <= -cl {
            (self.left_depth, 0.0)
        } else if speed < self.middle_velocity - celerity(self.middle_depth) {
            let c = (2.0 * cl - speed) / 3.0;
            (c * c / GRAVITY, 2.0 * (cl - c))
        } else if speed <= self.shock_velocity {
            (self.middle_depth, self.middle_velocity)
        } else {
            (self.right_depth, 0.0)
        }
    }

    /// Where the water that is at x at time t > 0 stood at time 0. Its concentration is still the one it had there.
    pub fn origin(&self, x: f64, t: f64) -> f64 {
        let (cl, speed) = (celerity(self.left_depth), x / t);
        // the water between here and the pollutant's jump, which began at the dam
        let middle_water = (x - self.middle_velocity * t) * self.middle_depth;
        if speed <= -cl || speed > self.shock_velocity {
            x
        } else if speed < self.middle_velocity - celerity(self.middle_depth) {
            // x = 2 cl t - 3 cl t0^(1/3) t^(2/3) is the path in the rarefaction of what it reached at t0
            -cl * t * ((2.0 * cl - speed) / (3.0 * cl)).powi(3)
        } else if middle_water <= 0.0 {
            middle_water / self.left_depth
        } else {
            middle_water / self.right_depth
        }
    }

    /// At time t: both ends of the rarefaction, the pollutant's jump, the shock.
    pub fn edges(&self, t: f64) -> [f64; 4] {
        let (u, c) = (self.middle_velocity, celerity(self.middle_depth));
        [-celerity(self.left_depth), u - c, u, self.shock_velocity].map(|speed| speed * t)
    }

    /// Where the water that stood at `origin` is at time t > 0; the shock leaves no gap, so halving finds it.
    pub fn place(&self, origin: f64, t: f64) -> f64 {
        // no water goes left, none goes faster than the shock
        let (mut low, mut high) = (origin, origin.max(0.0) + self.shock_velocity * t);
        for _ in 0..200 {
            let half = (low + high) / 2.0;
            if self.origin(half, t) < origin {
                low = half;
            } else {
                high = half;
            }
        }
        high
    }
}
